"""Which word of a refused text is at fault: the program says its line and what is wrong, and the text the rest.

A word is given only where the text leaves no other: it is shown to a person, who would look for a fault where there is none."""
import re
from bisect import bisect_left, bisect_right
from typing import Callable, Dict, Iterator, List, NamedTuple, Optional, Tuple

from .limits import MOST_BOUND, MOST_DELAY, MOST_NAME, MOST_TEXT
from .near import MOST, near
from .netlist_text import GATE_KINDS, MANY_OUTPUTS
from .verilog_grammar import NAMES, Grammar, PlacedGate, PlacedInstance, PlacedModule
from .verilog_tokens import Token, tokens_of

# How the names end that gates have which the text gives none, or several outputs.
MADE = re.compile(r"\$\d+$")
# What a person takes for one word, though a text has it as several: a directive, a number with a base.
WHOLE = re.compile(r"`\w+|\d+[ \t]*'[sS]?[bodhBODH][ \t]*[0-9a-zA-Z_?]+")


class FaultWord(NamedTuple):
    """A word as it is written, with its line and its column, both from 1. `near` are names that may be meant in its place."""

    word: str
    line: int
    column: int
    near: Tuple[str, ...] = ()


class RefusedText(NamedTuple):
    """A refused text with its tokens, the line at fault by where it begins and ends and by its tokens' places among them, and the
    default delay, if any."""

    tokens: List[Token]
    grammar: Grammar
    begin: int
    end: int
    of_line: range
    delay: Optional[int]

    def on_line(self, token: Token) -> bool:
        return self.begin <= token.place < self.end

    def first(self, is_at_fault: Callable[[int], bool]) -> Optional[Token]:
        """The first token of the line of which this is so."""
        return next((self.tokens[it] for it in self.of_line if is_at_fault(it)), None)


def fault_word(text: str, line: int, name: str, delay: Optional[int] = None) -> Optional[FaultWord]:
    """The word for which a text is refused at this line with the fault of this name; None where that is not certain."""
    find, lines = FINDERS.get(name), line_starts(text)
    if find is None or line > len(lines) or len(text.encode("utf-8", "surrogateescape")) > MOST_TEXT:
        return None
    tokens = tokens_of(text)
    begin, end = lines[line - 1], [*lines, len(text) + 1][line]
    places = [it.place for it in tokens]
    of_line = range(bisect_left(places, begin), bisect_left(places, end))
    of = RefusedText(tokens, Grammar(tokens), begin, end, of_line, delay)
    found = find(of)
    if found is None or not found.text:
        return None
    at = bisect_right(lines, found.place) - 1
    whole = WHOLE.match(text, found.place)
    word = whole[0] if whole and found.kind in ("OTHER", "NUMBER") else found.text
    return FaultWord(word, at + 1, found.place - lines[at] + 1, tuple(names_for(of, found)))


def line_starts(text: str) -> List[int]:
    """Where each line begins."""
    found = [0]
    for line in text.split("\n")[:-1]:
        found.append(found[-1] + len(line) + 1)
    return found


# The first pass of the program takes token by token, so of several tokens of a line that can't stand in any text it is the first.


def text_word(of: RefusedText) -> Optional[Token]:
    return of.first(lambda place: of.tokens[place].kind == "TEXT")


def unsupported_word(of: RefusedText) -> Optional[Token]:
    units = [scale_of(it) for it in of.tokens if it.kind == "TIMESCALE"]

    def is_at_fault(place: int) -> bool:
        token = of.tokens[place]
        return token.kind in ("LEFT_OUT", "OTHER") or token.kind == "TIMESCALE" and scale_of(token) != units[0]

    return of.first(is_at_fault)


def scale_of(token: Token) -> str:
    """The first number and unit of a TIMESCALE, where they stand without a comment between them."""
    return "".join(token.text[len("`timescale") :].partition("/")[0].split())


def syntax_word(of: RefusedText) -> Optional[Token]:
    stuck = of.grammar.stuck
    return stuck if stuck and of.on_line(stuck) else None


def bad_name(of: RefusedText) -> Optional[Token]:
    return of.first(lambda place: of.tokens[place].kind in NAMES and is_bad(of.tokens[place].name))


def is_bad(name: str) -> bool:
    return len(name) > MOST_NAME or "." in name or "'" in name or name == "$end"


def delay_numbers(of: RefusedText) -> Iterator[int]:
    """The numbers of delays that stand on the line, by their places: behind a `#`, and behind `# (` and commas."""
    for place in of.of_line:
        if of.tokens[place].kind == "NUMBER":
            before = place - 1
            for _ in range(2):
                if of.tokens[before].text == "," and of.tokens[before - 1].kind == "NUMBER":
                    before -= 2
            if of.tokens[before].text == "(":
                before -= 1
            if before >= 0 and of.tokens[before].text == "#":
                yield place


def no_delay(of: RefusedText) -> Optional[Token]:
    zeros = {place for place in delay_numbers(of) if of.tokens[place].number == 0}

    def is_at_fault(place: int) -> bool:
        is_bare = of.tokens[place].text in GATE_KINDS and of.tokens[place + 1].text != "#"
        return place in zeros or of.delay is None and is_bare

    return of.first(is_at_fault)


def large_delay(of: RefusedText) -> Optional[Token]:
    large = {place for place in delay_numbers(of) if of.tokens[place].number > MOST_DELAY}
    return of.first(lambda place: place in large)


def large_bound(of: RefusedText) -> Optional[Token]:
    def is_at_fault(place: int) -> bool:
        token, before = of.tokens[place], of.tokens[place - 1].text if place else ""
        return token.kind == "NUMBER" and before in ("[", ":") and token.number > MOST_BOUND

    return of.first(is_at_fault)


def gates_that_end(of: RefusedText) -> List[PlacedGate]:
    return [gate for module in of.grammar.modules for gate in module.gates if of.on_line(gate.end)]


def wrong_arity(of: RefusedText) -> Optional[Token]:
    """The name of the gate, or the word of its kind where it has none."""
    gates = [it for it in gates_that_end(of) if not fits(it)]
    return on_the_line(of, (gates[0].name or gates[0].kind) if gates else None)


def fits(gate: PlacedGate) -> bool:
    count = len(gate.terminals)
    if gate.kind.text in MANY_OUTPUTS:
        return count > 1
    return count == 3 if gate.kind.text.startswith(("bufif", "notif")) else 2 <= count <= 65


def constant_output(of: RefusedText) -> Optional[Token]:
    outputs = [it.token for gate in gates_that_end(of) for it in gate.outputs if it.token.kind == "CONST"]
    return on_the_line(of, outputs[0] if outputs else None)


def duplicate(of: RefusedText) -> Optional[Token]:
    """The one name of the line that its module has before. Names that the text does not write, of bits and of gates without a
    name, leave it open, and so does a line on which a module begins."""
    words = [of.tokens[place] for place in of.of_line]
    if any(it.text == "module" for it in words):
        return None
    begin = next((place for place in reversed(range(of.of_line.start)) if of.tokens[place].text == "module"), 0)
    before = {it.name for it in of.tokens[begin : of.of_line.start] if it.kind in NAMES}
    again = []
    for token in (it for it in words if it.kind in NAMES):
        if token.name in before:
            again.append(token)
        before.add(token.name)
    is_open = any("[" in it or MADE.search(it) for it in before)
    return again[0] if len(again) == 1 and not is_open else None


def width_word(of: RefusedText) -> Optional[Token]:
    """The one terminal of a gate on the line that is no bit, where neither a declaration nor an instance stands there."""
    modules = of.grammar.modules
    others = [it for module in modules for it in module.declared]
    others += [it for module in modules for instance in module.instances for it in (instance.module, instance.name)]
    if any(map(of.on_line, others)) or any(of.tokens[place].kind == "ESCAPED" for place in of.of_line):
        return None
    found = [it for module in modules for it in no_bits(module) if of.on_line(it)]
    return found[0] if len(found) == 1 else None


def no_bits(module: PlacedModule) -> Iterator[Token]:
    """The vectors among the terminals of gates, and the indices that stand for no bit; what is declared later is a scalar yet."""
    since: Dict[str, int] = {}
    for it in module.declared:
        since.setdefault(it.name, it.place)
    for token, index in (it for gate in module.gates for it in gate.terminals):
        is_declared = since.get(token.name, token.place) < token.place
        bounds = module.ranges.get(token.name) if is_declared else None
        if index is None and bounds:
            yield token
        elif index and not (bounds and min(bounds) <= index.number <= max(bounds)):
            yield index


def on_the_line(of: RefusedText, token: Optional[Token]) -> Optional[Token]:
    return token if token and of.on_line(token) else None


# The second pass takes the instances in the text's order, and says the line of an instance's name.


def instances_named(of: RefusedText) -> List[PlacedInstance]:
    return [it for module in of.grammar.modules for it in module.instances if of.on_line(it.name)]


def unknown_module(of: RefusedText) -> Optional[Token]:
    known = {it.name.name for it in of.grammar.modules}
    found = next((it for it in instances_named(of) if it.module.name not in known), None)
    return on_the_line(of, found.module) or found.name if found else None


def port_at_fault(of: RefusedText) -> Optional[Token]:
    modules = {it.name.name: it for it in of.grammar.modules}
    found = (surplus(it, modules[it.module.name].ports) for it in instances_named(of) if it.module.name in modules)
    return next((it for it in found if it), None)


def surplus(instance: PlacedInstance, ports: List[str]) -> Optional[Token]:
    """The first port that is not there or is named again, or the first connection that has no port."""
    seen = set()
    for token in instance.by_name:
        if token.name not in ports or token.name in seen:
            return token
        seen.add(token.name)
    more = instance.by_order[len(ports) :]
    return next((it.token for it in more if it), instance.name) if more else None


def names_for(of: RefusedText, token: Token) -> List[str]:
    """The names that may be meant where a token names a module that is not there, or a port that its module has not."""
    modules = {it.name.name: it for it in of.grammar.modules}
    for instance in instances_named(of):
        known = modules.get(instance.module.name)
        if known is None and token is instance.module:
            return near(token.name, list(modules))
        if known is not None and any(token is it for it in instance.by_name):
            return near(token.name, known.ports) or known.ports[:MOST]
    return []


# The third and the fourth pass say the line of a word `module`.


def module_on_line(of: RefusedText) -> Optional[PlacedModule]:
    """The module that begins on the line, where no other does."""
    found = [it for it in of.grammar.modules if of.on_line(it.word)]
    return found[0] if len(found) == 1 else None


def module_name(of: RefusedText) -> Optional[Token]:
    module = module_on_line(of)
    return module.name if module else None


def driven_input(of: RefusedText) -> Optional[Token]:
    """The input that a gate of the top drives by itself, at that gate: it stands on another line than that of the word `module`."""
    module = module_on_line(of)
    if module is None:
        return None
    outputs = (it.token for gate in module.gates for it in gate.outputs)
    return next((it for it in outputs if module.directions.get(it.name) == "input"), None)


FINDERS: Dict[str, Callable[[RefusedText], Optional[Token]]] = {
    "Text": text_word,
    "Unsupported": unsupported_word,
    "Syntax": syntax_word,
    "BadName": bad_name,
    "ZeroDelay": no_delay,
    "DelayTooLarge": large_delay,
    "TooMany": large_bound,
    "WrongArity": wrong_arity,
    "PortKind": constant_output,
    "DuplicateName": duplicate,
    "WidthMismatch": width_word,
    "UnknownModule": unknown_module,
    "PortCount": port_at_fault,
    "Recursive": module_name,
    "ManyTops": module_name,
    "DrivenInput": driven_input,
}
