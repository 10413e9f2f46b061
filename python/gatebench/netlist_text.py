"""What a design text says of each module. The program has taken the text, so nothing is checked here."""
import re
from dataclasses import dataclass, field
from typing import Callable, Dict, List, NamedTuple, Optional, Sequence, Tuple

GATE_KINDS = ("and", "nand", "or", "nor", "xor", "xnor", "buf", "not", "bufif1", "bufif0", "notif1", "notif0")
# Kinds that may have several outputs, with one input behind them.
MANY_OUTPUTS = ("buf", "not")
NET_KINDS = ("wire", "tri", "wand", "triand", "wor", "trior", "tri0", "tri1")
DIRECTIONS = ("input", "output")

WHITE = r"(?:\s|//[^\n]*|/\*.*?\*/|\(\*.*?\*\))"
UNIT = rf"\d+{WHITE}*[munpf]?s"
SKIPPED = re.compile(rf"(?:{WHITE}|`timescale{WHITE}+{UNIT}{WHITE}*/{WHITE}*{UNIT})+", re.S)
# A constant, an escaped name, a name or word, a number, a mark.
TOKEN = re.compile(r"1'[bB][01xXzZ]|\\[!-~]+|[A-Za-z_][\w$]*|[0-9][0-9_]*|[(),;.#\[\]:]", re.A)

Range = Optional[Tuple[int, int]]


class Terminal(NamedTuple):
    """What is connected: a constant such as `1'b0`, or a net's name, with the index of a bit or as a whole."""

    name: str
    at: Optional[int] = None


class TextGate(NamedTuple):
    """A gate of a module; `delays` has none to three: one for both edges, or rise, fall and turn-off."""

    name: str
    kind: str
    delays: Tuple[int, ...]
    output: Terminal
    inputs: Tuple[Terminal, ...]


class Instance(NamedTuple):
    """An instance of a module, with what is connected to its ports, by order or by name."""

    module: str
    name: str
    by_order: List[Optional[Terminal]]
    by_name: Dict[str, Optional[Terminal]]


@dataclass
class Module:
    """A module: its ports in order, with their directions, the ranges of its vectors, its gates and instances."""

    name: str
    ports: List[str] = field(default_factory=list)
    directions: Dict[str, str] = field(default_factory=dict)
    ranges: Dict[str, Range] = field(default_factory=dict)
    gates: List[TextGate] = field(default_factory=list)
    instances: List[Instance] = field(default_factory=list)
    unnamed: int = 0


class Unread(ValueError):
    """A text that this reader can't read."""


def tokens_of(text: str) -> List[str]:
    """The tokens of a text; an escaped name keeps its backslash, so that it is no word."""
    found: List[str] = []
    place = 0
    while True:
        skipped = SKIPPED.match(text, place)
        place = skipped.end() if skipped else place
        if place == len(text):
            return found
        token = TOKEN.match(text, place)
        if not token:
            raise Unread(f"line {text.count(chr(10), 0, place) + 1} has {text[place]!r}, which is not read here")
        found.append(token[0])
        place = token.end()


def modules_of(text: str) -> Dict[str, Module]:
    """The modules of a text by their names."""
    reader = Reader(tokens_of(text))
    found: Dict[str, Module] = {}
    try:
        while reader.tokens[reader.place :]:
            module = reader.module()
            found[module.name] = module
    except (IndexError, ValueError) as error:
        raise Unread(f"the text is not read here: {error}") from None
    return found


class Reader:
    """Goes through the tokens of a text."""

    def __init__(self, tokens: List[str]) -> None:
        self.tokens, self.place = tokens, 0
        self.made = Module("")

    def at(self, *wanted: str) -> bool:
        return self.tokens[self.place] in wanted

    def take(self) -> str:
        self.place += 1
        return self.tokens[self.place - 1]

    def name(self) -> str:
        token = self.take()
        return token[1:] if token.startswith("\\") else token

    def number(self) -> int:
        return int(self.take().replace("_", ""))

    def listed(self, item: Callable[[], None], end: str) -> None:
        """Takes items with commas between them, and the mark behind them."""
        item()
        while self.take() != end:
            item()

    def module(self) -> Module:
        if self.take() != "module":
            raise ValueError("a module is wanted")
        self.made = Module(self.name())
        if self.take() == "(":
            if self.at(")"):
                self.take()
            else:
                self.direction, self.bounds = "", None  # type: str, Range
                self.listed(self.port, ")")
            self.take()
        while not self.at("endmodule"):
            self.item()
        self.take()
        return self.made

    def port(self) -> None:
        if self.at(*DIRECTIONS):
            self.direction = self.take()
            self.bounds = self.kind_and_range()
        name = self.name()
        self.made.ports.append(name)
        if self.direction:
            self.made.directions[name], self.made.ranges[name] = self.direction, self.bounds

    def kind_and_range(self) -> Range:
        if self.at(*NET_KINDS):
            self.take()
        if not self.at("["):
            return None
        self.take()
        left = self.number()
        self.take()
        right = self.number()
        self.take()
        return left, right

    def item(self) -> None:
        if self.at(*DIRECTIONS, *NET_KINDS):
            self.declarations(self.take() if self.at(*DIRECTIONS) else "")
        elif self.at(*GATE_KINDS):
            self.gates()
        else:
            module = self.name()
            self.listed(lambda: self.instance(module), ";")

    def declarations(self, direction: str) -> None:
        bounds = self.kind_and_range()

        def declaration() -> None:
            name = self.name()
            self.made.ranges[name] = bounds
            if direction:
                self.made.directions[name] = direction

        self.listed(declaration, ";")

    def gates(self) -> None:
        kind, delays = self.take(), ()  # type: str, Tuple[int, ...]
        if self.at("#"):
            self.take()
            delays = self.delays()
        self.listed(lambda: self.gate(kind, delays), ";")

    def delays(self) -> Tuple[int, ...]:
        if not self.at("("):
            return (self.number(),)
        self.take()
        found: List[int] = []
        self.listed(lambda: found.append(self.number()), ")")
        return tuple(found)

    def gate(self, kind: str, delays: Tuple[int, ...]) -> None:
        if self.at("("):
            self.made.unnamed += 1
            name = f"${self.made.unnamed}"
        else:
            name = self.name()
        self.take()
        terminals: List[Terminal] = []
        self.listed(lambda: terminals.append(self.terminal()), ")")
        count = len(terminals) - 1 if kind in MANY_OUTPUTS else 1
        names = [name] if count == 1 else [f"{name}${number}" for number in range(1, count + 1)]
        inputs = tuple(terminals[count:])
        self.made.gates += [TextGate(it, kind, delays, out, inputs) for it, out in zip(names, terminals)]

    def terminal(self) -> Terminal:
        if self.tokens[self.place].startswith("1'"):
            return Terminal(self.take().lower())
        name = self.name()
        if not self.at("["):
            return Terminal(name)
        self.take()
        index = self.number()
        self.take()
        return Terminal(name, index)

    def instance(self, module: str) -> None:
        made = Instance(module, self.name(), [], {})
        self.take()
        self.made.instances.append(made)
        if self.at("."):
            self.listed(lambda: self.named_connection(made), ")")
        elif self.at(")"):
            self.take()
        else:
            self.listed(lambda: made.by_order.append(self.connection(",", ")")), ")")

    def named_connection(self, to: Instance) -> None:
        self.take()
        port = self.name()
        self.take()
        to.by_name[port] = self.connection(")")
        self.take()

    def connection(self, *ends: str) -> Optional[Terminal]:
        return None if self.at(*ends) else self.terminal()


def bits_of(bounds: Range, name: str) -> Sequence[str]:
    """The nets that a name stands for, from the left."""
    if bounds is None:
        return [name]
    left, right = bounds
    step = 1 if left <= right else -1
    return [f"{name}[{index}]" for index in range(left, right + step, step)]
