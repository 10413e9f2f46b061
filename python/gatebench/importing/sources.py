"""Verilog files made ready for yosys, which knows neither the delays of gates nor user-defined primitives.

Each gate of a text becomes an instance of an empty module whose name says its kind and its delays, so that yosys leaves it
alone; `specify`, `celldefine` and what stands in a `primitive` are left out. Lines stay where they are."""
import re
from fractions import Fraction
from typing import Dict, List, NamedTuple, Optional, Sequence, Set, Tuple

from .fault import Fault
from .times import Delays, Unit, unit_of
from .verilog_words import Word, blank, words_of

GATES = ("and", "nand", "or", "nor", "xor", "xnor", "buf", "not", "bufif0", "bufif1", "notif0", "notif1")
THREE_STATE = ("bufif0", "bufif1", "notif0", "notif1")
MANY_OUTPUTS = ("buf", "not")
SWITCHES = {
    *("nmos", "pmos", "cmos", "rnmos", "rpmos", "rcmos", "tran", "rtran", "tranif0", "tranif1", "rtranif0", "rtranif1"),
    *("pullup", "pulldown"),
}
# Nets that resolve by a rule of their own; yosys is told that they are wires, with their kind as an attribute.
KINDS = ("wand", "triand", "wor", "trior", "tri0", "tri1")
KIND = "gatebench_kind"
# Directives that yosys does not know and that change nothing here.
PASSED_OVER = {
    *("`celldefine", "`endcelldefine", "`suppress_faults", "`nosuppress_faults", "`enable_portfaults"),
    *("`disable_portfaults", "`delay_mode_path", "`delay_mode_distributed", "`delay_mode_unit", "`delay_mode_zero"),
    *("`unconnected_drive", "`nounconnected_drive", "`protect", "`endprotect"),
}
# The words behind which a statement begins; `)` ends the condition of a generated one.
BEFORE_STATEMENT = {
    *(";", "begin", "end", "else", ")", ":", "generate", "endgenerate", "endfunction", "endtask", "endspecify"),
    *("endcase",),
}
# What begins the name of a gate's empty module, and of one for a switch or a user-defined primitive.
PREFIX, UNKNOWN_PREFIX = "_gatebench_", "_primitive_"


class Primitive(NamedTuple):
    """A gate with its delays and its number of terminals, as an empty module. Delays are in femtoseconds, or in units of
    the result where the text has no `timescale`; None where none is written."""

    module: str
    kind: str
    terminals: int
    delays: Optional[Delays]
    in_units: bool

    @property
    def outputs(self) -> int:
        return self.terminals - 1 if self.kind in MANY_OUTPUTS else 1

    def text(self) -> str:
        """The empty module: its outputs are o0, o1, .., its inputs i0, i1, .."""
        ports = [f"output o{at}" for at in range(self.outputs)]
        ports += [f"input i{at}" for at in range(self.terminals - self.outputs)]
        return f"(* blackbox, keep *) module {self.module}({', '.join(ports)}); endmodule\n"


class Source(NamedTuple):
    """A file that was read, as a text for yosys. One of cells is no place for the top."""

    path: str
    text: str
    is_cells: bool


class Sources:
    """All Verilog files of an import, with what they have in common. `keeps_kinds` says that the kinds of nets are kept,
    which no synthesis does."""

    def __init__(self, keeps_kinds: bool = True) -> None:
        self.keeps_kinds = keeps_kinds
        self.files: List[Source] = []
        self.primitives: Dict[str, Primitive] = {}
        self.unit: Optional[Unit] = None
        self.faults: List[Fault] = []

    def read(self, designs: Sequence[str], cells: Sequence[str], replaced: Set[str]) -> None:
        """Reads the files of a design and of cells. A module whose name is among `replaced` is left out where its gates
        have no delays, or where it has a user-defined primitive."""
        texts = {path: read_text(path) for path in (*designs, *cells)}
        words = {path: words_of(text) for path, text in texts.items()}
        primitives = {name for it in words.values() for name in names_behind(it, "primitive")}
        for path, text in texts.items():
            made = Reader(self, path, text, words[path], primitives, replaced).text_for_yosys()
            self.files.append(Source(path, made, path not in designs))


def read_text(path: str) -> str:
    with open(path, encoding="utf-8", errors="surrogateescape", newline="") as file:
        return file.read().lstrip("\ufeff")


def names_behind(words: List[Word], keyword: str) -> List[str]:
    return [after.text for word, after in zip(words, words[1:]) if word.text == keyword]


class Reader:
    """Goes through one text, and puts other words in the place of some of its own."""

    def __init__(
        self, shared: Sources, path: str, text: str, words: List[Word], primitives: Set[str], replaced: Set[str]
    ) -> None:
        self.shared, self.path, self.text, self.words = shared, path, text, words
        self.primitives, self.replaced = primitives, replaced
        self.edits: List[Tuple[int, int, str]] = []
        self.unit: Optional[Unit] = None
        self.module, self.module_at, self.unnamed, self.faults_before = "", 0, 0, 0
        self.has_delays, self.has_primitives, self.depth = False, False, 0

    def text_for_yosys(self) -> str:
        at = 0
        while at < len(self.words):
            at = self.step(at)
        parts, done = [], 0
        for start, end, text in sorted(self.edits):
            if start >= done:
                parts += [self.text[done:start], text]
                done = end
        return "".join([*parts, self.text[done:]])

    def step(self, at: int) -> int:
        """Takes the word at a place, and gives the place of the next one."""
        word = self.words[at]
        if word.kind == "directive":
            return self.directive(at)
        self.depth += (word.text == "(") - (word.text == ")")
        if word.kind != "name":
            return at + 1
        if word.text in ("specify", "primitive"):
            return self.leave_out(at, "end" + word.text)
        if word.text in ("module", "macromodule"):
            return self.begin_module(at)
        if word.text in KINDS or word.text == "trireg":
            return self.net_kind(at)
        if word.text == "endmodule":
            self.end_module(word)
        elif self.begins_statement(at):
            return self.statement(at)
        return at + 1

    def begins_statement(self, at: int) -> bool:
        if at == 0 or at + 1 == len(self.words) or self.depth:
            return False
        return self.words[at - 1].text in BEFORE_STATEMENT or self.words[at - 2].text == ":"

    def statement(self, at: int) -> int:
        word, after = self.words[at], self.words[at + 1]
        if word.text in GATES or word.text in SWITCHES or word.text in self.primitives:
            if after.kind == "name" or after.text in ("#", "("):
                return self.gates(at)
        return at + 1

    def net_kind(self, at: int) -> int:
        """Takes the kind of a net: it goes before the direction, if there is one, as an attribute."""
        word, before = self.words[at], self.words[at - 1]
        first = before if before.text in ("input", "output", "inout") else word
        if word.text == "trireg":
            self.fault(word, "nets that keep a charge are not imported", "take a tri, or a latch")
        elif not self.shared.keeps_kinds and word.text in ("wand", "wor"):
            # yosys makes gates of them.
            pass
        elif not self.shared.keeps_kinds:
            self.fault(word, "a synthesis knows no nets of this kind", "import the netlist without --synthesize")
        else:
            self.edits.append((first.start, first.start, f'(* {KIND} = "{word.text}" *) '))
            self.edits.append((word.start, word.end, "wire"))
        return at + 1

    def fault(self, word: Word, why: str, cure: str) -> None:
        self.shared.faults.append(Fault(self.path, word.line, word.text, why, cure))

    def directive(self, at: int) -> int:
        word = self.words[at]
        if word.text in PASSED_OVER:
            end = word.end
            if word.text in ("`unconnected_drive",):
                end = self.words[at + 1].end
            self.edits.append((word.start, end, " "))
        elif word.text == "`timescale":
            self.unit = self.timescale(at)
            self.shared.unit = self.shared.unit or self.unit
        return at + 1

    def timescale(self, at: int) -> Optional[Unit]:
        line = self.text[self.words[at].end :].split("/")[0]
        try:
            return unit_of(line)
        except ValueError:
            self.fault(self.words[at], "no time unit stands behind it", "write it as `timescale 1ns/1ps")
            return None

    def leave_out(self, at: int, last: str) -> int:
        """Blanks a block up to its last word."""
        end = next((it for it in range(at, len(self.words)) if self.words[it].text == last), None)
        if end is None:
            self.fault(self.words[at], f"it has no {last}", f"end it by {last}")
            return len(self.words)
        start, stop = self.words[at].start, self.words[end].end
        self.edits.append((start, stop, blank(self.text[start:stop])))
        return end + 1

    def begin_module(self, at: int) -> int:
        if at + 1 < len(self.words):
            self.module, self.module_at = self.words[at + 1].text.lstrip("\\"), at
        self.unnamed, self.depth, self.has_delays, self.has_primitives = 0, 0, False, False
        self.faults_before = len(self.shared.faults)
        return at + 2

    def end_module(self, word: Word) -> None:
        is_weak = self.has_primitives or not self.has_delays
        if is_weak and self.module in self.replaced:
            start = self.words[self.module_at].start
            self.edits = [it for it in self.edits if it[0] < start]
            self.edits.append((start, word.end, blank(self.text[start : word.end])))
            del self.shared.faults[self.faults_before :]

    def gates(self, at: int) -> int:
        """Takes a statement of gates: a kind, delays, instances."""
        kind = self.words[at]
        place = self.strengths(at + 1)
        delays: Optional[Delays] = None
        if self.words[place].text == "#":
            end = self.closing(place + 1) + 1
            delays = self.delays(kind, self.words[place + 1 : end])
            place = end
        parts: List[str] = []
        while place < len(self.words):
            place = self.instance(kind, place, delays, parts)
            if place >= len(self.words) or self.words[place].text != ",":
                break
            place += 1
        if place >= len(self.words) or self.words[place].text != ";":
            return place
        start, stop = kind.start, self.words[place].end
        lines = self.text.count("\n", start, stop) - "".join(parts).count("\n")
        self.edits.append((start, stop, " ".join(parts) + "\n" * lines))
        return place

    def strengths(self, at: int) -> int:
        """Passes over the strengths (strong0, strong1); others are a fault."""
        if self.words[at].text != "(" or not re.fullmatch(
            r"(strong|pull|weak|highz|supply)[01]", self.words[at + 1].text
        ):
            return at
        end = self.closing(at)
        if any(it.kind == "name" and not it.text.startswith("strong") for it in self.words[at:end]):
            self.fault(self.words[at + 1], "there are no strengths", "leave it out where no other gate drives the net")
        return end + 1

    def closing(self, at: int) -> int:
        """The place of the parenthesis that closes the one at a place; the place itself where none stands there."""
        depth = 0
        for place in range(at, len(self.words)):
            depth += (self.words[place].text in "([{") - (self.words[place].text in ")]}")
            if depth == 0:
                return place
        return len(self.words) - 1

    def delays(self, kind: Word, words: List[Word]) -> Optional[Delays]:
        """The delays of `#2`, `#(2,3)` or `#(1:2:3,4)`: of three numbers the typical one."""
        groups: List[List[Word]] = [[]]
        for word in words:
            if word.text == ",":
                groups.append([])
            elif word.text not in ("(", ")"):
                groups[-1].append(word)
        times = [self.time(it) for it in groups if it]
        known = [it for it in times if it is not None]
        if len(known) != len(groups) or not known:
            return None
        self.has_delays = True
        rise, fall = known[0], known[1] if len(known) > 1 else known[0]
        if kind.text not in THREE_STATE:
            return Delays(rise, fall)
        return Delays(rise, fall, known[2] if len(known) > 2 else None)

    def time(self, words: List[Word]) -> Optional[Fraction]:
        numbers = [it for it in words if it.text != ":"]
        if len(numbers) not in (1, 3) or any(not it.text[0].isdigit() for it in numbers):
            self.fault(words[0], "a delay that is no number", "write the number")
            return None
        typical = numbers[len(numbers) // 2].text.replace("_", "")
        return Fraction(typical) * (self.unit.femtoseconds if self.unit else 1)

    def instance(self, kind: Word, at: int, delays: Optional[Delays], parts: List[str]) -> int:
        """Takes one instance, and gives the place behind it."""
        first = self.words[at]
        place, name = at, ""
        while place < len(self.words) and self.words[place].text not in ("(", ";"):
            place += 1
        if place < len(self.words) and place > at:
            name = self.text[first.start : self.words[place - 1].end] + " "
        end = self.closing(place)
        if not name:
            self.unnamed += 1
            name = f"\\${self.unnamed} "
        terminals = 1 + self.commas(place, end)
        parts.append(
            f"{self.type_of(kind, terminals, delays)} {name}{self.text[self.words[place].start : self.words[end].end]};"
        )
        return end + 1

    def commas(self, at: int, end: int) -> int:
        """How many commas stand between two parentheses, and in no further ones."""
        depth = commas = 0
        for word in self.words[at:end]:
            depth += (word.text in "([{") - (word.text in ")]}")
            commas += word.text == "," and depth == 1
        return commas

    def type_of(self, kind: Word, terminals: int, delays: Optional[Delays]) -> str:
        """The empty module that stands for a gate."""
        if kind.text not in GATES:
            self.has_primitives = True
            return UNKNOWN_PREFIX + kind.text
        if terminals < 2 + (kind.text in THREE_STATE) or (kind.text in THREE_STATE and terminals > 3):
            self.fault(kind, f"it has {terminals} terminals", "give it those of its kind")
        times = "_".join("z" if it is None else str(it).replace("/", "d") for it in delays or ())
        scale = "fs" if self.unit else "u"
        module = f"{PREFIX}{kind.text}_{terminals}_{scale}_{times}"
        self.shared.primitives[module] = Primitive(module, kind.text, terminals, delays, not self.unit)
        return module
