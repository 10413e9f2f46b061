"""The delays of instances in SDF files: those of IOPATH, and no others."""
import re
from fractions import Fraction
from typing import Dict, Iterator, List, NamedTuple, Optional, Tuple, Union

from .fault import Fault, ImportRefused
from .times import Delays, unit_of

TOKEN = re.compile(r'\s+|//[^\n]*|/\*.*?\*/|("(?:[^"\\]|\\.)*"|[()]|[^\s()"]+)', re.S)

# What of a cell is passed over: it says nothing of the delay of an output.
PASSED_OVER = ("INTERCONNECT", "PORT", "NETDELAY", "DEVICE", "RETAIN", "PATHPULSE", "PATHPULSEPERCENT")


class Item(NamedTuple):
    """A list in parentheses: its words and lists, and its line."""

    parts: List[Union[str, "Item"]]
    line: int

    @property
    def head(self) -> str:
        return self.parts[0].upper() if self.parts and isinstance(self.parts[0], str) else ""

    def lists(self, *heads: str) -> "List[Item]":
        return [it for it in self.parts if isinstance(it, Item) and (not heads or it.head in heads)]

    def words(self) -> List[str]:
        return [it for it in self.parts if isinstance(it, str)]


class Annotation(NamedTuple):
    """The delays of one output of an instance, and where they stand."""

    delays: Delays
    file: str
    line: int


# For an instance and an output of it.
Annotations = Dict[Tuple[str, str], Annotation]


def read_sdf(path: str) -> Annotations:
    """The delays of a file, in femtoseconds; of several paths to one output the greatest. ImportRefused where it can't be
    read."""
    with open(path, encoding="utf-8", errors="surrogateescape") as file:
        return Reader(path, file.read()).annotations()


class Reader:
    def __init__(self, path: str, text: str) -> None:
        self.path, self.text = path, text
        self.divider, self.unit = ".", unit_of("1ns").femtoseconds
        self.faults: List[Fault] = []
        self.found: Annotations = {}

    def fault(self, line: int, word: str, why: str, cure: str) -> None:
        self.faults.append(Fault(self.path, line, word, why, cure))

    def annotations(self) -> Annotations:
        for top in self.items():
            for item in top.lists():
                self.section(item)
        if not self.found and not self.faults:
            self.fault(1, "DELAYFILE", "it has no IOPATH", "give an SDF file with delays of cells")
        if self.faults:
            raise ImportRefused(self.faults)
        return self.found

    def items(self) -> List[Item]:
        """The lists of the file."""
        stack: List[Item] = [Item([], 1)]
        for word, line in self.tokens():
            if word == "(":
                stack.append(Item([], line))
            elif word != ")":
                stack[-1].parts.append(word)
            elif len(stack) > 1:
                made = stack.pop()
                stack[-1].parts.append(made)
        if len(stack) > 1 or not stack[0].lists("DELAYFILE"):
            self.fault(stack[-1].line, "DELAYFILE", "no whole list (DELAYFILE ..) stands here", "give an SDF file")
        return stack[0].lists("DELAYFILE")

    def tokens(self) -> Iterator[Tuple[str, int]]:
        line = 1
        for found in TOKEN.finditer(self.text):
            if found[1]:
                yield found[1], line
            line += found[0].count("\n")

    def section(self, item: Item) -> None:
        if item.head == "DIVIDER":
            self.divider = item.words()[-1]
        elif item.head == "TIMESCALE":
            try:
                self.unit = unit_of("".join(item.words()[1:])).femtoseconds
            except ValueError as error:
                self.fault(item.line, "TIMESCALE", str(error), "write such a unit")
        elif item.head == "CELL":
            self.cell(item)

    def cell(self, item: Item) -> None:
        instances = [it.words()[1:] for it in item.lists("INSTANCE")]
        instance = "".join(instances[0]) if instances else ""
        for delay in item.lists("DELAY"):
            for kind in delay.lists():
                if kind.head == "INCREMENT":
                    self.fault(kind.line, "INCREMENT", "delays that are added are not read", "write them as ABSOLUTE")
                for path in kind.lists():
                    self.path_of(path, instance)

    def path_of(self, item: Item, instance: str) -> None:
        """Takes an IOPATH, also one under a condition."""
        if item.head in ("COND", "CONDELSE"):
            for inner in item.lists("IOPATH"):
                self.path_of(inner, instance)
        elif item.head == "IOPATH":
            self.io_path(item, instance)
        elif item.head not in PASSED_OVER:
            self.fault(item.line, item.head or "(", "it is no delay that is known here", "leave it out")

    def io_path(self, item: Item, instance: str) -> None:
        words = item.words()
        times = [self.time(it) for it in item.lists() if it.head not in ("POSEDGE", "NEGEDGE", "RETAIN")]
        if instance == "*":
            self.fault(item.line, "*", "an instance by its type is not read", "name the instance")
        elif words and any(it is not None for it in times):
            self.add((self.plain(instance), unescaped(words[-1])), delays_of(times), item.line)

    def plain(self, instance: str) -> str:
        """The instance with its scopes parted by dots, however the file parts them."""
        parted = instance if self.divider == "." else re.sub(r"(?<!\\)" + re.escape(self.divider), ".", instance)
        return unescaped(parted)

    def time(self, item: Item) -> Optional[Fraction]:
        """The typical one of a triple, else what there is; None for `()`."""
        numbers = [it for it in "".join(item.words()).split(":") if it]
        if not numbers:
            return None
        try:
            return Fraction(numbers[len(numbers) // 2]) * self.unit
        except ValueError:
            self.fault(item.line, numbers[0], "it is no number", "write a delay, or three by colons")
            return None

    def add(self, at: Tuple[str, str], delays: Delays, line: int) -> None:
        before = self.found.get(at)
        self.found[at] = Annotation(delays if before is None else greater(before.delays, delays), self.path, line)


def delays_of(times: List[Optional[Fraction]]) -> Delays:
    """One time is rise and fall; two are rise and fall; three have the turn-off, and of six or twelve (0 to 1, 1 to 0, 0 to
    z, z to 1, 1 to z, z to 0) each is the greatest to its value. What is left out is that of the others."""
    known = [it for it in times if it is not None]
    if len(times) < 3:
        rise, fall = times[0], times[len(times) - 1]
        return Delays(known[0] if rise is None else rise, known[0] if fall is None else fall)
    if len(times) < 6:
        rise, fall, off = times[:3]
        return Delays(known[0] if rise is None else rise, known[0] if fall is None else fall, off)
    ways = [[it for it in (times[a], times[b]) if it is not None] for a, b in ((0, 3), (1, 5), (2, 4))]
    rise, fall, off = (max(it) if it else None for it in ways)
    return Delays(known[0] if rise is None else rise, known[0] if fall is None else fall, off)


def greater(one: Delays, other: Delays) -> Delays:
    offs = [it for it in (one.off, other.off) if it is not None]
    return Delays(max(one.rise, other.rise), max(one.fall, other.fall), max(offs) if offs else None)


def unescaped(name: str) -> str:
    return re.sub(r"\\(.)", r"\1", name)
