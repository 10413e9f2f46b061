"""The rules of a page: what its rows have to keep, each made of the words that a person writes."""
from typing import Callable, Dict, List, NamedTuple, Sequence, Tuple, Union

from ..errors import GatebenchError
from ..rules import Violation, equal_at, no_pulse, one_hot, setup_and_hold, stable
from ..wave import Wave

Waves = Callable[[str], Wave]
# What an edge of a clock is called, by the value behind it.
EDGES = {"1": "rise", "0": "fall"}


class BadRule(GatebenchError):
    """The words of a rule say none."""


class Broken(NamedTuple):
    """Where a rule is broken: the moment, the nets that are marked, and what is wrong."""

    time: int
    nets: Tuple[str, ...]
    message: str


class NoPulse(NamedTuple):
    """No value of the net lasts less than `width`."""

    net: str
    width: int

    @property
    def nets(self) -> Tuple[str, ...]:
        return (self.net,)

    @property
    def said(self) -> str:
        return f"no pulse under {self.width}"

    @property
    def call(self) -> str:
        return f"no_pulse(session.wave({self.net!r}), {self.width})"

    def violations(self, waves: Waves) -> List[Violation]:
        return no_pulse(waves(self.net), self.width)


class Stable(NamedTuple):
    """The net stays from one moment to another."""

    net: str
    start: int
    end: int

    @property
    def nets(self) -> Tuple[str, ...]:
        return (self.net,)

    @property
    def said(self) -> str:
        return f"stays from {self.start} to {self.end}"

    @property
    def call(self) -> str:
        return f"stable(session.wave({self.net!r}), {self.start}, {self.end})"

    def violations(self, waves: Waves) -> List[Violation]:
        wave = waves(self.net)
        return stable(wave, self.start, min(self.end, wave.horizon))


class SetupAndHold(NamedTuple):
    """The net is stable from `setup` before each edge of a clock to `hold` behind it."""

    net: str
    clock: str
    setup: int
    hold: int
    edge: str

    @property
    def nets(self) -> Tuple[str, ...]:
        return (self.net, self.clock)

    @property
    def said(self) -> str:
        return f"stays from {self.setup} before to {self.hold} behind each {EDGES[self.edge]} of {self.clock}"

    @property
    def call(self) -> str:
        waves = f"session.wave({self.net!r}), session.wave({self.clock!r})"
        return f"setup_and_hold({waves}, {self.setup}, {self.hold}, edge={self.edge!r})"

    def violations(self, waves: Waves) -> List[Violation]:
        return setup_and_hold(waves(self.net), waves(self.clock), self.setup, self.hold, self.edge)


class OneHot(NamedTuple):
    """One of the nets is 1, and the others are 0."""

    nets: Tuple[str, ...]

    @property
    def said(self) -> str:
        return f"one of {', '.join(self.nets)} is 1"

    @property
    def call(self) -> str:
        return f"one_hot([session.wave(it) for it in {list(self.nets)!r}])"

    def violations(self, waves: Waves) -> List[Violation]:
        return one_hot([waves(it) for it in self.nets])


class EqualAt(NamedTuple):
    """Both nets have the same value at some moments, or at the end of each `every` time units."""

    net: str
    other: str
    times: Tuple[int, ...]
    every: int = 0

    @property
    def nets(self) -> Tuple[str, ...]:
        return (self.net, self.other)

    @property
    def said(self) -> str:
        when = f"the end of each {self.every}" if self.every else ", ".join(map(str, self.times))
        return f"equals {self.other} at {when}"

    @property
    def call(self) -> str:
        ends = f"range({self.every - 1}, session.wave({self.net!r}).horizon + 1, {self.every})"
        times = ends if self.every else repr(list(self.times))
        return f"equal_at(session.wave({self.net!r}), session.wave({self.other!r}), {times})"

    def violations(self, waves: Waves) -> List[Violation]:
        wave = waves(self.net)
        times: Sequence[int] = range(self.every - 1, wave.horizon + 1, self.every) if self.every else self.times
        return equal_at(wave, waves(self.other), [it for it in times if it <= wave.horizon])


Rule = Union[NoPulse, Stable, SetupAndHold, OneHot, EqualAt]
# The nets of a row by its name, none where there is no such row.
Rows = Callable[[str], Sequence[str]]


def no_pulses(bits: Sequence[str], words: List[str], rows: Rows) -> List[Rule]:
    [width] = numbers(words, 1, "a number of time units, such as 5")
    return [NoPulse(it, width) for it in bits]


def stables(bits: Sequence[str], words: List[str], rows: Rows) -> List[Rule]:
    start, end = numbers(words, 2, "two moments, such as 10 20")
    return [Stable(it, start, end) for it in bits]


def setups(bits: Sequence[str], words: List[str], rows: Rows) -> List[Rule]:
    wanted = "a clock and two numbers of time units, such as clk 3 1, and fall for its falling edges"
    edge = "0" if words[3:] == ["fall"] else "1"
    if len(words) != (4 if edge == "0" else 3):
        raise BadRule(f"this rule takes {wanted}")
    [clock] = bits_of(words[0], 1, rows)
    setup, hold = numbers(words[1:3], 2, wanted)
    return [SetupAndHold(it, clock, setup, hold, edge) for it in bits]


def one_hots(bits: Sequence[str], words: List[str], rows: Rows) -> List[Rule]:
    nets = dict.fromkeys([*bits, *(bit for it in words for bit in known(it, rows))])
    if len(nets) < 2:
        raise BadRule("this rule takes the names of the other nets, such as b c")
    return [OneHot(tuple(nets))]


def equals(bits: Sequence[str], words: List[str], rows: Rows) -> List[Rule]:
    wanted = "another row and moments, such as w 19 39 or w every 20"
    if len(words) < 2:
        raise BadRule(f"this rule takes {wanted}")
    others = bits_of(words[0], len(bits), rows)
    if words[1] == "every":
        [every] = numbers(words[2:], 1, wanted)
        if not every:
            raise BadRule(f"this rule takes {wanted}")
        return [EqualAt(net, other, (), every) for net, other in zip(bits, others)]
    times = tuple(numbers(words[1:], len(words) - 1, wanted))
    return [EqualAt(net, other, times) for net, other in zip(bits, others)]


# Of each kind how its words are read; the page lists the same ones.
KINDS: Dict[str, Callable[[Sequence[str], List[str], Rows], List[Rule]]] = {
    "no-pulse": no_pulses,
    "stable": stables,
    "setup-hold": setups,
    "one-hot": one_hots,
    "equal": equals,
}


def rules_of(kind: str, bits: Sequence[str], words: str, rows: Rows) -> List[Rule]:
    """The rules of a row that these words say; BadRule where they say none."""
    return KINDS[kind](bits, words.split(), rows)


def numbers(words: Sequence[str], count: int, wanted: str) -> List[int]:
    if len(words) != count or not all(it.isdigit() and it.isascii() for it in words):
        raise BadRule(f"this rule takes {wanted}")
    return [int(it) for it in words]


def known(name: str, rows: Rows) -> Sequence[str]:
    found = rows(name)
    if not found:
        raise BadRule(f"no row is named {name}")
    return found


def bits_of(name: str, count: int, rows: Rows) -> Sequence[str]:
    """The nets of a row that has so many."""
    found = known(name, rows)
    if len(found) != count:
        raise BadRule(f"{name} has {len(found)} nets, and not {count}")
    return found


def broken(rule: Rule, waves: Waves) -> List[Broken]:
    """Where a rule is broken. Of a rule of several nets that are alike each is marked."""
    marked = rule.nets if isinstance(rule, (OneHot, EqualAt)) else rule.nets[:1]
    return [Broken(it.time, marked, it.message) for it in rule.violations(waves)]
