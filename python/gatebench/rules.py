"""Rules that waves have to keep: each gives the places at which they don't, in order of time.

Moments are in time units, and windows have both of their ends. Where `end` is None a window ends at the horizon."""
from typing import Iterable, List, NamedTuple, Optional, Sequence

from .values import GivenValue
from .wave import Wave


class Violation(NamedTuple):
    """What a rule finds: the net `net` breaks it at the moment `time`, as `message` says."""

    time: int
    net: str
    message: str


def no_pulse(wave: Wave, shorter_than: int, start: int = 0, end: Optional[int] = None) -> List[Violation]:
    """No value lasts less than so many time units between two changes, of pulses that begin in the window."""
    last = last_of(wave, end)
    return [
        Violation(it.start, wave.net, f"a pulse of {it.value} that lasts {it.width}, and not {shorter_than} or more")
        for it in wave.pulses(shorter_than)
        if start <= it.start <= last
    ]


def stable(wave: Wave, start: int, end: int) -> List[Violation]:
    """The value at `start` stays up to `end`."""
    return [Violation(it.time, wave.net, f"changes to {it.value}") for it in wave.between(start + 1, end)]


def setup_and_hold(data: Wave, clock: Wave, setup: int, hold: int, edge: GivenValue = 1) -> List[Violation]:
    """The data is stable from `setup` time units before each edge of the clock to this value, up to `hold` behind it.

    Data that changes just `setup` before an edge, or just `hold` behind it, keeps the rule."""
    found = []
    for it in clock.edges(to=edge):
        first, last = max(0, it.time - setup), min(it.time + hold - 1, data.horizon)
        found += [
            Violation(change.time, data.net, f"changes {distance(change.time, it.time)} the edge of {clock.net} at {it.time}")
            for change in data.between(first + 1, last)
        ]
    return found


def one_hot(waves: Sequence[Wave], start: int = 0, end: Optional[int] = None) -> List[Violation]:
    """At each moment of the window exactly one of the nets is 1, and each other one 0."""
    last = min((last_of(it, end) for it in waves), default=0)
    times = sorted({start, *(change.time for it in waves for change in it.between(start + 1, last))})
    found = []
    for time in times:
        values = "".join(it.at(time) for it in waves)
        if sorted(values) != ["0"] * (len(waves) - 1) + ["1"]:
            found.append(Violation(time, " ".join(it.net for it in waves), f"are {values}"))
    return found


def equal_at(first: Wave, second: Wave, times: Iterable[int]) -> List[Violation]:
    """Both have the same value at each of these moments, such as strobes."""
    return [
        Violation(time, first.net, f"is {first.at(time)}, and {second.net} {second.at(time)}")
        for time in sorted(times)
        if first.at(time) != second.at(time)
    ]


def last_of(wave: Wave, end: Optional[int]) -> int:
    return wave.horizon if end is None else end


def distance(time: int, edge: int) -> str:
    """Where a moment lies beside an edge, in words."""
    if time == edge:
        return "at"
    return f"{edge - time} before" if time < edge else f"{time - edge} behind"
