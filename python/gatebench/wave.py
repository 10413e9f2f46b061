"""The wave of a net: its value at each moment from 0 to the horizon."""
from bisect import bisect_right
from itertools import zip_longest
from typing import List, NamedTuple, Optional, Tuple

from .values import Change, GivenValue, value_of


class Edge(NamedTuple):
    """At the moment `time` the value changes from `before` to `after`."""

    time: int
    before: str
    after: str


class Pulse(NamedTuple):
    """The value is `value` from the change at `start` on, until it changes again at `end`."""

    start: int
    end: int
    value: str

    @property
    def width(self) -> int:
        """How long it lasts, in time units."""
        return self.end - self.start


class Wave:
    """The changes of the net `net` from moment 0 up to the moment `horizon`, both included.

    The first change is the value at 0; each later one has another value than the one before it. Two waves are equal
    where they have the same changes and the same horizon, whatever their nets are called."""

    def __init__(self, net: str, changes: Tuple[Change, ...], horizon: int) -> None:
        if not changes or changes[0].time != 0:
            raise ValueError("a wave begins with its value at 0")
        self.net, self.changes, self.horizon = net, changes, horizon
        self._times = [it.time for it in changes]

    def __eq__(self, other: object) -> bool:
        if not isinstance(other, Wave):
            return NotImplemented
        return self.changes == other.changes and self.horizon == other.horizon

    def __hash__(self) -> int:
        return hash((self.changes, self.horizon))

    def __repr__(self) -> str:
        changes = " ".join(f"{it.time} {it.value}" for it in self.changes)
        return f"<Wave {self.net}: {changes}; to {self.horizon}>"

    def _repr_svg_(self) -> str:
        """What notebooks show: all of the run."""
        from .draw_svg import draw_svg
        from .picture import Picture

        return draw_svg(Picture([self], 0, self.horizon, "time unit"))

    def at(self, time: int) -> str:
        """The value at a moment. A change counts from its own moment on. ValueError past the horizon."""
        if not 0 <= time <= self.horizon:
            raise ValueError(f"the moment {time} is not in 0 to {self.horizon}, the horizon")
        return self.changes[bisect_right(self._times, time) - 1].value

    def between(self, start: int, end: int) -> Tuple[Change, ...]:
        """The changes at the moments from `start` to `end`, both included."""
        return self.changes[bisect_right(self._times, start - 1) : bisect_right(self._times, end)]

    def edges(self, to: Optional[GivenValue] = None) -> List[Edge]:
        """Each change after the moment 0; with `to` only those to this value."""
        pairs = zip(self.changes, self.changes[1:])
        edges = [Edge(after.time, before.value, after.value) for before, after in pairs]
        return edges if to is None else [it for it in edges if it.after == value_of(to)]

    def pulses(self, shorter_than: Optional[int] = None) -> List[Pulse]:
        """Each value between two changes; with `shorter_than` only those that last less than so many time units.

        What the net has from 0 to its first change, and from its last change on, is no pulse."""
        inner = self.changes[1:]
        pulses = [Pulse(it.time, after.time, it.value) for it, after in zip(inner, inner[1:])]
        return pulses if shorter_than is None else [it for it in pulses if it.width < shorter_than]

    def first_difference(self, other: "Wave") -> Optional[int]:
        """The first moment at which the two values differ, up to the lesser horizon; None where there is none."""
        # Up to the first change that is not in both, the values are the same; there only one of the waves changes, or both
        # do to other values.
        for before, after in zip_longest(self.changes, other.changes):
            if before != after:
                time = min(it.time for it in (before, after) if it is not None)
                return time if time <= min(self.horizon, other.horizon) else None
        return None

    def differences(self, other: "Wave", start: int = 0, end: Optional[int] = None) -> List[Tuple[int, int]]:
        """Each span in which the two values differ, as from when on, and up to but not at when: between the moments `start` and
        `end`, both included, and up to the lesser horizon."""
        least = min(self.horizon, other.horizon)
        last = least if end is None else min(end, least)
        times = sorted({start, *(it.time for wave in (self, other) for it in wave.between(start + 1, last))})
        found: List[Tuple[int, int]] = []
        for time, until in zip(times, [*times[1:], last + 1]):
            if time <= last and self.at(time) != other.at(time):
                begin = found.pop()[0] if found and found[-1][1] == time else time
                found.append((begin, until))
        return found
