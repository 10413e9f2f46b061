"""What a drawing of waves shows: a time window, and where its axis has marks."""
from typing import List, Mapping, NamedTuple, Sequence, Tuple

from .wave import Wave


class Picture(NamedTuple):
    """The waves to draw from the moment `start` to the moment `end`, both included; `unit` is the time unit as `1 ns`.

    `before` has waves of another version by their nets: they are drawn behind, and where they differ is shaded."""

    waves: Sequence[Wave]
    start: int
    end: int
    unit: str
    before: Mapping[str, Wave] = {}

    @property
    def moments(self) -> int:
        return self.end - self.start + 1

    def marks(self, least: int) -> List[int]:
        """The moments that the axis names: multiples of a round number of time units, `least` or more apart."""
        step = round_step(least)
        first = -(-self.start // step) * step
        return list(range(first, self.end + 1, step))


class Span(NamedTuple):
    """A net has a value from `start` on and up to, but not at, `end`."""

    start: int
    end: int
    value: str


def round_step(least: int) -> int:
    """The least of 1, 2, 5, 10, 20, 50, .. that is not below `least`."""
    step = 1
    while True:
        for factor in (1, 2, 5):
            if step * factor >= least:
                return step * factor
        step *= 10


def spans(wave: Wave, start: int, end: int) -> List[Span]:
    """The values of a wave from `start` to `end`, both included; the last span ends at `end` + 1."""
    inner = wave.between(start + 1, end)
    times = [start, *(it.time for it in inner), end + 1]
    values = [wave.at(start), *(it.value for it in inner)]
    return [Span(before, after, value) for before, after, value in zip(times, times[1:], values)]


def window(
    waves: Sequence[Wave], unit: str, horizon: int, start: int, end: int, before: Sequence[Wave] = ()
) -> Picture:
    """A picture of this window, with the waves of another version behind where `before` has them. ValueError where the window
    is not within 0 to the horizon."""
    if not 0 <= start <= end <= horizon:
        raise ValueError(f"{start} to {end} is not within 0 to {horizon}, the horizon")
    return Picture(waves, start, end, unit, {it.net: it for it in before})
