"""Stimulus that is more than a point: clocks, and values of vectors."""
from typing import List, Optional, Sequence, Union

from .lines import line_of
from .near import near, there_is
from .values import VALUES

# What may be given to a vector: a number, or its bits from the left, as "00x1".
BusValue = Union[int, str]


def clock_lines(net: str, period: int, until: int, high: Optional[int] = None, first: Optional[int] = None) -> List[str]:
    """The points of a clock: 0 at the moment 0, and from its first rise on 1 for `high` of each `period` time units.

    Where nothing else is said it is 1 for half of its period, rounded down, and 0 before for the other half. ValueError where
    it would be 1 never or always."""
    width = period // 2 if high is None else high
    rise = period - width if first is None else first
    if not 0 < width < period or rise < 0:
        raise ValueError(f"a clock of the period {period} can't be 1 for {width} time units from {rise} on")
    lines = [line_of("stim", net, 0, 0)] if rise else []
    for time in range(rise, until + 1, period):
        lines.append(line_of("stim", net, time, 1))
        if time + width <= until:
            lines.append(line_of("stim", net, time + width, 0))
    return lines


def drive_lines(bits: Sequence[str], time: int, value: BusValue) -> List[str]:
    """The points that give some nets, from the left, this value. ValueError where it has not as many bits."""
    return [line_of("stim", net, time, bit) for net, bit in zip(bits, bits_of_value(value, len(bits)))]


def bits_of_value(value: BusValue, width: int) -> str:
    """The bits of a value, from the left."""
    text = format(value, f"0{width}b") if isinstance(value, int) and value >= 0 else str(value)
    if len(text) != width or not all(it in VALUES for it in text):
        raise ValueError(f"{value!r} is no value of {width} bits")
    return text


def bits_of_width(name: str, width: int) -> List[str]:
    """The nets of a vector with the range [width - 1 : 0]."""
    return [f"{name}[{index}]" for index in reversed(range(width))]


def bits_among(name: str, nets: Sequence[str]) -> List[str]:
    """The bits of a vector among the names of nets, in their order, which is from the left. ValueError where there is none."""
    found = [it for it in nets if it.startswith(f"{name}[") and it[len(name) + 1 : -1].isdigit() and it.endswith("]")]
    if not found:
        vectors = dict.fromkeys(it.rpartition("[")[0] for it in nets if it.endswith("]"))
        raise ValueError(f"no net is a bit of {name!r}{there_is(near(name, list(vectors)))}")
    return found
