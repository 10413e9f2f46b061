"""Times in femtoseconds, and delays as whole numbers of a time unit."""
import re
from fractions import Fraction
from typing import NamedTuple, Optional, Union

FEMTOSECONDS = {"s": 10**15, "ms": 10**12, "us": 10**9, "ns": 10**6, "ps": 10**3, "fs": 1}

Number = Union[int, str, Fraction]


class Delays(NamedTuple):
    """Rise, fall and turn-off delay of a gate; `off` is None where none is given."""

    rise: Fraction
    fall: Fraction
    off: Optional[Fraction] = None


class Unit(NamedTuple):
    """A time unit: 1, 10 or 100 of s, ms, us, ns, ps or fs."""

    many: int
    name: str

    def __str__(self) -> str:
        return f"{self.many}{self.name}"

    @property
    def femtoseconds(self) -> int:
        return self.many * FEMTOSECONDS[self.name]


def unit_of(text: str) -> Unit:
    """The unit that a text names, as `1ps` or `100 ns`. ValueError where it names none."""
    found = re.fullmatch(r"\s*(1|10|100)(?:\.0*)?\s*(s|ms|us|ns|ps|fs)\s*", text)
    if not found:
        raise ValueError(f"{text.strip()} is no time unit: 1, 10 or 100, and s, ms, us, ns, ps or fs")
    return Unit(int(found[1]), found[2])


def in_units(time: Fraction, unit: Unit) -> int:
    """A time in whole units: the nearest, of two the greater, and at least 1."""
    return max(1, int(time / unit.femtoseconds + Fraction(1, 2)))
