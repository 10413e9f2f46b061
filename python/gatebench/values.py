"""The values of a net as Python values: the strings "0", "1", "x" (not known) and "z" (high impedance)."""
from typing import NamedTuple, Tuple, Union

VALUES = ("0", "1", "x", "z")

# What may be given where a value is wanted: one of the four strings, or 0, 1, False, True.
GivenValue = Union[str, int]


def value_of(given: GivenValue) -> str:
    """The value that is meant. ValueError where it is none of the four."""
    text = str(int(given)) if isinstance(given, int) else given
    if text not in VALUES:
        raise ValueError(f"a value is 0, 1, 'x' or 'z', and not {given!r}")
    return text


def constant(value: GivenValue) -> str:
    """The input of a gate that always has this value, as `1'b0`."""
    return "1'b" + value_of(value)


class Change(NamedTuple):
    """A net has `value` from the moment `time` on."""

    time: int
    value: str


def change_of(line: str) -> Change:
    """The change that a line `T V` shows. ValueError where it is no such line."""
    time, value = line.split(" ")
    return Change(int(time), value_of(value))


def changes_of(words: Tuple[str, ...]) -> Tuple[Change, ...]:
    """The changes of a wave that words T V T V .. spell. ValueError where these can be no wave."""
    if not words or len(words) % 2:
        raise ValueError("a wave is written T V T V ..")
    changes = tuple(Change(int(time), value_of(value)) for time, value in zip(words[::2], words[1::2]))
    if changes[0].time != 0:
        raise ValueError("a wave begins at 0")
    if any(before.time >= after.time for before, after in zip(changes, changes[1:])):
        raise ValueError("the times of a wave rise")
    return changes
