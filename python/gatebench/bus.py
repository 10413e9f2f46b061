"""The waves of a vector."""
from typing import List, NamedTuple, Sequence

from .stimulus import BusValue
from .wave import Wave


class BusChange(NamedTuple):
    """A vector has `value` from the moment `time` on: a number, or its bits where one of them is x or z."""

    time: int
    value: BusValue


class Bus:
    """The waves of the bits of the vector `name`, from the left."""

    def __init__(self, name: str, waves: Sequence[Wave]) -> None:
        if not waves:
            raise ValueError(f"no net is a bit of {name!r}")
        self.name, self.waves = name, list(waves)

    def __repr__(self) -> str:
        return f"<Bus {self.name} of {len(self.waves)} bits; to {self.horizon}>"

    @property
    def horizon(self) -> int:
        return self.waves[0].horizon

    def bits_at(self, time: int) -> str:
        """The bits at a moment, from the left, as "00x1"."""
        return "".join(it.at(time) for it in self.waves)

    def at(self, time: int) -> BusValue:
        """The number at a moment, the left bit being the highest; where a bit is x or z the bits, as "00x1"."""
        bits = self.bits_at(time)
        return int(bits, 2) if set(bits) <= {"0", "1"} else bits

    def changes(self) -> List[BusChange]:
        """The value at 0, and each later one with its moment."""
        times = sorted({it.time for wave in self.waves for it in wave.changes})
        return [BusChange(time, self.at(time)) for time in times]
