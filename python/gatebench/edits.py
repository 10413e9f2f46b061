"""A method for each edit of a design."""
from abc import ABC, abstractmethod
from typing import Callable, Generic, Iterable, Iterator, List, Optional, Sequence, TypeVar, Union

from .lines import line_of
from .stimulus import BusValue, bits_among, bits_of_width, clock_lines, drive_lines
from .values import GivenValue, value_of

Result = TypeVar("Result")


# The first words of edits.
EDITS = ("net", "input", "dropnet", "kind", "gate", "drop", "delay", "type", "wire", "stim", "unstim", "horizon")

# How many edits the program takes in one batch.
MAX_BATCH = 4096


def batches(lines: Sequence[str]) -> Iterator[List[str]]:
    """Edits in their order, in as few batches as the program takes them; none is one batch too."""
    for start in range(0, len(lines) or 1, MAX_BATCH):
        yield list(lines[start : start + MAX_BATCH])


def fall_word(fall: int, off: Optional[int]) -> Union[int, str]:
    """A fall as a line writes it, with the turn-off delay behind a slash where one is given."""
    return fall if off is None else f"{fall}/{off}"


class Edits(ABC, Generic[Result]):
    """The twelve edits, by their words in the language; docs/SPEC.md says what each is refused for.

    Names are strings, times and delays are whole numbers of time units."""

    @abstractmethod
    def edit(self, line: str) -> Result:
        """Takes an edit by its line."""

    @abstractmethod
    def edits(self, lines: Iterable[str]) -> Result:
        """Takes edits by their lines: all of them, or none where one is refused."""

    @abstractmethod
    def bits(self, name: str) -> List[str]:
        """The nets that are the bits of a vector, from the left."""

    def net(self, net: str, kind: str = "wire") -> Result:
        """Adds a net without drivers, of the kind wire, tri, wand, triand, wor, trior, tri0 or tri1."""
        return self.edit(line_of("net", net, kind))

    def input(self, net: str) -> Result:
        """Adds an input of the design."""
        return self.edit(line_of("input", net))

    def dropnet(self, net: str) -> Result:
        """Removes a net that no gate reads or drives."""
        return self.edit(line_of("dropnet", net))

    def kind(self, net: str, kind: str) -> Result:
        """Gives a net another kind."""
        return self.edit(line_of("kind", net, kind))

    def gate(
        self, gate: str, kind: str, rise: int, fall: int, output: str, *inputs: str, off: Optional[int] = None
    ) -> Result:
        """Adds a gate with its delays. An input is a net, or a constant such as `constant(0)`. `off` is the turn-off delay,
        which three-state gates alone may have."""
        return self.edit(line_of("gate", gate, kind, rise, fall_word(fall, off), output, *inputs))

    def drop(self, gate: str) -> Result:
        """Removes a gate."""
        return self.edit(line_of("drop", gate))

    def delay(self, gate: str, rise: int, fall: int, off: Optional[int] = None) -> Result:
        """Gives a gate other delays; without `off` a turn-off delay that it had goes."""
        return self.edit(line_of("delay", gate, rise, fall_word(fall, off)))

    def type(self, gate: str, kind: str) -> Result:
        """Gives a gate another kind."""
        return self.edit(line_of("type", gate, kind))

    def wire(self, gate: str, output: str, *inputs: str) -> Result:
        """Connects a gate to another output and other inputs."""
        return self.edit(line_of("wire", gate, output, *inputs))

    def stim(self, net: str, time: int, value: GivenValue) -> Result:
        """An input has this value from this moment on, until its next point."""
        return self.edit(line_of("stim", net, time, value_of(value)))

    def unstim(self, net: str, time: int) -> Result:
        """Takes the point of an input at this moment away."""
        return self.edit(line_of("unstim", net, time))

    def clock(
        self, net: str, period: int, *, until: int, high: Optional[int] = None, first: Optional[int] = None
    ) -> Result:
        """Gives an input the points of a clock up to the moment `until`: it is 0 at 0, rises at `first` and each `period`
        later, and is 1 for `high`. Without them it is 0 for the first half of each period and 1 for the second one."""
        return self.edits(clock_lines(net, period, until, high, first))

    def drive(self, vector: str, time: int, value: BusValue, *, width: Optional[int] = None) -> Result:
        """A vector of inputs has this value from this moment on: a number, or its bits from the left, as "00x1".

        With `width` its bits are `vector[width-1]` to `vector[0]`; without it the nets are looked up, in a dump, which
        costs more."""
        bits = self.bits(vector) if width is None else bits_of_width(vector, width)
        return self.edits(drive_lines(bits, time, value))

    def horizon(self, time: int) -> Result:
        """Makes this the last moment that is simulated."""
        return self.edit(line_of("horizon", time))


class Batch(Edits[None]):
    """Edits that are to be carried out as one commit. `version` is the one that the commit made, -1 before it."""

    def __init__(self, names: Callable[[], List[str]]) -> None:
        self.lines: List[str] = []
        self.version = -1
        self._ask_names, self._names = names, []  # type: Callable[[], List[str]], List[str]

    def edit(self, line: str) -> None:
        self.lines.append(line)

    def edits(self, lines: Iterable[str]) -> None:
        self.lines += lines

    def bits(self, name: str) -> List[str]:
        """The nets that are the bits of a vector, from the left, of the version before the batch: asked for once."""
        self._names = self._names or self._ask_names()
        return bits_among(name, self._names)
