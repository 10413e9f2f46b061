"""What can't be imported: where it stands, the word at fault, why, and what to do."""
from typing import List, NamedTuple, Sequence, Tuple, Type

from ..errors import GatebenchError


class Fault(NamedTuple):
    """At a line of a file (0 for the file as a whole) a word can't be imported, because of `why`; `cure` is what helps."""

    file: str
    line: int
    word: str
    why: str
    cure: str

    def __str__(self) -> str:
        place = f"{self.file}:{self.line}" if self.line else self.file
        return f"{place}: {self.word}: {self.why}; {self.cure}"


class ImportRefused(GatebenchError):
    """A design can't be imported. `faults` has all that was found, in order."""

    def __init__(self, faults: Sequence[Fault]) -> None:
        self.faults: List[Fault] = sorted(set(faults))
        super().__init__("\n".join(map(str, self.faults)))

    def __reduce__(self) -> Tuple[Type["ImportRefused"], Tuple[List[Fault]]]:
        return ImportRefused, (self.faults,)


class ToolMissing(GatebenchError):
    """A program that an import needs is not installed."""
