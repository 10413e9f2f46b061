"""Which word of a refused text is at fault, as gatetool says it in a second line (docs/SPEC.md, The program)."""
import re
from typing import Optional

from .fault_word import FaultWord

SAID = re.compile(r"^  word (\S+), column (\d+)", re.M)


def said_word(errors: str, text: str, line: int) -> Optional[FaultWord]:
    """The word that the program says beside a fault of a line of a text; None where it says none. Its column is in bytes there."""
    found = SAID.search(errors)
    if not found:
        return None
    [whole] = text.split("\n")[line - 1 : line] or [""]
    before = whole.encode("utf-8", "surrogateescape")[: int(found[2]) - 1]
    return FaultWord(found[1], line, len(before.decode("utf-8", "surrogateescape")) + 1)
