"""The words of a Verilog text, with the line of each."""
import re
from typing import Iterator, List, NamedTuple

TOKEN = re.compile(
    r"""(?P<space>\s+)
    | (?P<comment>//[^\n]*|/\*.*?(?:\*/|\Z))
    | (?P<string>"(?:\\.|[^"\\\n])*")
    | (?P<attribute>\(\*(?!\s*\)).*?\*\))
    | (?P<directive>`[A-Za-z_]\w*)
    | (?P<name>\\\S+|[A-Za-z_][\w$]*|\$\w[\w$]*)
    | (?P<number>'[sS]?[bodhBODH]\s*[\da-fA-FxXzZ?_]+|\d[\d_]*(?:\.\d[\d_]*)?(?:[eE][+-]?\d+)?)
    | (?P<mark>.)""",
    re.S | re.X,
)

# What parts words and has no meaning of its own.
SILENT = ("space", "comment", "attribute")


class Word(NamedTuple):
    """A word of a text: its kind, its bytes, its line from 1, and where it begins and ends."""

    kind: str
    text: str
    line: int
    start: int
    end: int


def words_of(text: str) -> List[Word]:
    """The words of a text without white space, comments and attributes."""
    return [it for it in tokens_of(text) if it.kind not in SILENT]


def tokens_of(text: str) -> Iterator[Word]:
    line = 1
    for found in TOKEN.finditer(text):
        yield Word(str(found.lastgroup), found[0], line, found.start(), found.end())
        line += found[0].count("\n")


def blank(text: str) -> str:
    """White space of the same lines."""
    return "\n" * text.count("\n") or " "
