"""The tokens of any text, with their places, as docs/SPEC.md has them: also of one that the program has refused."""
import re
from typing import List, NamedTuple

from .netlist_text import DIRECTIONS, GATE_KINDS, NET_KINDS

USED_WORDS = frozenset((*DIRECTIONS, *NET_KINDS, *GATE_KINDS, "module", "endmodule"))
# The words of Verilog that design texts leave out.
LEFT_OUT = frozenset(
    """always assign automatic begin case casex casez cmos deassign default defparam disable edge else end endcase
    endfunction endgenerate endprimitive endspecify endtable endtask event for force forever fork function generate genvar if
    initial inout integer join large localparam macromodule medium negedge nmos parameter pmos posedge primitive pull0 pull1
    pulldown pullup rcmos real realtime reg release repeat rnmos rpmos rtran rtranif0 rtranif1 scalared signed small specify
    specparam strong0 strong1 supply0 supply1 table task time tran tranif0 tranif1 trireg unsigned uwire vectored wait weak0
    weak1 while""".split()
)

WHITE = r"(?:[\t\n\f\r ]|//[^\n]*|/\*.*?\*/|\(\*.*?\*\))"
UNIT = rf"(?:100|10|1){WHITE}*[munpf]?s"
PART = re.compile(
    rf"(?P<WHITE>{WHITE}+)|(?P<UNENDED>/\*|\(\*)|(?P<TIMESCALE>`timescale{WHITE}+{UNIT}{WHITE}*/{WHITE}*{UNIT})"
    r"|(?P<CONST>1'[bB][01xXzZ])|(?P<NUMBER>[0-9][0-9_]*)|(?P<NAME>[A-Za-z_][A-Za-z0-9_$]*)|(?P<ESCAPED>\\[!-~]+)"
    r"|(?P<MARK>[(),;.#\[\]:])|(?P<OTHER>[!-~])|(?P<TEXT>.)",
    re.S,
)


class Token(NamedTuple):
    """A token: what it is, as it is written, and where it begins.

    WORD is a word of the grammar, LEFT_OUT one of Verilog that it leaves out, NAME another, ESCAPED an escaped one; OTHER a byte
    that is no mark, TEXT one that stands nowhere, UNENDED the beginning of a comment, an attribute or an escaped name that is none;
    END is the end of the text."""

    kind: str
    text: str
    place: int

    @property
    def name(self) -> str:
        return self.text[1:] if self.kind == "ESCAPED" else self.text

    @property
    def number(self) -> int:
        digits = self.text.replace("_", "").lstrip("0")
        # More digits are above each limit.
        return int(digits[:12] or "0")


def tokens_of(text: str) -> List[Token]:
    """All tokens of a text, the last of which is its end."""
    found = [token_of(it) for it in PART.finditer(text) if it.lastgroup != "WHITE"]
    return [*found, Token("END", "", len(text))]


def token_of(part: "re.Match[str]") -> Token:
    kind, text = str(part.lastgroup), part[0]
    if kind == "NAME":
        kind = "WORD" if text in USED_WORDS else "LEFT_OUT" if text in LEFT_OUT else "NAME"
    elif text == "\\":
        kind = "UNENDED"
    return Token(kind, text, part.start())
