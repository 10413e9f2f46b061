"""What a refusal means and what helps: the tables of docs/commands.md and docs/does-not-load.md, row by row."""
import re
from typing import Dict, List, NamedTuple, Tuple

# Of each code of a refused command its name, and what it means.
COMMANDS: Dict[int, Tuple[str, str]] = {
    1: ("UnknownNet", "no net has this name"),
    2: ("UnknownGate", "no gate has this name"),
    3: ("DuplicateName", "a net, a gate or a held version has this name already"),
    4: ("BadName", "a name has 1 to 1024 printable characters, no `'`; what stands between its dots is not empty and not `$end`"),
    5: ("ZeroDelay", "a delay is 0"),
    6: ("DelayTooLarge", "a delay is over 1000000"),
    7: ("WrongArity", "the kind does not take this many inputs"),
    8: ("DrivenInput", "a gate may not drive an input of the design"),
    9: ("NotInput", "only inputs have stimulus points"),
    10: ("NetInUse", "a gate reads or drives the net"),
    11: ("TimeTooLarge", "a time over 1099511627776, or a question past the horizon of what it asks"),
    12: ("NoSuchPoint", "the input has no stimulus point at this moment"),
    13: ("TooMany", "a limit is reached: 65536 nets, 65536 gates, 1048576 points, 4096 edits, 64 names"),
    14: ("OutOfMemory", "an allocation was refused; no version changed, but a batch that was to be committed is over; try a smaller horizon"),
    15: ("WorkerLost", "an internal worker ended; no version changed, but a batch that was to be committed is over; start the program again"),
    16: ("BadCommand", "the line is no command: an unknown word, too few or too many words, or a number, value, kind or constant that can't be read"),
    17: ("LongLine", "the line is over 4096 bytes"),
    18: ("UnknownHold", "no version is held under this name"),
    19: ("NoBatch", "there is no batch to end"),
    20: ("InBatch", "there is a batch already"),
    21: ("NoTurnOff", "only `bufif1`, `bufif0`, `notif1` and `notif0` take a turn-off delay: leave `/Z` out, or give the gate delays without it before it gets another kind"),
}

BAD_COMMAND, UNKNOWN_HOLD = 16, 18
# The words of each command, as docs/commands.md has them, and of the questions of tools that are no commands otherwise.
EDITS_AND_MORE = (
    "net N KIND", "input N", "dropnet N", "kind N KIND", "gate G KIND R F OUT IN..", "drop G", "delay G R F", "type G KIND",
    "wire G OUT IN..", "stim N T V", "unstim N T", "horizon T", "begin", "commit", "abort", "hold K", "free K", "at K LINE", "quit",
)  # fmt: skip
QUESTIONS = ("value N T", "wave N", "next N T", "prev N T", "seek N T V", "vcd")
OF_TOOLS = (
    "nets", "inputs", "gates", "drivers N", "readers N", "points N", "window N FROM TO", "window N FROM TO PARTS", "why N T", "reach N T", "diff K",
)  # fmt: skip
# The prefix with which a program of tools says the word at fault.
FAULT_PREFIX = "fault"
ALL_FORMS = EDITS_AND_MORE + QUESTIONS + OF_TOOLS + (f"{FAULT_PREFIX} LINE",)
# Of each first word the lines that it begins.
FORMS: Dict[str, List[str]] = {word: [it for it in ALL_FORMS if it.split()[0] == word] for word in (it.split()[0] for it in ALL_FORMS)}


class TextFault(NamedTuple):
    """A way to get a text refused: the code, the name, what it may look like, and why it is refused and what helps."""

    code: int
    name: str
    example: str
    why: str


TEXTS: List[TextFault] = [
    TextFault(1, "Text", "a byte 128 outside comments", "a byte that can't be printed, or over 4194304 bytes"),
    TextFault(2, "Syntax", "`module m; wire a endmodule`", "the word can't stand there, or a `;` is missing before it"),
    TextFault(2, "Syntax", "`module m(a); endmodule`", "at `endmodule`: a port has no direction"),
    TextFault(3, "Unsupported", "`module m; reg q; endmodule`", "Verilog that is left out: write gates, or import it"),
    TextFault(4, "UnknownModule", "`module m; sub u(); endmodule`", "the module is not there: add it to the text, or import with `--lib`"),
    TextFault(5, "Recursive", "`module m; m u(); endmodule`", "a module within itself: take one instance away"),
    TextFault(6, "NoTop", "an empty text", "there is no module"),
    TextFault(7, "ManyTops", "`module m; endmodule module n; endmodule`", "two modules are used by none: drop one, or use it"),
    TextFault(8, "WidthMismatch", "`module m; wire [1:0] v; not #1 (y, v); endmodule`", "a gate takes a bit of a vector: write `v[0]`"),
    TextFault(8, "WidthMismatch", "`module m; wire [1:0] v; not #1 (y, v[2]); endmodule`", "there is no such bit, or no vector at all"),
    TextFault(8, "WidthMismatch", "`module m(a); input [1:0] a; wire a; endmodule`", "give both declarations one range"),
    TextFault(8, "WidthMismatch", "a port `[1:0] p` on a net `[2:0] v`", "connect a net of the port's width"),
    TextFault(9, "PortKind", "`module m; not #1 (1'b0, a); endmodule`", "a constant as an output: give it a net"),
    TextFault(9, "PortKind", "a port `wand p` on a net `wire n`", "port and net resolve in two ways: declare both of one kind, or the port `wire`"),
    TextFault(10, "PortCount", "`module m; s u(a, b); endmodule`, `s` with one port", "count the connections, or name them"),
    TextFault(11, "BadName", "`module m; wire \\a.b ; endmodule`", "a name has a `.` or `'`, over 1024 bytes, or is `$end`"),
    TextFault(11, "ZeroDelay", "`module m; not (y, a); endmodule`", "a delay is 0, or there is none: `--delay` gives one"),
    TextFault(11, "DelayTooLarge", "`module m; not #1000001 (y, a); endmodule`", "a delay is over 1000000: take a coarser unit"),
    TextFault(11, "WrongArity", "`module m; bufif1 #1 (y, a); endmodule`", "too few or too many terminals"),
    TextFault(11, "DuplicateName", "`module m; wire a; wire a; endmodule`", "a net is declared again, or after its use"),
    TextFault(11, "DuplicateName", "`module m; wire [1:0] a; wire \\a[0] ; endmodule`", "the bit of a vector has this name: take another"),
    TextFault(11, "DuplicateName", "`module m; not #1 g(y, a), g(z, a); endmodule`", "a gate's or instance's name is taken"),
    TextFault(11, "DrivenInput", "`module m(input a); not #1 (a, b); endmodule`", "a gate drives an input of the design"),
    TextFault(11, "TooMany", "`module m; wire [65536:0] a; endmodule`", "a bound or an index over 65535"),
    TextFault(11, "TooMany", "a text of 65537 nets", "there are over 65536 nets, gates or instances, or 32 levels"),
]


class TextCure(NamedTuple):
    """What a text may have that is refused: how it looks, the code and the name, and what helps; and the words of which this is so
    wherever they are at fault."""

    text: str
    code: int
    name: str
    cure: str
    words: Tuple[str, ...] = ()


CURES: List[TextCure] = [
    TextCure("`assign y = b;`", 3, "Unsupported", "import: both names become one net. By hand: `buf #1 (y, b);`, which takes 1", ("assign", "deassign")),
    TextCure("`always @(posedge b) c <= a[0];`", 3, "Unsupported", "import with `--synthesize`", ("always", "initial", "reg", "integer", "function", "task", "generate", "genvar")),
    TextCure("`supply1 one;`", 3, "Unsupported", "import. By hand: `tri1 one;`, which is 1 while nothing drives it", ("supply1",)),
    TextCure("`specify endspecify`", 3, "Unsupported", "import, which leaves it out; delays come from Liberty or SDF", ("specify",)),
    TextCure("`s u({a[1], b}, y);`", 3, "Unsupported", "import. By hand: a vector that is declared as wide as the port", ("{",)),
    TextCure("`s u(a[2:1], y);`", 2, "Syntax", "the same"),
    TextCure("`nmos #1 (y, a[0], b);`", 3, "Unsupported", "write it as gates, or import it with the Liberty file of its cell", ("nmos", "pmos", "cmos", "rnmos", "rpmos", "rcmos", "tran", "tranif0", "tranif1", "rtran", "rtranif0", "rtranif1", "pullup", "pulldown")),
    TextCure("`trireg q;`", 3, "Unsupported", "take a `tri`, or a latch", ("trireg",)),
    TextCure("`and #1 (y, b, 1'h1);`", 2, "Syntax", "import. By hand: `1'b1`", ("1'h1",)),
    TextCure("`buf #1.5 (y, b);`", 2, "Syntax", "import, which rounds to units: with `--unit 100ps` and a `` `timescale 1ns/1ps `` it is 15. By hand: whole numbers of a finer unit"),
    TextCure("`buf #(1:2:3) (y, b);`", 2, "Syntax", "import, which takes 2. By hand: `#2`"),
    TextCure("`and #(1,2,3) (y, a[0], b);`", 2, "Syntax", "leave the third delay out: an `and` never lets its net go"),
    TextCure("`buf #1 g[1:0](y, b);`", 2, "Syntax", "write a gate for each"),
    TextCure("`s #(4) u(b, y);`", 2, "Syntax", "import", ("#",)),
    TextCure("`wire \\u1.n ;`", 11, "BadName", "import: it is the net `u1.n` or `u1/n` [in commands](import.md#names)"),
    TextCure("`buf (y, b);`", 11, "ZeroDelay", "`--delay 1`"),
    TextCure("`buf #0 (y, b);`", 11, "ZeroDelay", "1 is the least delay"),
    TextCure("`not (strong0, strong1) #1 (y, b);`", 11, "ZeroDelay", "take the strengths away; there are none"),
    TextCure("`NAND2 u(.A(b), .Y(y));`", 4, "UnknownModule", "put the cell's module behind it in the file, or import with `--lib`"),
    TextCure("`not #1 (y, a);`", 8, "WidthMismatch", "a gate takes a bit: `a[0]`"),
    TextCure("`and #1 (b, a[0], y);`", 11, "DrivenInput", "the output comes first; the line is that of `module`"),
    TextCure("`module m(inout a); endmodule`", 3, "Unsupported", "import: it becomes an output that a gate of the session may drive", ("inout",)),
    TextCure("`` `celldefine module m; endmodule ``", 3, "Unsupported", "import, as with `` `default_nettype ``, `` `include `` and `` `define ``; a delay has to be a number there", ("`celldefine", "`endcelldefine", "`default_nettype", "`include", "`define", "`undef", "`ifdef", "`ifndef", "`else", "`endif", "`resetall")),
    TextCure("`module \\$paramod\\s\\W=s32'4 ; endmodule`", 11, "BadName", "import"),
    TextCure("`module m; endmodule module INV; endmodule`", 7, "ManyTops", "a library with cells that the design does not use: import with `--lib`; `--top m` says which module is the design"),
    TextCure("`module m(a); endmodule`", 2, "Syntax", "the port `a` has no direction; the line is that of `endmodule`"),
    TextCure("`module m(output y); s u(.Z(y)); endmodule module s(output Y); endmodule`", 10, "PortCount", "a pin is misspelt, or there are too many: look at the ports of its module"),
    TextCure("`entity m is end m;`", 2, "Syntax", "this is no Verilog"),
]


def of_command(code: int, name: str) -> str:
    """What a refused command's code means, behind a colon; nothing where this package does not know it."""
    known, means = COMMANDS.get(code, ("", ""))
    return f": {means}" if known == name else ""


def without_fault(line: str) -> List[str]:
    """The words of a line without the prefix `fault`: what it does."""
    words = line.split()
    return words[1:] if words[:1] == [FAULT_PREFIX] and len(words) > 1 else words


def inner_words(line: str) -> Tuple[List[str], List[str]]:
    """The words of a line without the prefix `fault`: those of the prefix `at K`, and those of the command behind it."""
    words = without_fault(line)
    ahead = 2 if words[:1] == ["at"] and len(words) > 2 else 0
    return words[:ahead], words[ahead:]


def form_for(code: int, line: str) -> str:
    """The words that a line has to have which is no command, behind a semicolon; nothing where its first word is none either."""
    prefix, words = inner_words(line)
    verb = words[0] if words else ""
    is_question = any(it in QUESTIONS + OF_TOOLS for it in FORMS.get(verb, []))
    forms = FORMS.get(verb if is_question or not prefix else "at")
    return f"; it is {' or '.join(f'`{it}`' for it in forms)}" if forms and code == BAD_COMMAND else ""


def of_text(code: int, name: str, word: str = "") -> str:
    """Why a text may be refused with this code and name, behind a colon, or what helps against the word at fault; nothing where this
    package does not know it."""
    based = re.match(r"\d+\s*'", word)
    whys = [alone(it.cure) for it in CURES if (it.code, it.name) == (code, name) and ("1'h1" if based else word) in it.words]
    whys = whys or [it.why for it in TEXTS if (it.code, it.name) == (code, name) and is_of(it, word)]
    return f": {'; or '.join(whys)}" if whys else ""


def is_of(fault: TextFault, word: str) -> bool:
    """Whether a fault may be that of a word: what is at `endmodule` is not at another one."""
    return not (word and fault.why.startswith("at `")) or fault.why.startswith(f"at `{word}`")


def alone(cure: str) -> str:
    """What helps, as it is said away from its page: there are no links, and it says what imports."""
    return re.sub(r"^import\b", "`python3 -m gatebench import`", re.sub(r"\[(.*?)\]\(.*?\)", r"\1", cure))
