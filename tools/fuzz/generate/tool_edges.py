"""Sessions of gatetool at the limits: each form of a line behind `fault` with words that do not fit, limits of numbers and counts,
and small circuits of which each change is asked."""
from case import Case
from reading.tables import CONSTANTS

from .parts import NUMBERS, parts
from .tool_lines import ODD_LINES, ODD_WORDS

BUFFER = b"module m(input a, output y); buf #1 g(y, a); endmodule\n"
# A line of each form.
FORMS = """
net n wire
input n
dropnet y
kind y tri
gate h and 1 2 y a 1'b0
gate h bufif1 1 2/3 y a a
gate g
drop h
delay g 1 2
delay h 1 2/3
type g not
wire g y a
stim a 1 0
unstim a 1
horizon 5
value y 0
wave y
next y 0
prev y 0
seek y 0 1
vcd
begin
abort
commit
hold j
free j
nets
inputs
gates
drivers y
readers y
points a
window y 0 1
window y 0 1 2
why y 0
reach y 0
diff k
at k value y 0
at k window y 0 1 2
at k gate g
at k why y 0
at k reach y 0
at k diff k
at k vcd
""".split("\n")[1:-1]

# Lines with a number near a limit.
NUMBERED = rb"""
stim a <N> 1
unstim a <N>
value y <N>
seek a <N> 1
why y <N>
why nosuch <N>
reach a <N>
at k why y <N>
window y <N> 2
window y 2 <N>
window y <N> <N>
window y 0 2 <N>
delay g <N> <N>
delay g 1 <N>
delay g 1 1/<N>
gate b<N> bufif1 1 <N>/<N> y a a
gate c<N> and <N> 1/<N> y a
gate d<N> and 1 1/<N> y
horizon <N>
"""

# Edits of a design that has as many gates as there may be, all of one net.
FULL_OF_GATES = b"""fault gate h not 1 1 y y
fault gate g7 not 0 0 y y
fault gate h' and 0 0 y
drop g0
fault gate h not 0 1 y y
fault gate h not 1 1 y y
fault gate i not 0 1 y y
"""

# Circuits with their stimulus: net, moment and value.
CIRCUITS = [
    # One behind the other; a pulse of b passes one gate and not the next.
    ("module m(input a, b); not #2 g(y, a); buf #(3, 1) h(z, y); and #(1, 4) i(v, z, b); endmodule", "a 0 0 a 5 1 a 6 0 b 3 1 b 9 0 b 11 1"),
    # Two gates in step, of one net.
    ("module m(input a, b); and #2 g(y, a, b); nand #2 h(y, b, a); wor w; buf #1 i(w, a); not #(1, 2) j(w, b); endmodule", "a 0 1 b 0 1 a 5 0 b 5 x a 9 z"),
    # Events that are taken away, and put again; an event past the horizon.
    ("module m(input a, b); and #5 g(y, a, b); or #(2, 20) h(z, a, b); endmodule", "a 0 1 b 0 1 a 2 0 a 4 1 b 6 0 a 9 0 b 9 1 a 12 1"),
    # A ring, and one that stands still.
    ("module m(input a); nand #1 g(y, a, y); nor #2 h(q, a, p); nor #2 i(p, q); endmodule", "a 0 0 a 4 1 a 12 x"),
    # Constants alone, nets that nothing drives, inputs that are read twice, and turn-off delays.
    ("module m(input a); buf #3 g(y, 1'b1); tri1 n; tri0 v; and #1 h(z, a, a, n); bufif1 #(3, 3, 1) i(v, y, a); xor #1 j(u, a, a); endmodule", "a 0 z a 2 1 a 6 0 a 7 x"),
    # Changes from x to z, which act alike, between others.
    ("module m(input a, b); and #2 g(y, a, b); bufif0 #(1, 2) h(z, b, a); buf #1 i(w, z); endmodule", "b 0 1 a 3 z a 4 0 a 6 z a 7 x b 7 z b 8 0 a 9 1"),
]  # fmt: skip
HORIZON = 16


def altered(line):
    """A line with a word missing, and with another one in its place, before or behind it."""
    words = line.split(" ")
    for place in range(len(words)):
        yield words[:place]
        for odd in ODD_WORDS:
            yield [*words[:place], odd, *words[place + 1 :]]
            yield [*words[: place + 1], odd, *words[place + 1 :]]


def forms():
    lines = ["hold k", *(f"fault {' '.join(it)}" for line in FORMS for it in [line.split(" "), *altered(line)]), *ODD_LINES]
    return "".join(f"{line}\nabort\n" if line.startswith("fault begin") else f"{line}\n" for line in lines).encode("latin-1")


def numbers():
    lines = [b"hold k", b"fault net n wire", b"fault input n", *(b"fault wire g y %s" % it.encode() for it in CONSTANTS)]
    lines += [b"fault " + line.replace(b"<N>", number) for number in parts(NUMBERS) for line in parts(NUMBERED)]
    return b"".join(line + b"\n" for line in lines)


def counts():
    """Edits of a batch, held names, long names and long lines."""
    edit = b"fault stim a 0 1\n"
    yield b"begin\n" + edit * 4095 + b"stim a 0 1\n" + edit + b"fault frob\nfault commit\nbegin\n" + edit + b"net a wire\nfault commit\n"
    yield b"".join(b"fault hold h%d\n" % number for number in range(66)) + b"fault hold h3\nfault free h64\nfault hold $end\n"
    for length in (1024, 1025):
        name = b"n" * length
        yield b"fault net %s wire\nfault net %s wire\nfault why %s 0\nfault gate %s\nfault hold %s\nfault frob %s\nfault %s\n" % ((name,) * 7)
    for length in (4095, 4096, 4097):
        yield b"".join(b"fault".ljust(length - len(rest)) + rest + end for rest in (b" x", b" vcd") for end in (b"\n", b"\r\n", b"\r\r\n"))


def questions(design):
    """Each change of a circuit is asked, before an edit and behind it."""
    nets = dict.fromkeys(design.nets)
    asked = [f"{verb} {name} {time}" for name in nets for time in range(HORIZON + 2) for verb in ("why", "reach")]
    edits = ["kind y wand", "stim a 3 1", "horizon 12", "dropnet a", "net n1 wire", "input n2"]
    return ["hold k", *asked, *(line for edit in edits for line in (edit, "diff k", "hold j", "at k diff j", "free j")), *(f"fault {it}" for it in asked)]


def circuits():
    for text, stimulus in CIRCUITS:
        case = Case(text.encode(), ("--horizon", str(HORIZON)), tool=True)
        words = stimulus.split()
        points = [f"stim {' '.join(words[place : place + 3])}" for place in range(0, len(words), 3)]
        lines = ["begin", *points, "commit", *questions(case.design())]
        yield case._replace(commands="".join(f"{line}\n" for line in lines).encode())


def cases():
    for commands in (forms(), numbers(), *counts()):
        yield Case(BUFFER, ("--horizon", "5"), commands, tool=True)
    yield from circuits()
