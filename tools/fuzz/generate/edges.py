"""Cases at the limits, on both sides of each, and what a stranger may write: they are tried in every run."""
from itertools import product

from case import Case
from reading.tables import GATES, VERILOG

from . import tool_edges
from .parts import BODIES, HEADERS, INNER, NUMBERED, NUMBERS, SCALES, TOPS, parts

HEAD = b"module m(input a, output y);\n"
END = b"\nendmodule\n"


def in_module(body):
    return HEAD + body + END


def listed(template, count):
    return b", ".join(template % number for number in range(count))


def levels(count):
    """A chain of so many modules, each with an instance of the next."""
    inner = [b"module m%d; m%d u(); endmodule\n" % (number, number + 1) for number in range(1, count)]
    return b"".join([*inner, b"module m%d; endmodule\n" % count])


def halves(count, rest=b""):
    """Each of so many modules has two instances of the next; the last has this inside."""
    inner = [b"module m%d; m%d u(), v(); endmodule\n" % (number, number + 1) for number in range(1, count)]
    return b"".join([*inner, b"module m%d; %s endmodule\n" % (count, rest)])


def instances(count):
    return b"module k; endmodule\nmodule m;\nk %s;\nendmodule\n" % listed(b"u%d()", count)


def path(length):
    """A net and a gate whose names have so many bytes with that of their instance."""
    name = b"n" * (length - 1001)
    return b"module k; not #1 g(%s, %s); endmodule\nmodule m; k %s(); endmodule\n" % (name, name, b"u" * 1000)


def gate_path(name, length):
    """A gate with this name for its outputs, in an instance whose name has so many bytes."""
    return b"module k(input a); buf #1 %s(b, c, a); endmodule\nmodule m; k %s(); endmodule\n" % (name, b"u" * length)


def sizes():
    yield b"module m;\nendmodule".ljust(4_194_304)
    yield b"module m;\nendmodule".ljust(4_194_305)
    yield b"module m;/*" + b" /*\n" * 500_000 + b"*/endmodule"
    yield b"module m;(*" + b"(*)" * 500_000 + b" "
    yield in_module(b"buf #1 g(y, a);" + b"/" * 100_000)
    for length in (1023, 1024, 1025):
        name = b"n" * length
        yield b"module " + name + b"; endmodule"
        yield b"module m; wire \\" + name + b" ; endmodule"
        yield in_module(b"not #1 " + name + b"(y, a);")
        yield in_module(b"buf #1 " + name[2:] + b"(y, b, a);")
        yield in_module(b"buf #1 " + name + b"(y, b, a);")
        yield b"module m; wire [9:8] " + name[3:] + b"; endmodule"
        yield path(length)
        yield gate_path(b"g", length - 4)
        yield gate_path(b"", length - 5)
        yield b"module k; endmodule module m; k " + name + b"(); endmodule"
        yield b"module k; endmodule module l; k v(); endmodule module m; l " + name + b"(); endmodule"


def counts():
    for kind, count in product(GATES, (1, 2, 3, 63, 64, 65)):
        yield in_module(b"%s #1 g(y, %s);" % (kind.encode(), b", ".join([b"a"] * count)))
    yield in_module(b"buf #1 g(%s, a);" % listed(b"n%d", 70))
    for delay in (b"0", b"1", b"1000000", b"1000001", b"4294967295", b"4294967296", b"9" * 5000, b"0_", b"0" * 5000 + b"1"):
        yield in_module(b"not #%s g(y, a);" % delay)
        yield in_module(b"not #(%s) g(y, a);" % delay)
        yield in_module(b"not #(1, %s) g(y, a);" % delay)
    for bound in (b"65535", b"65536", b"4294967296"):
        yield b"module m; wire [%s:65535] w; endmodule" % bound
        yield b"module m; wire [65534:%s] w; not #1 g(w[%s], w[65534]); endmodule" % (bound, bound)
    yield b"module m; wire [65535:0] w; endmodule"
    yield b"module m; wire [0:65535] w; wire v; endmodule"
    yield b"module k; wire [32767:0] w; endmodule module m; k u(), v(); endmodule"
    yield b"module k; wire [32767:0] w; endmodule module m; k u(), v(); wire w; endmodule"
    yield b"module m(input a);\nwire %s;\nendmodule" % listed(b"n%d", 65_535)
    yield b"module m(input a);\nwire %s;\nendmodule" % listed(b"n%d", 65_536)
    yield b"module m(output y);\nnot #1 %s;\nendmodule" % listed(b"g%d(y, y)", 65_537)
    yield b"module m(output y);\nbuf #1 g(%s, y);\nendmodule" % listed(b"n%d", 65_535)


def depths():
    for count in (31, 32, 33):
        yield levels(count)
        yield halves(count)
    yield halves(16)
    yield halves(17)
    yield halves(10, b"wire a; not #1 (a, a);")
    yield instances(65_536)
    yield instances(65_537)


def odd_texts():
    """Small texts at which two rules meet."""
    yield from (b"", b"\n\n", b"//", b"/*", b"(*", b"(*)", b"/*/", b"\\", b"\\ ", b"`", b"`timescale", b"module", b"\x00")
    yield from (b"\x7f", b"\xff", b"module\x80m;")
    for scale in parts(SCALES):
        yield b"`timescale " + scale + b" module k; endmodule"
        yield b"`timescale" + scale + b"\nmodule k; endmodule"
    yield b"module m; `timescale 1ns/1ns endmodule `timescale 1ps/1ns"
    yield b"module m; endmodule `timescale 1ps/1ns `timescale 1 ps/10ns `timescale 10ps/1ns"
    for body in parts(BODIES):
        yield in_module(body)
        yield b"module k; endmodule " + in_module(body)
    yield from odd_headers()


def words():
    """Each word of Verilog, and words that are none, as a name and at the beginning of an item."""
    for word in [*VERILOG.split(), "Module", "WIRE", "uwires", "wait1", "signed$", "_and", "unsigned1", "logic", "bit", "do"]:
        yield b"module m; wire " + word.encode() + b"; endmodule"
        yield b"module m; " + word.encode() + b" u(a"


def odd_headers():
    for module in parts(HEADERS):
        for rest in (b"", b";", b" endmodule", b"; endmodule"):
            yield b"module " + module + rest


def joined():
    """Modules and what is connected: each fault of the later passes, and two at once."""
    for top, inner in product(parts(TOPS), parts(INNER)):
        rest = b"module m(input a, output y);\nwire [1:0] w;\n" + top + b"\nendmodule\n"
        yield b"module k(%s); endmodule\n" % inner + rest
        if inner and b":" not in inner:
            yield from (b"module k(%s); not #1 (%s, p); endmodule\n" % (inner, output) + rest for output in (b"q", b"p"))
    yield b"module k; endmodule\nmodule m; k u(); endmodule"
    yield b"module a; b u(); endmodule module b; a u(); endmodule"
    yield b"module t; b u(); endmodule module b; c u(); endmodule module c; b u(); endmodule"
    yield b"module a; endmodule module b; endmodule"
    yield b"module a; endmodule\nmodule b; b u(); endmodule\nmodule c; endmodule"
    yield b"`timescale 1ns/1ns"
    yield from passed_on()
    yield from fourth_pass()


def fourth_pass():
    """Two faults of the last pass at once, beside those that come of sizes."""
    faults = [b"k %s();" % (b"u" * 1024), b"l u(a);", b"k u(1'b0);", b"not #1 (a, y);", b"wire [65535:0] w;"]
    inner = b"module k(input p); wire n; not #1 (p, n); endmodule\nmodule l(input wor p); endmodule\n"
    yield from (inner + in_module(b" ".join(dict.fromkeys(pair))) for pair in product(faults, faults))


def passed_on():
    """Ports that are connected through a module between."""
    for kind, outer, driver in product((b"", b"wand", b"tri", b"triand"), (b"wire", b"wand", b"wor"), (b"", b"not #1 (p, a);")):
        inner = b"module l(output %s p, input a); %s endmodule\n" % (kind, driver)
        between = b"module k(output p, input a); l u(p, a); endmodule\n"
        yield inner + between + b"module m(input a);\n%s n; k u(n, a); endmodule\n" % outer
    drives, reads = b"module l(output p); not #1 (p, p); endmodule\n", b"module l(input p); buf #1 (q, p); endmodule\n"
    for inner, direction, given in product((drives, reads), (b"input", b"output"), (b"1'b0", b"a", b"n", b"")):
        between = b"module k(%s p); l u(p); endmodule\n" % direction
        yield inner + between + b"module m(input a);\nk u(%s); endmodule\n" % given


def sessions():
    """Sessions at the limits."""
    edit = b"stim a 0 1\n"
    for count in (4095, 4096, 4097, 4098):
        yield b"begin\n" + edit * count + b"frob\nnet a wire\ncommit\nwave a\nbegin\n" + edit + b"commit\nwave a\n"
    held = b"".join(b"hold h%d\n" % number for number in range(66))
    yield held + b"free h3\nhold h3\nhold h3\nhold x\nat h64 vcd\nat h3 vcd\nfree h64\n"
    for length in (1021, 1022, 1023, 1024, 1025):
        name = b"n" * length
        yield b"input %s\nstim %s 1 1\ngate %s not 1 1 y %s\nvcd\nhold %s\nat %s vcd\nwave %s\ndrop %s\n" % ((name,) * 8)
    for length in (4095, 4096, 4097):
        lines = product((b"vcd", b"", b"#", b"\xff"), (b"\n", b"\r\n", b"\r\r\n"))
        yield b"".join(begin.ljust(length) + end for begin, end in lines)
        yield b"vcd".ljust(length)
    for number in parts(NUMBERS):
        yield b"".join(line.replace(b"<N>", number) + b"\n" for line in parts(NUMBERED))
    for count in (0, 1, 63, 64, 65):
        yield b"gate h nor 1 2 y%s\nwire g y%s\ntype g and\nwire g y%s\nstim a 2 1\nvcd\n" % ((b" a" * count,) * 3)
    for word in (b"1'bX", b"1'B0", b"1'b2", b"1'b", b"x'", b"'", b"1'b01", b"2'b0", b"1'bz", b"1'bx", b"1"):
        yield b"gate h and 1 1 y %s\nwire g y %s\nwire g %s a\nvalue %s 0\nnet %s wire\nvcd\n" % ((word,) * 5)
    yield b"net n wire\ngate t bufif1 2 2/1 n 1'b1 a\nstim a 0 1\nstim a 3 x\nwave n\n"
    yield b"net n wire\nnet o wire\ninput p\nnet q wand\ndropnet n\nnet n wor\nnet r wire\nvcd\n"


def texts():
    for group in (sizes, counts, depths, words, odd_texts, joined):
        yield from group()


def cases():
    """The cases at the limits; texts in which gates need a delay are given one too."""
    for text in texts():
        yield Case(text, ("--horizon", "5"), b"vcd\n" if len(text) < 10_000 else b"")
        if len(text) < 10_000:
            yield Case(text, ("--horizon", "5", "--delay", "2"), b"stim a 1 1\nvcd\n")
    buffer = b"module m(input a, output y); buf #1 g(y, a); endmodule\n"
    wide = b"module m(input a, output y); buf #1 g(y, a); wire [65532:0] w; endmodule\n"
    for commands in sessions():
        yield Case(buffer, ("--horizon", "5"), commands)
    yield Case(wide, ("--horizon", "5"), commands)
    yield Case(wide, ("--horizon", "5"), b"".join(b"fault " + line + b"\n" for line in commands.split(b"\n")), tool=True)
    full = b"module m(output y);\nnot #1 %s;\nendmodule" % listed(b"g%d(y, y)", 65_536)
    yield Case(full, ("--horizon", "5"), tool_edges.FULL_OF_GATES, tool=True)
    yield from tool_edges.cases()
