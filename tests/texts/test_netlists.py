"""Small texts, each with the design that it spells, read by hand."""
import unittest

from .reading import Rows, WithTexts

NETLIST = """`timescale 10 us / 1 ns
module m (y, a, b, w);
  input wire a;
  input wand b;
  output y, w;
  wor n;
  nand #(3,7) g1 (n, a, b);
  buf #2 g (y, w, n);
  not (z, 1'bx);
  bufif1 #5 (n, z, b);
endmodule
"""
NETLIST_DESIGN = (
    "m: y:wire <a:wire <b:wand w:wire n:wor z:wire / g1 nand 3 7 n a b"
    " / g$1 buf 2 2 y n / g$2 buf 2 2 w n / $1 not 4 4 z 1'bx / $2 bufif1 5 5 n z b"
)

SMALL: Rows = [
    ("a module without anything", "module m;endmodule", "m:"),
    ("an escaped name of a module", "module \\a+b (); endmodule", "a+b:"),
    # Both ways to declare an input of a kind.
    ("inputs of a kind in the header", "module m(input trior a, b, output c); endmodule", "m: <a:trior <b:trior c:wire"),
    ("an input of a kind behind the header", "module m(a); triand a; input a; endmodule", "m: <a:triand"),
    ("pulled nets", "module m(input tri0 a, output b); tri1 b; tri0 c, d; endmodule", "m: <a:tri0 b:tri1 c:tri0 d:tri0"),
    # A net may have several drivers, and a gate may read and drive one net.
    (
        "a net that gates read and drive, and constants",
        "module m; xor #1 (y,y,1'b0,1'Bz); or #1 (y,1'b1,y); endmodule",
        "m: y:wire / $1 xor 1 1 y y 1'b0 1'bz / $2 or 1 1 y 1'b1 y",
    ),
    (
        "an unnamed instance of two outputs is counted once",
        "module m; buf #9 (y,z,a), (b,a); endmodule",
        "m: y:wire z:wire a:wire b:wire / $1$1 buf 9 9 y a / $1$2 buf 9 9 z a / $2 buf 9 9 b a",
    ),
    # Three numbers are the delays of each instance, and of those in an instance of the module.
    (
        "turn-off delays, those in an instance of a module too",
        "module h(d,c,n); input d,c; output n; notif0 #(2,3,5) g(n,d,c); endmodule "
        "module m(a,b,y); input a,b; output y; h u(a,b,y); bufif1 #(7,6,1) (y,b,a); endmodule",
        "m: <a:wire <b:wire y:wire / $1 bufif1 7 6/1 y b a / u.g notif0 2 3/5 y a b",
    ),
    ("a net and a gate of one name", "module m; not #1 a(a,b); endmodule", "m: a:wire b:wire / a not 1 1 a b"),
]

LINES: Rows = [
    ("a comment and a directive alone", "\n// nothing\n`timescale 1 s/1 s\n", "line 1: 6 NoTop"),
    ("a module on the second line", "\nmodule m; endmodule", "m:"),
    ("a gate drives an input", "\nmodule m(input a, b);\nbuf #1 (c,a), (b,a);\nendmodule", "line 2: 11 DrivenInput"),
    (
        "a gate drives an output",
        "\nmodule m(input a, output b);\nbuf #1 (c,a), (b,a);\nendmodule",
        "m: <a:wire b:wire c:wire / $1 buf 1 1 c a / $2 buf 1 1 b a",
    ),
    # What a token shows comes first.
    ("a token before a driven input", "module m(input a);\nbuf #1 (a,b); always", "line 2: 3 Unsupported"),
]

UNITS = {
    "module m; endmodule": "1 ns",
    "`timescale 100 fs/1 fs module m; endmodule": "100 fs",
    "`timescale 1 s/1 ps module m; endmodule": "1 s",
    NETLIST: "10 us",
}


class Netlists(WithTexts):
    def test_a_netlist(self) -> None:
        self.check(NETLIST, NETLIST_DESIGN, "--delay=4")
        self.check(NETLIST, "line 9: 11 ZeroDelay")

    def test_small_texts(self) -> None:
        self.check_rows(SMALL)

    def test_texts_of_several_lines(self) -> None:
        self.check_rows(LINES)

    def test_units_of_time(self) -> None:
        for text, unit in UNITS.items():
            ended = self.as_gatebench([self.write("unit.v", text), "--delay=1"], "vcd\n")
            self.assertEqual((ended.status, ended.printed.splitlines()[1]), (0, f"$timescale {unit} $end"), text)


if __name__ == "__main__":
    unittest.main()
