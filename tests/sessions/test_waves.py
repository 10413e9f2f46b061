"""Design texts, and the waves of the designs that they spell."""
import unittest
from typing import List, Tuple

from .talks import EMPTY, Talk, WithTalks

C17 = """// c17
module c17 (N1,N2,N3,N6,N7,N22,N23);

input N1,N2,N3,N6,N7;

output N22,N23;

wire N10,N11,N16,N19;

nand NAND2_1 (N10, N1, N3);
nand NAND2_2 (N11, N3, N6);
nand NAND2_3 (N16, N2, N11);
nand NAND2_4 (N19, N11, N7);
nand NAND2_5 (N22, N10, N16);
nand NAND2_6 (N23, N16, N19);

endmodule
"""

# A name that says what the row shows, a text, a word for the delay of gates without one, and a talk up to the horizon 40.
TEXTS: List[Tuple[str, str, str, Talk]] = [
    (
        "a pulse that is shorter than the delay is swallowed",
        "module m(a,y); input a; output y; buf #(3,3) g(y,a); endmodule",
        "",
        [
            ("stim a 0 0", "ok 1"),
            ("stim a 10 1", "ok 2"),
            ("stim a 12 0", "ok 3"),
            ("wave y", "0 x", "3 0", "ok 3"),
        ],
    ),
    (
        "a pulse that is as long as the delay passes",
        "module m(a,y); input a; output y; buf #(3,3) g(y,a); endmodule",
        "",
        [
            ("stim a 0 0", "ok 1"),
            ("stim a 10 1", "ok 2"),
            ("stim a 13 0", "ok 3"),
            ("wave y", "0 x", "3 0", "13 1", "16 0", "ok 3"),
        ],
    ),
    (
        "to x the lesser delay counts",
        "module m(a,y); input a; output y; buf #(10,1) g(y,a); endmodule",
        "",
        [
            ("stim a 0 0", "ok 1"),
            ("stim a 20 1", "ok 2"),
            ("stim a 25 x", "ok 3"),
            ("stim a 26 1", "ok 4"),
            ("wave y", "0 x", "1 0", "26 x", "36 1", "ok 4"),
        ],
    ),
    (
        "gates without a delay, an implicit net and an unnamed gate",
        "module m (a,b,y);\n input a,b;\n output y;\n nand NAND2_1 (t, a, b);\n not (y, t);\nendmodule",
        "--delay=2",
        [
            ("stim a 0 1", "ok 1"),
            ("stim b 0 1", "ok 2"),
            ("wave t", "0 x", "2 0", "ok 2"),
            ("wave y", "0 x", "4 1", "ok 2"),
            ("drop $1", "ok 3"),
            ("drop $2", "no 2 UnknownGate"),
        ],
    ),
    (
        "an and in place of the nand",
        "module m (a,b,y);\n input a,b;\n output y;\n and NAND2_1 (t, a, b);\n not (y, t);\nendmodule",
        "--delay=2",
        [
            ("stim a 0 1", "ok 1"),
            ("stim b 0 1", "ok 2"),
            ("wave t", "0 x", "2 1", "ok 2"),
            ("wave y", "0 x", "4 0", "ok 2"),
        ],
    ),
    (
        "both forms of ports, escaped names, several outputs, a constant, and net kinds",
        "`timescale 10ps/1ps\nmodule \\m+ (input wire a, b, output wor y); wand \\n1 , z;\n"
        "buf #(1,4) g(y, \\n1 , a); not (y, 1'b1); not #2 (z, b) , k (z, a); endmodule",
        "--delay=3",
        [
            ("stim a 0 1", "ok 1"),
            ("stim b 0 0", "ok 2"),
            ("wave y", "0 x", "1 1", "ok 2"),
            ("wave n1", "0 x", "1 1", "ok 2"),
            ("wave z", "0 x", "2 0", "ok 2"),
            ("drop g$2", "ok 3"),
            ("drop g", "no 2 UnknownGate"),
            ("wire $1 n1 b", "ok 4"),
            ("kind z wor", "ok 5"),
            ("wave z", "0 x", "2 1", "ok 5"),
        ],
    ),
    (
        "two inverters in an instance",
        "module h(p,q); input p; output q; wire t; not #1 g(t,p); not #1 g2(q,t); endmodule "
        "module m(a,y); input a; output y; h u(a,y); endmodule",
        "",
        [
            ("stim a 0 1", "ok 1"),
            ("wave u.t", "0 x", "1 0", "ok 1"),
            ("wave y", "0 x", "2 1", "ok 1"),
            ("wave u.p", "no 1 UnknownNet"),
            ("wave u.q", "no 1 UnknownNet"),
            ("stim u.t 0 1", "no 9 NotInput"),
            ("drop u.g", "ok 2"),
            ("drop u.g2", "ok 3"),
            ("drop g", "no 2 UnknownGate"),
        ],
    ),
    (
        "an input port that is not connected",
        "module m; h u(); endmodule module h(input p, output q); bufif1 #1 g(q,1'b1,p); endmodule",
        "",
        [
            ("stim u.p 0 1", "no 9 NotInput"),
            ("wave u.p", "0 z", "ok 0"),
            ("wave u.q", "0 x", "ok 0"),
        ],
    ),
    (
        "a net of two gates in two instances",
        "module m(input a, b); wor n; h u(n,a), v(n,b); endmodule module h(output q, input p); buf #1 g(q,p); endmodule",
        "",
        [
            ("stim a 0 0", "ok 1"),
            ("stim b 0 0", "ok 2"),
            ("stim b 5 1", "ok 3"),
            ("wave n", "0 x", "1 0", "6 1", "ok 3"),
        ],
    ),
    (
        "a latch of two gates",
        "module latch(input s, r, output q, p); nor #1 (q, r, p), (p, s, q); endmodule",
        "",
        [
            ("stim r 0 1", "ok 1"),
            ("stim s 0 0", "ok 2"),
            ("stim r 5 0", "ok 3"),
            ("stim s 10 1", "ok 4"),
            ("stim s 15 0", "ok 5"),
            ("wave q", "0 x", "1 0", "12 1", "ok 5"),
            ("wave p", "0 x", "2 1", "11 0", "ok 5"),
        ],
    ),
    (
        "c17 of ISCAS-85",
        C17,
        "--delay=2",
        [
            ("stim N1 0 1", "ok 1"),
            ("stim N2 0 1", "ok 2"),
            ("stim N3 0 1", "ok 3"),
            ("stim N6 0 1", "ok 4"),
            ("stim N7 0 1", "ok 5"),
            ("stim N3 20 0", "ok 6"),
            ("wave N22", "0 x", "4 1", "24 0", "26 1", "ok 6"),
            ("wave N23", "0 x", "6 0", "26 1", "ok 6"),
        ],
    ),
]

FIRST: Talk = [
    ("input a", "ok 1"),
    ("net y wire", "ok 2"),
    ("gate g not 2 3 y a", "ok 3"),
    ("stim a 0 0", "ok 4"),
    ("wave y", "0 x", "2 1", "ok 4"),
]

# At 4 the net has one driver left, which gives 0, and from 6 to 8 none.
BUS = "module m(d0,c0,d1,c1,n); input d0,c0,d1,c1; output n; bufif1 #1 g0(n,d0,c0), g1(n,d1,c1); endmodule"
KINDS: Talk = [
    ("stim d0 0 0", "ok 1"),
    ("stim d1 0 1", "ok 2"),
    ("stim c0 0 1", "ok 3"),
    ("stim c1 0 1", "ok 4"),
    ("stim c1 3 0", "ok 5"),
    ("stim c0 5 0", "ok 6"),
    ("stim c0 7 x", "ok 7"),
    ("kind n tri0", "ok 8"),
    ("wave n", "0 x", "4 0", "8 x", "ok 8"),
    ("kind n tri1", "ok 9"),
    ("wave n", "0 x", "4 0", "6 1", "8 x", "ok 9"),
    ("kind n wire", "ok 10"),
    ("wave n", "0 x", "4 0", "6 z", "8 x", "ok 10"),
    ("kind n tri2", "no 16 BadCommand"),
    # one driver, which lets go at 4, and then none
    ("kind n tri0", "ok 11"),
    ("drop g0", "ok 12"),
    ("wave n", "0 x", "1 1", "4 0", "ok 12"),
    ("drop g1", "ok 13"),
    ("wave n", "0 0", "ok 13"),
    ("kind n tri1", "ok 14"),
    ("wave n", "0 1", "ok 14"),
    ("kind n tri", "ok 15"),
    ("wave n", "0 z", "ok 15"),
    ("net p tri1", "ok 16"),
    ("wave p", "0 1", "ok 16"),
]


class Waves(WithTalks):
    def test_the_first_wave(self) -> None:
        self.check_talk(EMPTY, FIRST, "--horizon=10")

    def test_waves_of_texts(self) -> None:
        for name, text, delay, talk in TEXTS:
            with self.subTest(name):
                self.check_talk(text, talk, "--horizon=40", *([delay] if delay else []))

    def test_kinds_of_a_bus(self) -> None:
        self.check_talk(BUS, KINDS, "--horizon=10")


if __name__ == "__main__":
    unittest.main()
