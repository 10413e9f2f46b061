"""Sessions over a design with vectors: each bit is a net of its own."""
import unittest

from .talks import Talk, WithTalks

# The ports of `h` are connected from the left: p[0] is a[1], p[1] is a[0], q[1] is y[3], q[0] is y[2].
DESIGN = (
    "module h(input [0:1] p, output [1:0] q); buf #2 g(q[0],p[0]), k(q[1],p[1]); wire [1:1] t; endmodule "
    "module m(input [1:0] a, output [3:2] y); h u(a,y); endmodule"
)

QUESTIONS: Talk = [
    ("stim a[1] 0 1", "ok 1"),
    ("stim a[0] 3 0", "ok 2"),
    ("value y[2] 1", "x", "ok 2"),
    ("value y[2] 2", "1", "ok 2"),
    ("wave y[3]", "0 x", "5 0", "ok 2"),
    ("wave y[2]", "0 x", "2 1", "ok 2"),
    ("next y[3] 0", "5 0", "ok 2"),
    ("wave u.t[1]", "0 z", "ok 2"),
    ("wave y", "no 1 UnknownNet"),
    ("wave u.t", "no 1 UnknownNet"),
    ("wave u.p[0]", "no 1 UnknownNet"),
    ("wave u.q[1]", "no 1 UnknownNet"),
    ("wave a[2]", "no 1 UnknownNet"),
    ("wave a[01]", "no 1 UnknownNet"),
    ("stim a 0 1", "no 1 UnknownNet"),
    ("stim a[2] 0 1", "no 1 UnknownNet"),
    ("stim y[3] 0 1", "no 9 NotInput"),
    ("stim u.t[1] 0 1", "no 9 NotInput"),
]

# One bit goes, and comes back with another kind; the others stay.
EDITS: Talk = [
    ("stim a[0] 0 1", "ok 1"),
    ("dropnet y[3]", "no 10 NetInUse"),
    ("dropnet a[1]", "no 10 NetInUse"),
    ("drop u.k", "ok 2"),
    ("dropnet y[3]", "ok 3"),
    ("wave y[3]", "no 1 UnknownNet"),
    ("dropnet u.t[1]", "ok 4"),
    ("wave y[2]", "0 x", "ok 4"),
    ("net y[2] wire", "no 3 DuplicateName"),
    ("net y[3] wand", "ok 5"),
    ("net y[4] wire", "ok 6"),
    ("gate k not 1 4 y[3] a[0]", "ok 7"),
    ("wave y[3]", "0 x", "4 0", "ok 7"),
    ("kind a[0] wor", "ok 8"),
    ("wire u.g y[4] a[0]", "ok 9"),
    ("wave y[4]", "0 x", "2 1", "ok 9"),
    ("wave y[2]", "0 z", "ok 9"),
    ("dropnet y[2]", "ok 10"),
]


class Vectors(WithTalks):
    def test_questions_about_bits(self) -> None:
        self.check_talk(DESIGN, QUESTIONS, "--horizon=10")

    def test_edits_of_bits(self) -> None:
        self.check_talk(DESIGN, EDITS, "--horizon=10")


if __name__ == "__main__":
    unittest.main()
