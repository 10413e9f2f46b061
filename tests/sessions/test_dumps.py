"""Dumps of the present version and of held ones: their scopes, kinds, values and moments."""
import unittest

from .talks import BUFFER, Talk, WithTalks

# The dump of a pulse up to the horizon 10, and what follows up to 100.
HEAD = """$version gatebench $end
$timescale 1 ns $end
$scope module m $end
$var wire 1 ! a $end
$var wire 1 " y $end
$upscope $end
$enddefinitions $end
#0
$dumpvars
0!
x"
$end
#3
0"
#10
1!
""".splitlines()

REST = """#13
0!
1"
#16
0"
#100
""".splitlines()

# The dump of the pulse, of a shorter run, and of a held version, which keeps the longer one.
PULSE: Talk = [
    ("stim a 0 0", "ok 1"),
    ("stim a 10 1", "ok 2"),
    ("stim a 13 0", "ok 3"),
    ("vcd", *HEAD, *REST, "ok 3"),
    ("hold long", "ok 3"),
    ("horizon 10", "ok 4"),
    ("vcd", *HEAD, "ok 4"),
    ("at long vcd", *HEAD, *REST, "ok 3"),
    ("vcd now", "no 16 BadCommand"),
    ("at short vcd", "no 18 UnknownHold"),
]

# Two inverters in a row, in an instance.
INVERTERS = (
    "module h(p,q); input p; output q; wire t; not #1 g(t,p); not #1 g2(q,t); endmodule "
    "module m(a,y); input a; output y; h u(a,y); endmodule"
)
INVERTERS_DUMP = """$version gatebench $end
$timescale 1 ns $end
$scope module m $end
$var wire 1 ! a $end
$var wire 1 " y $end
$scope module u $end
$var wire 1 # t $end
$upscope $end
$upscope $end
$enddefinitions $end
#0
$dumpvars
1!
x"
x#
$end
#1
0#
#2
1"
#5
""".splitlines()

NESTED = "module m; wire a; n u(), v(); endmodule module n; wand c; o w(); endmodule module o; tri e; endmodule"
NESTED_DUMP = """$version gatebench $end
$timescale 1 ns $end
$scope module m $end
$var wire 1 ! a $end
$scope module u $end
$var wand 1 " c $end
$scope module w $end
$var tri 1 # e $end
$upscope $end
$upscope $end
$scope module v $end
$var wand 1 $ c $end
$scope module w $end
$var tri 1 % e $end
$upscope $end
$upscope $end
$upscope $end
$enddefinitions $end
#0
$dumpvars
z!
z"
z#
z$
z%
$end
""".splitlines()

# The ports of `h` are connected from the left.
VECTORS = (
    "module h(input [0:1] p, output [1:0] q); buf #2 g(q[0],p[0]), k(q[1],p[1]); wire [1:1] t; endmodule "
    "module m(input [1:0] a, output [3:2] y); h u(a,y); endmodule"
)
VECTORS_DUMP = """$version gatebench $end
$timescale 1 ns $end
$scope module m $end
$var wire 1 ! a[1] $end
$var wire 1 " a[0] $end
$var wire 1 # y[3] $end
$var wire 1 $ y[2] $end
$scope module u $end
$var wire 1 % t[1] $end
$upscope $end
$upscope $end
$enddefinitions $end
#0
$dumpvars
1!
x"
x#
x$
z%
$end
#2
1$
#3
0"
#5
0#
#10
""".splitlines()

# A net without drivers that is pulled.
UNDRIVEN = "module m(y); output y; tri1 n; not #4 g(y,n); endmodule"
UNDRIVEN_DUMP = """$version gatebench $end
$timescale 1 ns $end
$scope module m $end
$var wire 1 ! y $end
$var tri1 1 " n $end
$upscope $end
$enddefinitions $end
#0
$dumpvars
x!
1"
$end
#4
0!
#5
""".splitlines()


class Dumps(WithTalks):
    def test_the_present_version_and_a_held_one(self) -> None:
        self.check_talk(BUFFER, PULSE, "--horizon=100")

    def test_scopes_of_instances(self) -> None:
        self.check_talk(INVERTERS, [("stim a 0 1", "ok 1"), ("vcd", *INVERTERS_DUMP, "ok 1")], "--horizon=5")
        self.check_talk(NESTED, [("vcd", *NESTED_DUMP, "ok 0")], "--horizon=0")

    def test_bits_of_vectors(self) -> None:
        points = [("stim a[1] 0 1", "ok 1"), ("stim a[0] 3 0", "ok 2")]
        self.check_talk(VECTORS, [*points, ("vcd", *VECTORS_DUMP, "ok 2")], "--horizon=10")

    def test_a_net_without_drivers(self) -> None:
        waves = [("wave n", "0 1", "ok 0"), ("wave y", "0 x", "4 0", "ok 0")]
        self.check_talk(UNDRIVEN, [*waves, ("vcd", *UNDRIVEN_DUMP, "ok 0")], "--horizon=5")


if __name__ == "__main__":
    unittest.main()
