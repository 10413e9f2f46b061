"""Whole dumps, written out by hand."""
import unittest
from typing import List, Tuple

from ..making import EMPTY, WithDesigns, lines_of

BUFFER = "input a; net y wire; gate g buf 3 3 y a; stim a 0 0; stim a 10 1; stim a 13 0; horizon 100"

# Up to the horizon 10, where a change stands, and what follows up to 100.
BUFFER_TO_10 = """$version gatebench $end
$timescale 1 ns $end
$scope module m $end
$var wire 1 ! a $end
$var wire 1 " y $end
$upscope $end
$enddefinitions $end
#0
$dumpvars
0!
x"
$end
#3
0"
#10
1!
""".splitlines()

BEHIND_10 = """#13
0!
1"
#16
0"
#100
""".splitlines()

NOTHING = """$version gatebench $end
$timescale 1 ns $end
$scope module m $end
$upscope $end
$enddefinitions $end
#0
$dumpvars
$end
""".splitlines()

MICROSECONDS = """$version gatebench $end
$timescale 10 us $end
$scope module top$1 $end
$upscope $end
$enddefinitions $end
#0
$dumpvars
$end
""".splitlines()

# The input has the value of its point, though nothing else would give its kind a z.
KINDS = "net w wand; net t tri; input a; kind a tri0; net p tri1; net o trior; stim a 2 z; horizon 3"
KINDS_DUMP = """$version gatebench $end
$timescale 1 ns $end
$scope module m $end
$var wand 1 ! w $end
$var tri 1 " t $end
$var tri0 1 # a $end
$var tri1 1 $ p $end
$var trior 1 % o $end
$upscope $end
$enddefinitions $end
#0
$dumpvars
z!
z"
x#
1$
z%
$end
#2
z#
#3
""".splitlines()

# A text without items, and its dump.
TEXTS: List[Tuple[str, str, List[str]]] = [
    ("a design without nets", EMPTY, NOTHING),
    ("another unit and another name", "`timescale 10us/10us\nmodule top$1; endmodule", MICROSECONDS),
]


class Texts(WithDesigns):
    def test_another_horizon_and_the_first_again(self) -> None:
        replies = self.behind(lines_of(BUFFER), ["vcd", "horizon 10", "vcd", "horizon 100", "vcd"])
        longer = [*BUFFER_TO_10, *BEHIND_10]
        self.assertEqual(replies, [[*longer, "ok 1"], ["ok 2"], [*BUFFER_TO_10, "ok 2"], ["ok 3"], [*longer, "ok 3"]])

    def test_designs_without_nets(self) -> None:
        for name, text, dump in TEXTS:
            with self.subTest(name):
                self.assertEqual(self.replies_to(["vcd"], text), [[*dump, "ok 0"]])

    def test_kinds_and_high_z(self) -> None:
        self.assertEqual(self.behind(lines_of(KINDS), ["vcd"]), [[*KINDS_DUMP, "ok 1"]])


if __name__ == "__main__":
    unittest.main()
