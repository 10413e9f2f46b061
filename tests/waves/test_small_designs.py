"""Waves of small designs, worked out by hand."""
import unittest
from typing import List, Tuple

from ..making import WithDesigns, lines_of

# What the row shows, a design, and waves of its nets.
Rows = List[Tuple[str, str, List[str]]]

LET_GO: Rows = [
    (
        "a turn-off delay that is longer than rise and fall",
        "input d; input c; net n wire; gate g bufif1 2 3/5 n d c; stim d 0 1; stim c 0 1; stim c 10 0; stim c 20 x; horizon 30",
        ["n 0:x 2:1 15:z 22:x"],
    ),
    (
        "a turn-off delay that is shorter",
        "input d; input c; net n wire; gate g bufif1 6 7/4 n d c; stim d 0 1; stim c 0 1; stim c 10 0; stim c 20 x; horizon 30",
        ["n 0:x 6:1 14:z 24:x"],
    ),
    (
        "a net that is held for longer than the control is inactive, and so not let go",
        "input d; input c; net n wire; gate g bufif1 2 3/12 n d c; stim d 0 1; stim c 0 1; stim c 10 0; stim c 20 1; horizon 40",
        ["n 0:x 2:1"],
    ),
    (
        "one driver is slow to let go, and the other one drives the net by then",
        "input c; net n wire; gate g bufif1 1 1/4 n 1'b0 c; gate h bufif0 1 1/4 n 1'b1 c; stim c 0 1; stim c 10 0; horizon 20",
        ["n 0:x 4:0 11:x 14:1"],
    ),
]

GATES: Rows = [
    ("an inverter", "input a; net y wire; gate g not 2 3 y a; stim a 0 0; horizon 10", ["a 0:0", "y 0:x 2:1"]),
    ("a net without a driver", "net y wire; net n wire; gate g and 1 1 y n 1'b1; horizon 5", ["n 0:z", "y 0:x"]),
    ("an inverter of other delays", "input a; net y wire; gate h not 2 2 y a; stim a 0 0; horizon 10", ["y 0:x 2:1"]),
    (
        "two buffers on a wor and one behind",
        "input a; input b; net q wire; net n wor; gate g0 buf 1 1 n a; gate g1 buf 1 1 n b; gate h buf 1 1 q n; "
        "stim a 0 0; stim b 0 1; horizon 10",
        ["n 0:x 1:1", "q 0:x 2:1"],
    ),
]

# Nets that are pulled where nothing drives them.
PULLS: Rows = [
    (
        "one driver, which lets go at 11",
        "input a; input c; net n tri0; net y wire; gate g bufif1 1 1 n a c; gate h buf 2 2 y n; "
        "stim a 0 1; stim c 0 1; stim c 10 0; horizon 20",
        ["n 0:x 1:1 11:0", "y 0:x 3:1 13:0"],
    ),
    (
        "two drivers, of which the last lets go at 7 and gives x at 11",
        "input a; input c; input d; net n tri1; gate g bufif1 1 1 n a c; gate h bufif1 1 1 n a d; "
        "stim a 0 0; stim c 0 1; stim d 0 1; stim c 3 0; stim d 6 0; stim d 10 x; horizon 20",
        ["n 0:x 1:0 7:1 11:x"],
    ),
    (
        "no driver, and a gate that reads the nets",
        "net n tri1; net o tri0; net y wire; gate g and 1 2 y n o; horizon 5",
        ["n 0:1", "o 0:0", "y 0:x 2:0"],
    ),
    (
        "an input has the value of its points, whatever its kind",
        "input a; kind a tri1; stim a 2 z; stim a 4 0; horizon 5",
        ["a 0:x 2:z 4:0"],
    ),
]

BUFFERS: Rows = [
    (
        "a short pulse is swallowed",
        "input a; net y wire; gate g buf 3 3 y a; stim a 0 0; stim a 10 1; stim a 12 0; horizon 30",
        ["y 0:x 3:0"],
    ),
    (
        "a pulse of the delay passes",
        "input a; net y wire; gate g buf 3 3 y a; stim a 0 0; stim a 10 1; stim a 13 0; horizon 100",
        ["y 0:x 3:0 13:1 16:0"],
    ),
    (
        "the lesser delay leads to x",
        "input a; net y wire; gate g buf 10 1 y a; stim a 0 0; stim a 20 1; stim a 25 x; stim a 26 1; horizon 50",
        ["y 0:x 1:0 26:x 36:1"],
    ),
    (
        "an event at the horizon shows",
        "input a; net y wire; gate g buf 3 3 y a; stim a 0 0; stim a 7 1; horizon 10",
        ["y 0:x 3:0 10:1"],
    ),
    (
        "an event after the horizon does not",
        "input a; net y wire; gate g buf 3 3 y a; stim a 0 0; stim a 7 1; horizon 9",
        ["y 0:x 3:0"],
    ),
]

LOOPS: Rows = [
    (
        "a ring swings",
        "input en; net n wire; gate g nand 1 1 n en n; stim en 0 0; stim en 5 1; horizon 9",
        ["n 0:x 1:1 6:0 7:1 8:0 9:1"],
    ),
    ("a ring stays x", "net n wire; gate g not 1 1 n n; horizon 9", ["n 0:x"]),
]

# Two three-state buffers that drive n, a net of this kind.
TWO_DRIVERS = (
    "input d0; input c0; input d1; input c1; net n {}; gate g0 bufif1 1 1 n d0 c0; gate g1 bufif1 1 1 n d1 c1; "
    "stim d0 0 0; stim c0 0 1; stim c0 5 0; stim c0 7 x; stim d1 0 1; stim c1 0 1; stim c1 3 0; horizon 10"
)

KINDS: Rows = [
    ("two drivers of a wire", TWO_DRIVERS.format("wire"), ["n 0:x 4:0 6:z 8:x"]),
    ("two drivers of a wand", TWO_DRIVERS.format("wand"), ["n 0:x 1:0 6:z 8:x"]),
    ("two drivers of a wor", TWO_DRIVERS.format("wor"), ["n 0:x 1:1 4:0 6:z 8:x"]),
]


class SmallDesigns(WithDesigns):
    def check_rows(self, rows: Rows) -> None:
        for name, design, waves in rows:
            with self.subTest(name):
                self.check_waves(lines_of(design), waves)

    def test_nets_that_are_let_go_late(self) -> None:
        self.check_rows(LET_GO)

    def test_gates(self) -> None:
        self.check_rows(GATES)

    def test_pulls(self) -> None:
        self.check_rows(PULLS)

    def test_pulses_behind_buffers(self) -> None:
        self.check_rows(BUFFERS)

    def test_loops(self) -> None:
        self.check_rows(LOOPS)

    def test_two_drivers_of_one_net(self) -> None:
        self.check_rows(KINDS)


if __name__ == "__main__":
    unittest.main()
