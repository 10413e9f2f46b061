"""Edits that are accepted: the whole design behind them, with the points of its inputs and its horizon."""
import unittest
from typing import Dict, List, NamedTuple, Tuple

from ..making import WithDesigns, batch, lines_of


class Start(NamedTuple):
    """The lines that make a design, and rows: what a row shows, the edits of a list, and the design with them."""

    first: str
    rows: List[Tuple[str, str, str]]


BUFFER = Start(
    "input a; net y wire; gate g buf 3 3 y a",
    [
        ("a net more", "net n wor", "input a wire / net y wire / net n wor / gate g buf 3 3 y a / horizon 0"),
        ("an input more", "input n", "input a wire / net y wire / input n wire / gate g buf 3 3 y a / horizon 0"),
        ("another kind of net", "kind y wand", "input a wire / net y wand / gate g buf 3 3 y a / horizon 0"),
        ("a gate removed", "drop g", "input a wire / net y wire / horizon 0"),
        ("other delays", "delay g 4 5", "input a wire / net y wire / gate g buf 4 5 y a / horizon 0"),
        ("another kind of gate", "type g not", "input a wire / net y wire / gate g not 3 3 y a / horizon 0"),
        ("a gate at another input", "wire g y 1'b0", "input a wire / net y wire / gate g buf 3 3 y 1'b0 / horizon 0"),
        (
            "a gate more",
            "gate h and 1 2 y a 1'b1",
            "input a wire / net y wire / gate g buf 3 3 y a / gate h and 1 2 y a 1'b1 / horizon 0",
        ),
        ("a point more", "stim a 7 z", "input a wire 7:z / net y wire / gate g buf 3 3 y a / horizon 0"),
        ("another horizon", "horizon 9", "input a wire / net y wire / gate g buf 3 3 y a / horizon 9"),
    ],
)

TWO_INPUTS = Start(
    "input a; input b; stim a 7 1; stim a 3 0; stim b 3 x",
    [
        ("another value at a point", "stim a 7 z", "input a wire 3:0 7:z / input b wire 3:x / horizon 0"),
        ("a point removed", "unstim a 3", "input a wire 7:1 / input b wire 3:x / horizon 0"),
        ("another kind of input", "kind a tri", "input a tri 3:0 7:1 / input b wire 3:x / horizon 0"),
        ("an input removed with its points", "dropnet a", "input b wire 3:x / horizon 0"),
    ],
)

ONE_BUFFER = Start(
    "horizon 10; input a; net y wire; gate g buf 5 5 y a; stim a 0 0",
    [
        (
            "a buffer that gives way to an inverter in one list",
            "drop g; gate h not 2 2 y a",
            "input a wire 0:0 / net y wire / gate h not 2 2 y a / horizon 10",
        ),
    ],
)

TWO_BUFFERS = Start(
    "input a; input b; net q wire; net n wire; gate g0 buf 1 1 n a; gate g1 buf 1 1 n b; gate h buf 1 1 q n; "
    "stim a 0 0; stim b 0 1; horizon 10",
    [
        (
            "a net that is removed and added with another kind, and the gates at it",
            "drop g0; drop g1; drop h; dropnet n; net n wor; gate g0 buf 1 1 n a; gate g1 buf 1 1 n b; gate h buf 1 1 q n",
            "input a wire 0:0 / input b wire 0:1 / net q wire / net n wor / gate g0 buf 1 1 n a / gate g1 buf 1 1 n b / "
            "gate h buf 1 1 q n / horizon 10",
        ),
    ],
)

# A gate that may stop driving its net.
DRIVER = Start(
    "input d; input c; net n wire; gate g bufif1 2 3/5 n d c",
    [
        ("no edit", "", "input d wire / input c wire / net n wire / gate g bufif1 2 3/5 n d c / horizon 0"),
        (
            "another turn-off delay",
            "delay g 6 7/4",
            "input d wire / input c wire / net n wire / gate g bufif1 6 7/4 n d c / horizon 0",
        ),
        (
            "a turn-off delay taken away",
            "delay g 2 3",
            "input d wire / input c wire / net n wire / gate g bufif1 2 3 n d c / horizon 0",
        ),
        (
            "another kind with the turn-off delay",
            "type g notif0",
            "input d wire / input c wire / net n wire / gate g notif0 2 3/5 n d c / horizon 0",
        ),
        (
            "other inputs with the turn-off delay",
            "wire g n c 1'b1",
            "input d wire / input c wire / net n wire / gate g bufif1 2 3/5 n c 1'b1 / horizon 0",
        ),
        (
            "any kind, once it has no turn-off delay",
            "delay g 2 3; type g and",
            "input d wire / input c wire / net n wire / gate g and 2 3 n d c / horizon 0",
        ),
    ],
)

STARTS: Dict[str, Start] = {
    "each edit": BUFFER,
    "points and what goes with them": TWO_INPUTS,
    "a gate replaced": ONE_BUFFER,
    "a net replaced": TWO_BUFFERS,
    "turn-off delays": DRIVER,
}


class Accepted(WithDesigns):
    def check_list(self, first: str, edits: str, wanted: str) -> None:
        self.assertEqual(self.shown_behind(lines_of(first), batch(lines_of(edits))), wanted)

    def test_designs_behind_lists_of_edits(self) -> None:
        for about, start in STARTS.items():
            for name, edits, wanted in start.rows:
                with self.subTest(f"{about}: {name}"):
                    self.check_list(start.first, edits, wanted)


if __name__ == "__main__":
    unittest.main()
