"""Which nets an edit on a page may change."""
import unittest

from gatebench.netlist import netlist_of
from gatebench.viewing.model import Model
from gatebench.viewing.affected import affected

# w and x follow from a, y from b, and z from x and c.
TEXT = "module m(input a, b, c, output w, x, y, z); not #1 f(w, a), g(x, w), h(y, b); nand #1 k(z, x, c); endmodule"


class Affected(unittest.TestCase):
    def test_what_follows_from_edits(self) -> None:
        for lines, wanted in (
            (["stim a 3 1"], "a w x z"),
            (["unstim b 3"], "b y"),
            (["delay h 2 2"], "y"),
            # What the gate drove, and what it drives from now on.
            (["wire k y c b"], "y z"),
            # From y on the wiring counts that is there after the edits.
            (["wire g x y", "stim b 3 1"], "b x y z"),
            (["drop g"], "x z"),
            (["gate n not 1 1 w b", "drop n"], "w x z"),
            (["net q wire", "kind c wor"], "c q z"),
            (["stim c 0 1", "stim b 0 1"], "b c y z"),
        ):
            model = Model(netlist_of(TEXT))
            model.points = {"b": {3: "1"}}
            model.take_all(lines)
            self.assertEqual(" ".join(sorted(model.affected() or ())), wanted, lines)
            self.assertEqual(model.affected(), set())

    def test_another_horizon_changes_all(self) -> None:
        model = Model(netlist_of(TEXT))
        model.take_all(["stim a 3 1", "horizon 10", "stim b 3 1"])
        self.assertIsNone(model.affected())
        self.assertEqual(model.affected(), set())

    def test_a_loop_ends(self) -> None:
        gates = netlist_of("module m(input s, r, output q, p); nor #1 g(q, r, p), h(p, s, q); endmodule").gates
        self.assertEqual((affected(["s"], gates), affected(["q"], gates)), ({"s", "p", "q"}, {"q", "p"}))
