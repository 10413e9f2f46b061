"""Tests of gatetool: in what two versions differ, `diff`; each reply was worked out by hand."""
import unittest
from typing import List, Optional

from .support import WithTool

# n is the input inverted after 2, y is n after 3 or 1.
CHAIN = "module m(input a, output y); not #2 g(n, a); buf #(3, 1) h(y, n); endmodule"


class Differences(WithTool):
    def check_differences(self, edits: List[str], *lines: str, back: Optional[List[str]] = None) -> None:
        """What differs from version 1 behind these edits, and the other way round: the same lines, or these."""
        version = 1 + len(edits)
        done = "".join(f"ok {number}\n" for number in range(2, version + 1))
        there, behind = ("".join(f"{it}\n" for it in of) for of in (lines, lines if back is None else back))
        told = self.ask("hold k", *edits, "diff k", "fault diff k", "hold j", "at k diff j", "fault at k diff j", "at j diff k", "at j diff j")
        here, held = f"{there}ok {version}\n", f"{behind}ok 1\n"
        self.assertEqual(told, f"ok 1\n{done}{here}{here}ok {version}\n{held}{held}{here}ok {version}\n")


class Values(Differences):
    def test_a_version_and_itself(self) -> None:
        self.given(CHAIN, "a 0 0")
        self.check_differences([])
        # A commit that changes nothing makes another version, and the same values.
        self.check_differences(["stim a 0 0"])

    def test_a_slower_gate(self) -> None:
        # n is 1 at 2, and at 4 in the other version, x before; y follows each 3 later, at 5 and at 7. At 2 and at 5 they part.
        self.given(CHAIN, "a 0 0")
        self.check_differences(["delay g 4 4"], "n 2", "y 5")

    def test_values_and_not_changes(self) -> None:
        # Both versions are 1 from 0 on; that one of them has a point more makes no difference.
        self.given("module m(input a, b); endmodule", "a 0 1", "b 0 1", "b 9 0")
        self.check_differences(["stim a 5 1"])
        # b is 0 from 9 on in one of them and from 6 on in the other; both end as 0.
        self.check_differences(["stim b 6 0"], "b 6")

    def test_a_difference_that_ends(self) -> None:
        # From 5 to 8 a is 1 in one version; y, 2 behind it, differs from 7 on.
        self.given("module m(input a, output y); buf #2 g(y, a); endmodule", "a 0 0")
        self.check_differences(["stim a 5 1", "stim a 9 0"], "a 5", "y 7")

    def test_x_and_z_differ(self) -> None:
        # Without its driver y is z and no longer x, and the input b is z; what they are at 0 tells.
        self.given("module m(input b, output y); buf #2 g(y, 1'b1); endmodule")
        self.check_differences(["stim b 0 z", "drop g"], "b 0", "y 0")


class Orders(Differences):
    def test_moments_before_nets(self) -> None:
        # a stands before y in the design, and differs after it: y at 5, as its rise is slower, and a at 8.
        self.given(CHAIN, "a 0 0")
        self.check_differences(["delay h 4 1", "stim a 8 1"], "y 5", "a 8", "n 10")

    def test_nets_of_one_moment_stand_in_the_order_of_the_version_that_is_asked(self) -> None:
        # p comes last in the new version, since it was dropped and added again, and first in the other one.
        self.given("module m(input p, q, r); endmodule")
        edits = ["dropnet p", "input p", *(f"stim {name} 4 1" for name in "pqr")]
        self.check_differences(edits, "q 4", "r 4", "p 4", back=["p 4", "q 4", "r 4"])


class Nets(Differences):
    def test_nets_of_one_version_alone(self) -> None:
        # u is in the held version alone, p and w are in the new one alone: they differ at 0, those of the other version last.
        self.given("module m(input a); wire u; wire v; endmodule")
        self.check_differences(["net w wire", "dropnet u", "input p", "stim a 0 1"], "a 0", "w 0", "p 0", "u 0", back=["a 0", "u 0", "w 0", "p 0"])

    def test_a_net_that_is_dropped_and_added_again(self) -> None:
        # It is the same net by its name. Of another kind it has the same value, z; pulled it has another, and so has an input, x.
        self.given("module m(input a); wire u; endmodule")
        self.check_differences(["dropnet u", "net u wor"])
        self.check_differences(["dropnet u", "net u tri1"], "u 0")
        self.check_differences(["dropnet u", "input u"], "u 0")
        self.check_differences(["dropnet u", "input u", "stim u 0 z", "stim u 7 1"], "u 7")

    def test_another_kind(self) -> None:
        # From 1 to 2 the drivers are 0 and x: the wire is x, as it was before, and the wand 0.
        self.given("module m(output y); buf #1 g(y, 1'b0); buf #3 h(y, 1'b1); endmodule")
        self.check_differences(["kind y wand"], "y 1")


class Horizons(Differences):
    def test_up_to_the_lesser_one(self) -> None:
        # The input rises at 10 in the held version alone; up to 9 no value is another one.
        self.given(CHAIN, "a 0 0", "a 10 1")
        self.check_differences(["unstim a 10", "horizon 9"])
        self.check_differences(["unstim a 10", "horizon 10"], "a 10")
        self.check_differences(["unstim a 10", "horizon 12"], "a 10", "n 12")
        self.check_differences(["unstim a 10", "horizon 100"], "a 10", "n 12", "y 13")

    def test_a_horizon_of_0(self) -> None:
        self.given(CHAIN, "a 0 0")
        self.check_differences(["horizon 0", "stim a 0 1", "net n2 wire"], "a 0", "n2 0", back=["a 0", "n2 0"])


class Lines(Differences):
    def test_which_name_is_unknown(self) -> None:
        self.given(CHAIN)
        unknown = "no 18 UnknownHold"
        told = self.ask("diff k", "fault diff k", "hold k", "at k diff j", "fault at k diff j", "at j diff k", "fault at j diff k", "fault at i diff j", "diff a")
        self.assertEqual(told, f"{unknown}\n{unknown} k\nok 1\n{unknown}\n{unknown} j\n{unknown}\n{unknown} j\n{unknown} i\n{unknown}\n")

    def test_what_a_batch_keeps_does_not_differ(self) -> None:
        self.given(CHAIN)
        self.assertEqual(self.ask("hold k", "begin", "stim a 0 1", "net u wire", "diff k", "commit", "diff k"), "ok 1\n" * 5 + "ok 2\na 0\nu 0\nn 2\ny 3\nok 2\n")

    def test_a_freed_name_may_be_held_again(self) -> None:
        self.given(CHAIN)
        self.assertEqual(self.ask("hold k", "stim a 3 1", "free k", "diff k", "hold k", "diff k"), "ok 1\nok 2\nok 2\nno 18 UnknownHold\nok 2\nok 2\n")


if __name__ == "__main__":
    unittest.main()
