"""Tests of gatetool: what made a change, `why`, and what it led to, `reach`; each reply was worked out by hand."""
import unittest

from .support import Ended, WithTool


class Chains(WithTool):
    def test_an_inverter(self) -> None:
        # At 0 it is evaluated with a 0 and rises 2 later; at 10 with a 1, and falls 3 later. At 15 a point keeps a at 1.
        self.given("module m(input a, output y); not #(2, 3) g(y, a); endmodule", "a 0 0", "a 10 1", "a 15 1")
        self.check("why a 0", "stimulus")
        self.check("why a 10", "stimulus")
        self.check("why y 0", "beginning")
        self.check("why y 2", "g 0 a 0")
        self.check("why y 13", "g 10 a 1")
        for line in ("why a 9", "why a 11", "why a 15", "why y 1", "why y 12", "why y 40", "reach a 15", "reach y 3", "reach y 40"):
            self.check(line, "none")
        self.check("reach a 0", "g 2 y 1")
        self.check("reach a 10", "g 13 y 0")
        # No gate reads y: its changes led to nothing.
        for line in ("reach y 0", "reach y 2", "reach y 13"):
            self.check(line)

    def test_a_chain(self) -> None:
        # n is 1 at 2 and 0 at 12; h rises 3 after n and falls 1 after it. At 0 h is evaluated with an x, and is x already.
        self.given("module m(input a, output y); not #2 g(n, a); buf #(3, 1) h(y, n); endmodule", "a 0 0", "a 10 1", horizon=13)
        self.check("why n 2", "g 0 a 0")
        self.check("why y 5", "h 2 n 1")
        self.check("why y 13", "h 12 n 0")
        self.check("reach a 0", "g 2 n 1")
        self.check("reach n 0")
        self.check("reach n 2", "h 5 y 1")
        self.check("reach a 10", "g 12 n 0")
        self.check("reach n 12", "h 13 y 0")

    def test_a_ring(self) -> None:
        # y is 1 at 1 by a alone, as a 0 decides; with a 1 from 4 on it turns by itself, 1 after each change.
        self.given("module m(input a, output y); nand #1 g(y, a, y); endmodule", "a 0 0", "a 4 1", horizon=6)
        self.check("why y 1", "g 0 a 0 y x")
        self.check("why y 5", "g 4 a 1")
        self.check("why y 6", "g 5 y 0")
        self.check("reach y 0", "g 1 y 1")
        self.check("reach y 1")
        self.check("reach y 5", "g 6 y 1")
        # The next change, at 7, is past the horizon.
        self.check("reach y 6")


class Beginnings(WithTool):
    def test_moment_0(self) -> None:
        # Every net changes at 0. a has a point there, b has none; y and the net n, which nothing drives, are no inputs.
        self.given("module m(input a, b, output y); wire n; or #1 g(y, a, b); endmodule", "a 0 1", "b 5 0")
        self.check("why a 0", "stimulus")
        for line in ("why b 0", "why y 0", "why n 0"):
            self.check(line, "beginning")
        # All that g reads changes at 0, so both made it turn at 1, though the 1 alone decides.
        self.check("why y 1", "g 0 a 1 b x")
        self.check("reach a 0", "g 1 y 1")
        self.check("reach b 0", "g 1 y 1")
        self.check("reach n 0")

    def test_a_point_at_0_that_says_x(self) -> None:
        self.given("module m(input a); endmodule", "a 0 x")
        self.check("why a 0", "stimulus")

    def test_a_gate_of_constants(self) -> None:
        # It is evaluated at 0 and turns at 3; no net made it.
        self.given("module m(output y); and #3 g(y, 1'b1, 1'b1); endmodule")
        self.check("why y 3", "g 0")

    def test_a_net_that_is_pulled(self) -> None:
        # h drives z from 2 on; before, its x is the value of the net.
        self.given("module m(input c, output tri1 y); bufif1 #2 h(y, 1'b0, c); endmodule", "c 0 0")
        self.check("why y 2", "h 0 c 0")
        self.check("reach c 0", "h 2 y 1")


class Drivers(WithTool):
    # Both buffers change 2 after their inputs.
    TWO = "module m(input a, b, output y); buf #2 g(y, a); buf #2 h(y, b); endmodule"

    def test_both_turn_at_one_moment(self) -> None:
        self.given(self.TWO, "a 0 1", "b 0 1", "a 20 0", "b 20 0")
        self.check("why y 2", "g 0 a 1", "h 0 b 1")
        self.check("why y 22", "g 20 a 0", "h 20 b 0")
        self.check("reach a 20", "g 22 y 0")
        self.check("reach b 20", "h 22 y 0")

    def test_one_of_them_turns(self) -> None:
        # From 12 to 16 g drives 0 and h drives 1: the value from the change on is that of the net, x, and not that of the gate.
        self.given(self.TWO, "a 0 1", "b 0 1", "a 10 0", "b 15 0")
        self.check("why y 12", "g 10 a 0")
        self.check("reach a 10", "g 12 y x")
        self.check("why y 17", "h 15 b 0")
        self.check("reach b 15", "h 17 y 0")

    def test_the_net_stays_as_it_is(self) -> None:
        # At 12 the gates change places, 0 and 1 for 1 and 0: y is x before and after. At 22 g alone turns, from 1 to x.
        self.given(self.TWO, "a 0 0", "b 0 1", "a 10 1", "b 10 0", "a 20 z")
        self.check("why y 12", "none")
        self.check("reach a 10")
        self.check("reach b 10")
        self.check("why y 22", "none")
        self.check("reach a 20")
        self.check("reach y 12", "none")

    def test_a_turn_that_alone_would_not_change_the_net(self) -> None:
        # At 12 g falls, which makes the wand 0; h turns there too, from 1 to x.
        self.given("module m(input a, b, output wand y); buf #2 g(y, a); buf #2 h(y, b); endmodule", "a 0 1", "b 0 1", "a 10 0", "b 10 x")
        self.check("why y 12", "g 10 a 0", "h 10 b x")
        self.check("reach b 10", "h 12 y 0")

    def test_from_different_moments(self) -> None:
        # g was evaluated at 10 and h at 11, and both turn at 14.
        self.given("module m(input a, b, output y); buf #4 g(y, a); not #3 h(y, b); endmodule", "a 0 1", "b 0 0", "a 10 0", "b 11 1")
        self.check("why y 14", "g 10 a 0", "h 11 b 1")


class Pulses(WithTool):
    def test_a_swallowed_pulse(self) -> None:
        # The rise of 10 would be due at 15. At 12 the input is 0, as the driver is, and the event is taken away.
        self.given("module m(input a, output y); buf #(5, 4) g(y, a); endmodule", "a 0 0", "a 10 1", "a 12 0")
        self.check("why y 4", "g 0 a 0")
        for line in ("why y 15", "why y 16", "reach y 15", "reach y 16"):
            self.check(line, "none")
        self.check("reach a 10")
        self.check("reach a 12")

    def test_an_event_that_is_taken_away_and_comes_again(self) -> None:
        # The fall of 10 would be due at 16; at 13 it is taken away, and that of 15 is due at 21.
        self.given("module m(input a, output y); buf #(2, 6) g(y, a); endmodule", "a 0 1", "a 10 0", "a 13 1", "a 15 0")
        self.check("reach a 10")
        self.check("reach a 13")
        self.check("reach a 15", "g 21 y 0")
        self.check("why y 21", "g 15 a 0")
        self.check("why y 16", "none")

    def test_an_event_of_the_same_value_keeps_its_time(self) -> None:
        # At 10 a falls and y is to fall at 16; b, which falls at 12, finds that event there.
        self.given("module m(input a, b, output y); and #(2, 6) g(y, a, b); endmodule", "a 0 1", "b 0 1", "a 10 0", "b 12 0")
        self.check("why y 2", "g 0 a 1 b 1")
        self.check("why y 16", "g 10 a 0")
        self.check("reach a 10", "g 16 y 0")
        self.check("reach b 12")

    def test_an_event_of_another_value_takes_its_place(self) -> None:
        # At 10 the fall is put at 16. At 12 b is x and the gate with it: y is to be x 2 later, at 14, and no longer 0.
        self.given("module m(input a, b, output y); xor #(2, 6) g(y, a, b); endmodule", "a 0 1", "b 0 0", "a 10 0", "b 12 x")
        self.check("reach a 10")
        self.check("reach b 12", "g 14 y x")
        self.check("why y 14", "g 12 b x")

    def test_a_change_that_the_gate_does_not_see(self) -> None:
        # A z acts as an x. At 10 both inputs change, and a made the gate turn as much as b did.
        self.given("module m(input a, b, output y); or #1 g(y, a, b); endmodule", "a 5 z", "a 10 x", "b 10 1")
        self.check("why a 5", "stimulus")
        self.check("reach a 5")
        self.check("why y 11", "g 10 a x b 1")
        self.check("reach a 10", "g 11 y 1")


class Orders(WithTool):
    def test_nets_in_the_order_in_which_the_gate_reads_them(self) -> None:
        # b is read first, and twice. c does not change at 10.
        self.given("module m(input a, b, c, output y); and #1 g(y, b, a, b, 1'b1, c); endmodule", "a 0 1", "b 0 1", "c 0 1", "a 10 0", "b 10 x")
        self.check("why y 1", "g 0 b 1 a 1 c 1")
        self.check("why y 11", "g 10 b x a 0")

    def test_gates_in_their_order(self) -> None:
        # h turns before g, and h reads a twice.
        self.given("module m(input a, output y, z); buf #5 g(y, a); and #1 h(z, a, a); not #9 i(w, y); endmodule", "a 0 1")
        self.check("reach a 0", "g 5 y 1", "h 1 z 1")


class Horizons(WithTool):
    def test_a_change_past_the_horizon(self) -> None:
        # The change of 8 is due at 13: it is there where the horizon is 13, and is not where it is 12.
        self.given("module m(input a, output y); buf #5 g(y, a); endmodule", "a 8 1", horizon=12)
        self.check("reach a 8")
        self.check("why a 12", "none")
        early = "no 11 TimeTooLarge\n"
        told = self.ask("why y 13", "reach a 13", "hold k", "horizon 13", "why y 13", "reach a 8", "at k why y 13", "at k reach a 8")
        self.assertEqual(told, f"{early * 2}ok 1\nok 2\ng 8 a 1\nok 2\ng 13 y 1\nok 2\n{early}ok 1\n")

    def test_a_point_past_the_horizon(self) -> None:
        self.given("module m(input a); endmodule", "a 8 1", horizon=7)
        self.assertEqual(self.ask("why a 8", "why a 7"), "no 11 TimeTooLarge\nnone\nok 1\n")


class Lines(WithTool):
    def test_each_version_has_its_own(self) -> None:
        # In the held version y falls at 13 by g; behind it the gate h drives y, from the same input, in place of g.
        self.given("module m(input a, output y); not #(2, 3) g(y, a); endmodule", "a 0 0", "a 10 1")
        told = self.ask("hold k", "drop g", "gate h not 4 3 y a", "why y 13", "why y 4", "reach a 0", "at k why y 13", "at k reach a 0")
        self.assertEqual(told, "ok 1\nok 2\nok 3\nh 10 a 1\nok 3\nh 0 a 0\nok 3\nh 4 y 1\nok 3\ng 10 a 1\nok 1\ng 2 y 1\nok 1\n")

    def test_what_a_batch_keeps_shows_in_no_answer(self) -> None:
        self.given("module m(input a, output y); not #2 g(y, a); endmodule", "a 0 0")
        self.assertEqual(self.ask("begin", "drop g", "delay g 5 5", "why y 2", "reach a 0"), "ok 1\nok 1\nok 1\ng 0 a 0\nok 1\ng 2 y 1\nok 1\n")

    def test_what_is_refused(self) -> None:
        self.given("module m(input a, output y); not #2 g(y, a); endmodule", "a 0 0")
        for verb in ("why", "reach"):
            told = self.ask("hold k", f"{verb} g 41", f"{verb} y 41", f"{verb} y", f"{verb} y 0 0", f"{verb} y x", f"at k {verb} y 41", f"at j {verb} y 41")
            late, unread = "no 11 TimeTooLarge\n", "no 16 BadCommand\n"
            self.assertEqual(told, f"ok 1\nno 1 UnknownNet\n{late}{unread * 3}{late}no 18 UnknownHold\n")

    def test_gatebench_knows_none_of_them(self) -> None:
        self.given("module m(input a, output y); not #2 g(y, a); endmodule")
        self.program = self.gatebench
        lines = ("why a 0", "reach a 0", "diff k", "fault vcd", "fault", "at k why a 0", "at k diff k")
        self.assertEqual(self.run_with(self.words, "hold k\n" + "".join(f"{it}\n" for it in lines)), Ended(0, "ok 0\n" + "no 16 BadCommand\n" * len(lines), ""))


if __name__ == "__main__":
    unittest.main()
