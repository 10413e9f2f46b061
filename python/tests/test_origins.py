"""What made a change, and what it led to. The answers are worked out by hand, by docs/SPEC.md, Questions of tools."""
import unittest
from typing import Dict, Type

from gatebench import Effect, Origin, QuestionMissing, Refused, Session, Turn
from gatebench.netlist import Gate
from gatebench.origins import effects_of, origin_of
from gatebench.questions import worked_out_effects, worked_out_origin
from gatebench.replay import delay_to, output_of

from .newer import NewerSession
from .support import WithFolder

# a is 1; b is 1, and 0 from 10 on. So y is x, 0 from 3 on (b and a turned g at 0), and 1 from 12 on.
TEXT = """
module m(input a, b, output y, z, output wor w);
  nand #(2,3) g(y, a, b);
  bufif1 #(1,2,4) t(z, y, 1'b1);
  and #1 c(z, 1'b0, 1'b0);
  not #1 n(w, y), p(w, b);
endmodule
"""
STIMULUS = ["stim a 0 1", "stim b 0 1", "stim b 10 0", "stim b 60 1"]


def origin(*turns: Turn) -> Origin:
    return Origin("gates", turns)


class Lines(unittest.TestCase):
    def test_the_lines_of_answers(self) -> None:
        self.assertEqual([origin_of((it,)) for it in ("none", "stimulus", "beginning")], [None, Origin("stimulus"), Origin("beginning")])
        wanted = origin(Turn("stimulus", 3, {"a": "1", "b": "x"}), Turn("g", 0, {}))
        self.assertEqual(origin_of(("stimulus 3 a 1 b x", "g 0")), wanted)
        self.assertEqual((effects_of(("none",)), effects_of(())), ([], []))
        self.assertEqual(effects_of(("g 12 y 1", "none 4 n z")), [Effect("g", 12, "y", "1"), Effect("none", 4, "n", "z")])

    def test_a_line_that_is_no_answer(self) -> None:
        for lines in (("g",), ("g a",), ("g 3 a 2",)):
            with self.assertRaises(ValueError):
                origin_of(lines)


class Rules(unittest.TestCase):
    def test_what_gates_give(self) -> None:
        for kind, inputs, wanted in (
            ("and", "1z", "x"), ("and", "x0", "0"), ("nand", "111", "0"), ("nor", "x1", "0"), ("or", "00", "0"), ("or", "0x", "x"),
            ("xor", "111", "1"), ("xor", "1x", "x"), ("xnor", "110", "1"), ("buf", "z", "x"), ("not", "0", "1"), ("not", "x", "x"),
            ("bufif1", "01", "0"), ("bufif1", "00", "z"), ("bufif1", "0x", "x"), ("bufif0", "z0", "x"), ("bufif0", "11", "z"),
            ("notif1", "01", "1"), ("notif1", "00", "z"), ("notif0", "10", "0"), ("notif0", "1z", "x"),
        ):  # fmt: skip
            self.assertEqual(output_of(kind, list(inputs)), wanted, (kind, inputs))

    def test_how_long_changes_take(self) -> None:
        for rise, fall, off, wanted in ((2, 3, None, "2322"), (5, 3, 4, "5343"), (5, 3, 1, "5311")):
            gate = Gate("g", "bufif1", rise, fall, off, "y", ("a", "b"))
            self.assertEqual([delay_to(value, gate) for value in "10zx"], [int(it) for it in wanted])


class Origins(unittest.TestCase):
    """By the program where it knows the questions, and else worked out here."""

    session_kind: Type[Session] = Session

    def setUp(self) -> None:
        self.session = self.opened(TEXT)
        self.session.edits(STIMULUS)

    def opened(self, text: str) -> Session:
        session = self.session_kind(text=text, horizon=40)
        self.addCleanup(session.kill)
        return session

    def test_what_made_a_change(self) -> None:
        for version in (self.session, self.session.hold("held")):
            for net, time, wanted in (
                ("y", 12, origin(Turn("g", 10, {"b": "0"}))),
                ("y", 3, origin(Turn("g", 0, {"a": "1", "b": "1"}))),
                ("y", 0, Origin("beginning")),
                ("b", 0, Origin("stimulus")),
                ("b", 10, Origin("stimulus")),
                ("y", 11, None),
                ("b", 40, None),
            ):
                self.assertEqual(version.why(net, time), wanted, (net, time))

    def test_several_gates_that_turn(self) -> None:
        # n is 1 from 4 on and 0 from 13 on, p is 0 from 1 on and 1 from 11 on. So w, a wor, is 1 from 4 on: p's turns do not show.
        self.assertEqual(self.session.why("w", 4), origin(Turn("n", 3, {"y": "0"})))
        self.assertEqual((self.session.why("w", 11), self.session.why("w", 13)), (None, None))
        # With the same delays both turn at once, in the order of the gates.
        self.session.edits(["stim a 0 0", "wire n w b", "unstim b 10"])
        self.assertEqual(self.session.why("w", 1), origin(Turn("n", 0, {"b": "1"}), Turn("p", 0, {"b": "1"})))

    def test_a_gate_that_reads_constants_alone_turns_from_the_beginning(self) -> None:
        # c is 0 from 1 on, and t x until then: so z stays x until t is 0, two behind the fall of y.
        self.assertEqual(self.session.why("z", 5), origin(Turn("t", 3, {"y": "0"})))
        self.session.edits(["drop t"])
        self.assertEqual(self.session.why("z", 1), origin(Turn("c", 0, {})))

    def test_an_event_keeps_its_moment_and_a_pulse_is_swallowed(self) -> None:
        # That y is to be 1 at 12 is pending when a falls too.
        self.session.edits(["stim a 11 0"])
        self.assertEqual((self.session.why("y", 12), self.session.reach("a", 11)), (origin(Turn("g", 10, {"b": "0"})), []))
        # b is x at 10 and 0 at 11: that y is to be x at 12 is descheduled.
        self.session.edits(["unstim a 11", "stim b 10 x", "stim b 11 0"])
        self.assertEqual((self.session.why("y", 12), self.session.why("y", 13)), (None, origin(Turn("g", 11, {"b": "0"}))))
        # With b back at 11 y stays 0, and n keeps w at 1.
        self.session.edits(["stim b 11 1"])
        self.assertEqual((self.session.why("y", 12), self.session.why("y", 13), self.session.reach("b", 10)), (None, None, []))

    def test_an_input_without_a_point_at_the_beginning(self) -> None:
        self.session.edits(["unstim a 0", "stim a 5 x", "stim a 6 1"])
        self.assertEqual((self.session.why("a", 0), self.session.why("a", 5), self.session.why("a", 6)), (Origin("beginning"), None, Origin("stimulus")))

    def test_a_net_that_is_read_twice_is_named_once(self) -> None:
        session = self.opened("module m(input a, b, output y); and #1 g(y, b, a, b, a); endmodule")
        session.edits(["stim a 0 1", "stim b 0 1"])
        self.assertEqual(session.why("y", 1), origin(Turn("g", 0, {"b": "1", "a": "1"})))
        self.assertEqual(list(getattr(session.why("y", 1), "turns")[0].nets), ["b", "a"])

    def test_what_a_change_led_to(self) -> None:
        for version in (self.session, self.session.hold("held")):
            for net, time, wanted in (
                ("b", 10, [Effect("g", 12, "y", "1")]),
                ("y", 3, [Effect("t", 5, "z", "0"), Effect("n", 4, "w", "1")]),
                ("w", 4, []),
                ("y", 11, []),
                # b falls past the horizon.
                ("b", 40, []),
            ):
                self.assertEqual(version.reach(net, time), wanted, (net, time))

    def test_what_turns_past_the_horizon_does_not_count(self) -> None:
        # p is 0 from 39 on, as n is, and y from 41 on.
        self.session.edits(["stim b 38 1"])
        self.assertEqual(self.session.reach("b", 38), [Effect("p", 39, "w", "0")])
        self.session.edits(["horizon 41"])
        self.assertEqual(self.session.reach("b", 38), [Effect("g", 41, "y", "0"), Effect("p", 39, "w", "0")])

    def test_each_effect_is_found_again_by_why(self) -> None:
        nets = self.session.nets()
        found = 0
        for net in nets:
            for change in self.session.wave(net).changes:
                for effect in self.session.reach(net, change.time):
                    back = self.session.why(effect.net, effect.time)
                    assert back is not None
                    self.assertIn((effect.gate, change.time, change.value), [(it.gate, it.since, it.nets.get(net)) for it in back.turns])
                    found += 1
        self.assertGreater(found, 5)

    def test_a_net_or_a_moment_that_is_not_there_is_refused(self) -> None:
        for ask, name in (
            (lambda: self.session.why("q", 1), "UnknownNet"),
            (lambda: self.session.why("y", 41), "TimeTooLarge"),
            (lambda: self.session.reach("q", 1), "UnknownNet"),
            (lambda: self.session.reach("y", 41), "TimeTooLarge"),
            (lambda: self.session.at("never").why("y", 1), "UnknownHold"),
        ):
            with self.assertRaises(Refused) as caught:
                ask()
            self.assertEqual(caught.exception.name, name)


class OriginsOfNewer(Origins):
    """The same by the lines of an answer."""

    session_kind = NewerSession


class Beside(unittest.TestCase):
    def test_the_program_says_what_is_worked_out_here(self) -> None:
        """All changes of a design with a loop, glitches and nets of several drivers. Where the program does not know the questions both are
        the same."""
        text = """
        module m(input s, r, c, output q, output tri1 t);
          nor #(2,3) a(q, r, p), b(p, s, q);
          bufif1 #(1,2,4) d(t, q, c), e(t, p, c);
          xor #(3,1) f(x, q, t);
          and #2 g(y, x, c), h(y, s, 1'b1);
        endmodule
        """
        with Session(text=text, horizon=120) as session:
            stimulus = {"s": "0011001010", "r": "1000110001", "c": "0110101101"}
            session.edits(f"stim {net} {13 * at + shift} {value}" for shift, (net, values) in enumerate(stimulus.items()) for at, value in enumerate(values))
            waves: Dict[str, int] = {}
            for net in session.nets():
                for time, _ in session.wave(net).changes:
                    self.assertEqual(session.why(net, time), worked_out_origin(session, net, time), (net, time))
                    self.assertEqual(session.reach(net, time), worked_out_effects(session, net, time), (net, time))
                    waves[net] = waves.get(net, 0) + 1
        self.assertGreater(min(waves.values()), 4, waves)


class OfOldPrograms(WithFolder):
    def test_a_program_that_does_not_list_gates_can_not_say_it(self) -> None:
        with Session(text=TEXT, horizon=40, program=self.without_tools()) as session:
            for ask in (session.why, session.reach):
                with self.assertRaises(QuestionMissing):
                    ask("y", 3)


if __name__ == "__main__":
    unittest.main()
