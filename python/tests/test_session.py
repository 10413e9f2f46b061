"""Each command over the program. The replies are worked out by hand, by the rules of docs/SPEC.md."""
import os
from typing import Callable, Tuple


from gatebench import Change, Closed, Difference, DesignRefused, ProgramEnded, Refused, Session, constant, diff

from .support import EXAMPLES, INVERTER, WithFolder


def words(session: Session, net: str = "y") -> str:
    return " ".join(f"{it.time} {it.value}" for it in session.wave(net).changes)


class Inverter(WithFolder):
    """An inverter whose input is 0 from 0 and 1 from 10 on: y rises at 2 and falls at 13."""

    def setUp(self) -> None:
        super().setUp()
        self.session = Session(text=INVERTER, horizon=20)
        self.addCleanup(self.session.kill)
        self.session.stim("a", 0, 0)
        self.session.stim("a", 10, "1")

    def test_the_wave_of_a_net(self) -> None:
        self.assertEqual(words(self.session), "0 x 2 1 13 0")
        self.assertEqual(self.session.wave("y").horizon, 20)

    def test_waves_of_several_nets(self) -> None:
        waves = self.session.waves("y", "a")
        self.assertEqual(list(waves), ["y", "a"])
        self.assertEqual(waves["a"].changes, (Change(0, "0"), Change(10, "1")))
        self.assertEqual(self.session.waves(), {})

    def test_questions_about_one_place(self) -> None:
        session = self.session
        self.assertEqual([session.value("y", it) for it in (0, 2, 12, 13, 20)], list("x1100"))
        self.assertEqual((session.next("y", 2), session.next("y", 13)), (Change(13, "0"), None))
        self.assertEqual((session.prev("y", 13), session.prev("y", 0)), (Change(2, "1"), None))
        self.assertEqual((session.seek("y", 0, 0), session.seek("y", 0, "z")), (Change(13, "0"), None))

    def test_a_turn_off_delay(self) -> None:
        edits = self.session
        edits.net("n")
        edits.gate("h", "bufif1", 2, 3, "n", constant(1), "a", off=5)
        # The control is 0 from 0 on and 1 from 10 on.
        self.assertEqual(words(self.session, "n"), "0 x 5 z 12 1")
        with self.assertRaises(Refused) as caught:
            edits.type("h", "and")
        self.assertEqual((caught.exception.code, caught.exception.name), (21, "NoTurnOff"))
        edits.delay("h", 2, 3, off=4)
        self.assertEqual(words(self.session, "n"), "0 x 4 z 12 1")
        with self.session.batch() as batch:
            batch.delay("h", 2, 3)
            batch.delay("g", 2, 3)
        self.assertEqual(words(self.session, "n"), "0 x 2 z 12 1")
        with self.assertRaises(Refused) as caught:
            edits.delay("g", 2, 3, off=0)
        self.assertEqual((caught.exception.code, caught.exception.command), (5, "delay g 2 3/0"))

    def test_each_edit_makes_a_version(self) -> None:
        edits = self.session
        versions = [
            edits.net("n", "wand"),
            edits.input("b"),
            edits.gate("h", "nand", 1, 2, "n", "a", "b", constant(1)),
            edits.kind("n", "wor"),
            edits.type("h", "and"),
            edits.delay("h", 4, 4),
            edits.stim("b", 5, 1),
            edits.unstim("b", 5),
            edits.wire("h", "n", "a", "a"),
        ]
        self.assertEqual(versions, list(range(3, 12)))
        # a and a, through an and gate of delay 4: 0 from 4 on, 1 from 14 on.
        self.assertEqual(words(self.session, "n"), "0 x 4 0 14 1")
        self.assertEqual([edits.drop("h"), edits.dropnet("n"), edits.horizon(30)], [12, 13, 14])
        self.assertEqual(self.session.wave("y").horizon, 30)

    def test_a_net_is_pulled_where_nothing_drives_it(self) -> None:
        self.session.net("p", "tri1")
        self.assertEqual(words(self.session, "p"), "0 1")
        # The driver gives 0 while a is 1, and lets go while a is 0, each after 2.
        self.session.gate("h", "bufif1", 2, 2, "p", constant(0), "a")
        self.assertEqual(words(self.session, "p"), "0 x 2 1 12 0")
        self.session.kind("p", "tri0")
        self.assertEqual(words(self.session, "p"), "0 x 2 0")
        self.session.kind("p", "tri")
        self.assertEqual(words(self.session, "p"), "0 x 2 z 12 0")

    def test_the_horizon_is_known_wherever_it_moves(self) -> None:
        for horizon in (0, 1, 999, 1000, 1001, 1_099_511_627_776):
            self.session.horizon(horizon)
            self.assertEqual(self.session.wave("y").horizon, horizon)

    def test_a_refusal_changes_nothing(self) -> None:
        with self.assertRaises(Refused) as caught:
            self.session.delay("g", 0, 1)
        self.assertEqual((caught.exception.code, caught.exception.name), (5, "ZeroDelay"))
        self.assertEqual(caught.exception.command, "delay g 0 1")
        self.assertEqual(self.session.horizon(20), 3)

    def test_each_question_is_refused_by_name(self) -> None:
        questions: Tuple[Callable[[], object], ...] = (
            lambda: self.session.wave("q"),
            lambda: self.session.value("q", 0),
            lambda: self.session.next("q", 0),
            lambda: self.session.prev("q", 0),
            lambda: self.session.seek("q", 0, 1),
        )
        for ask in questions:
            with self.assertRaises(Refused) as caught:
                ask()
            self.assertEqual(caught.exception.name, "UnknownNet")

    def test_a_held_version_never_changes(self) -> None:
        held = self.session.hold("before")
        self.session.delay("g", 1, 1)
        self.session.horizon(30)
        self.assertEqual(words(self.session), "0 x 1 1 11 0")
        self.assertEqual(held.wave("y").changes, (Change(0, "x"), Change(2, "1"), Change(13, "0")))
        self.assertEqual((held.wave("y").horizon, self.session.wave("y").horizon), (20, 30))
        self.assertEqual((held.value("y", 1), held.next("y", 2)), ("x", Change(13, "0")))
        self.assertEqual(self.session.at("before").dump().horizon, 20)
        held.free()
        with self.assertRaises(Refused) as caught:
            held.wave("y")
        self.assertEqual(caught.exception.name, "UnknownHold")

    def test_the_difference_of_two_versions(self) -> None:
        held = self.session.hold("before")
        self.assertEqual(diff(held, self.session), [])
        with self.session.batch() as batch:
            batch.net("b")
            batch.stim("a", 12, "z")
            batch.delay("g", 2, 5)
        # y falls at 10 + 5, or is x at 12 + 2, the lesser of 2 and 5: the event that is pending is given up.
        self.assertEqual(
            diff(held, self.session),
            [Difference(0, "b", None, "z"), Difference(12, "a", "1", "z"), Difference(13, "y", "0", "1")],
        )
        self.assertEqual(diff(self.session, held)[2], Difference(13, "y", "1", "0"))

    def test_the_dump_is_the_program_s(self) -> None:
        path = os.path.join(self.folder, "out.vcd")
        self.session.write_vcd(path)
        text = self.read("out.vcd")
        self.assertEqual(text, self.session.vcd())
        self.assertTrue(text.startswith("$version gatebench $end\n$timescale 1 ns $end\n$scope module m $end\n"))
        self.assertTrue(text.endswith("#13\n0\"\n#20\n"))
        self.assertEqual(self.session.dump().waves["y"], self.session.wave("y"))

    def test_a_batch_of_the_program_itself(self) -> None:
        self.assertEqual([self.session.begin(), self.session.delay("g", 1, 1)], [2, 2])
        self.assertEqual(words(self.session), "0 x 2 1 13 0")
        self.assertEqual(self.session.commit(), 3)
        self.session.begin()
        self.assertEqual(self.session.abort(), 3)
        with self.assertRaises(Refused) as caught:
            self.session.commit()
        self.assertEqual(caught.exception.name, "NoBatch")

    def test_any_lines_as_one_block(self) -> None:
        replies = self.session.ask(["value y 2", "wibble", "next y 13", "delay g 1 1"])
        wanted = [(("1",), "ok 2"), ((), "no 16 BadCommand"), (("none",), "ok 2"), ((), "ok 3")]
        self.assertEqual([(it.lines, it.end) for it in replies], wanted)

    def test_210_000_questions_in_one_block_are_answered_in_order(self) -> None:
        replies = self.session.ask([f"value y {at % 21}" for at in range(210_000)])
        self.assertEqual([it.lines[0] for it in replies], list("xx" + "1" * 11 + "0" * 8) * 10_000)

    def test_quit_gives_the_version_and_ends_the_session(self) -> None:
        self.assertEqual(self.session.quit(), 2)
        with self.assertRaises(Closed):
            self.session.wave("y")

    def test_a_name_is_one_word(self) -> None:
        for wrong in ("", "a b", "y\nquit"):
            with self.assertRaises(ValueError):
                self.session.wave(wrong)
        self.assertEqual(words(self.session), "0 x 2 1 13 0")

    def test_a_name_with_other_bytes_is_refused_by_the_program(self) -> None:
        for name in ("é", "\x7f", "\udc80"):
            with self.assertRaises(Refused) as caught:
                self.session.value(name, 0)
            self.assertEqual(caught.exception.name, "BadCommand")


class Openings(WithFolder):
    def test_a_file_and_its_default_delay(self) -> None:
        design = os.path.join(EXAMPLES, "c17", "design.v")
        with Session(design, delay=2, horizon=50) as session:
            self.assertEqual(session.wave("N22").horizon, 50)
        with self.assertRaises(DesignRefused) as caught:
            Session(design)
        self.assertEqual((caught.exception.line, caught.exception.name), (10, "ZeroDelay"))
        self.assertEqual(caught.exception.text, "nand NAND2_1 (N10, N1, N3);")
        self.assertEqual(
            str(caught.exception),
            f"{design}:10:1: 11 ZeroDelay at `nand`: a delay is 0, or there is none: `--delay` gives one\n"
            "  nand NAND2_1 (N10, N1, N3);\n  ^^^^",
        )

    def test_the_program_s_default_horizon(self) -> None:
        with Session(text=INVERTER) as session:
            self.assertEqual(session.wave("y").horizon, 1000)

    def test_a_text_without_a_module(self) -> None:
        with self.assertRaises(DesignRefused) as caught:
            Session(text="")
        self.assertEqual((caught.exception.line, caught.exception.code, caught.exception.name), (1, 6, "NoTop"))
        self.assertEqual(str(caught.exception), "the text:1: 6 NoTop: there is no module")

    def test_two_sessions_side_by_side(self) -> None:
        with Session(text=INVERTER, horizon=5) as one, Session(text=INVERTER, horizon=5) as two:
            one.stim("a", 0, 0)
            two.stim("a", 0, 1)
            self.assertEqual((one.value("y", 5), two.value("y", 5)), ("1", "0"))


class Workers(WithFolder):
    def test_each_number_gives_the_same_replies(self) -> None:
        lines = ["stim a 0 0", "stim a 10 1", "wave y", "vcd", "delay g 4 12", "wave y", "wibble", "value q 3"]
        with Session(text=INVERTER, horizon=20) as session:
            alone = session.ask(lines)
        for workers in (1, 2, 64):
            with Session(text=INVERTER, horizon=20, workers=workers) as session:
                replies = session.ask(lines)
                self.assertEqual(words(session), "0 x 4 1")
            self.assertEqual([(it.lines, it.end) for it in replies], [(it.lines, it.end) for it in alone])

    def test_a_number_out_of_range_ends_the_program(self) -> None:
        for workers in (0, 65):
            with self.assertRaises(ProgramEnded) as caught:
                Session(text=INVERTER, workers=workers)
            self.assertEqual(caught.exception.status, 2)
            self.assertIn(f"invalid value '{workers}' for '--workers <N>'", caught.exception.errors)
