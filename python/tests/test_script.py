"""Files of commands, read."""
import unittest

from gatebench.replies import Reply
from gatebench.script import BadLine, Opening, Step, got, read_script, script_of

from .support import WithFolder


def step(line: str, number: int = 1) -> Step:
    [found] = script_of("\n" * (number - 1) + line, "").steps
    return found


class Scripts(WithFolder):
    def test_commands_go_to_the_program_as_they_are(self) -> None:
        script = script_of("# comment\nstim a 0 1\n\n  wave  y\t\r\nwibble \n", "")
        self.assertEqual(
            script.steps, [Step(2, "stim a 0 1", "stim a 0 1"), Step(4, "  wave  y\t\r", "  wave  y\t\r"), Step(5, "wibble ", "wibble ")]
        )
        self.assertIsNone(script.opening)

    def test_the_line_of_the_design(self) -> None:
        self.assertEqual(script_of("# first\ndesign m.v\n", "at/here").opening, Opening("at/here/m.v"))
        script = script_of("design m.v --delay 2 --horizon 40\nwave y", "")
        self.assertEqual((script.opening, len(script.steps)), (Opening("m.v", 40, 2), 1))
        self.assertEqual(script_of("design /abs/m.v", "here").opening, Opening("/abs/m.v"))
        for path in ("'my m.v'", '"my m.v"', r"my\ m.v"):
            self.assertEqual(script_of(f"design {path} --delay 2\r\n", "here").opening, Opening("here/my m.v", None, 2))

    def test_a_file_is_read_from_its_own_folder(self) -> None:
        path = self.write("commands", "design m.v\nwave y\n")
        self.assertEqual(read_script(path).opening, Opening(self.folder + "/m.v"))

    def test_expectations_are_questions(self) -> None:
        self.assertEqual(step("expect y 25 0"), Step(1, "expect y 25 0", "value y 25", answer=("0",)))
        self.assertEqual(step("at k expect y 25 z").line, "at k value y 25")
        self.assertEqual(
            step("expect-wave y 0 x 2 1"), Step(1, "expect-wave y 0 x 2 1", "wave y", answer=("0 x", "2 1"))
        )
        self.assertEqual(step("at k expect-wave y 0 x").line, "at k wave y")
        refused = step("expect-refused 2 drop  h")
        self.assertEqual((refused.line, refused.refusal, refused.answer), ("drop h", "2", None))

    def test_names_that_look_like_expectations(self) -> None:
        self.assertEqual(step("wave expect").line, "wave expect")
        self.assertFalse(step("wave expect").is_expectation)

    def test_quit_ends_a_file(self) -> None:
        self.assertEqual(len(script_of("wave y\nquit\n# the end\n\n", "").steps), 1)
        with self.assertRaises(BadLine) as caught:
            script_of("wave y\nquit\nexpect y 1 0", "")
        self.assertEqual(caught.exception.number, 3)

    def test_lines_that_can_t_be_read(self) -> None:
        wrong = (
            "expect y 25", "expect y t 0", "expect y 25 2", "expect y 25 0 1", "expect", "expect-wave y", "expect-wave",
            "expect-wave y 0", "expect-wave y 1 0", "expect-wave y 0 1 0 0", "expect-refused 2", "expect-refused",
            "at k expect y", "design", "design a b", "design m.v --depth 3", "design m.v --horizon x", "design 'm.v",
        )  # fmt: skip
        for line in wrong:
            with self.assertRaises(BadLine, msg=line) as caught:
                script_of("\n" + line, "")
            self.assertEqual((caught.exception.number, caught.exception.line), (2, line))

    def test_the_design_comes_first_and_once(self) -> None:
        for text in ("wave y\ndesign m.v", "design m.v\ndesign m.v"):
            with self.assertRaises(BadLine) as caught:
                script_of(text, "")
            self.assertEqual(caught.exception.number, 2)


class Meetings(unittest.TestCase):
    OK, NO = Reply((), "ok 3"), Reply((), "no 2 UnknownGate")

    def test_a_command_is_not_to_be_refused(self) -> None:
        self.assertTrue(step("drop g").is_met(self.OK))
        self.assertTrue(step("wave y").is_met(Reply(("0 x",), "ok 3")))
        self.assertFalse(step("drop g").is_met(self.NO))

    def test_a_value_is_the_one_expected(self) -> None:
        self.assertTrue(step("expect y 2 1").is_met(Reply(("1",), "ok 3")))
        for reply in (Reply(("0",), "ok 3"), self.OK, self.NO):
            self.assertFalse(step("expect y 2 1").is_met(reply))

    def test_a_wave_has_all_its_changes(self) -> None:
        expectation = step("expect-wave y 0 x 2 1")
        self.assertTrue(expectation.is_met(Reply(("0 x", "2 1"), "ok 3")))
        for lines in (("0 x",), ("0 x", "2 1", "13 0"), ("0 x", "3 1")):
            self.assertFalse(expectation.is_met(Reply(lines, "ok 3")))

    def test_a_refusal_is_the_one_that_is_wanted(self) -> None:
        for code in ("2", "UnknownGate"):
            self.assertTrue(step(f"expect-refused {code} drop h").is_met(self.NO))
            self.assertFalse(step(f"expect-refused {code} drop h").is_met(self.OK))
        for code in ("1", "UnknownNet", "Unknown"):
            self.assertFalse(step(f"expect-refused {code} drop h").is_met(self.NO))

    def test_replies_in_words(self) -> None:
        self.assertEqual([got(it) for it in (self.OK, self.NO, Reply(("0 x", "2 1"), "ok 3"))],
                         ["ok", "no 2 UnknownGate", "0 x 2 1"])
        self.assertEqual([step(it).wanted() for it in ("drop g", "expect y 2 1", "expect-wave y 0 x 2 1", "expect-refused 2 drop g")],
                         ["ok", "1", "0 x 2 1", "no 2"])
