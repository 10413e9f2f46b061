"""Values, changes and lines."""
import unittest
from typing import Tuple

from gatebench import Change, constant
from gatebench.lines import checked_line, is_skipped, line_of
from gatebench.values import GivenValue, change_of, changes_of, value_of


class Values(unittest.TestCase):
    def test_a_value_may_be_given_as_a_number_or_a_truth(self) -> None:
        given: Tuple[GivenValue, ...] = ("0", "1", "x", "z", 0, 1, False, True)
        self.assertEqual([value_of(it) for it in given], list("01xz0101"))

    def test_nothing_else_is_a_value(self) -> None:
        given: Tuple[GivenValue, ...] = ("X", "", "01", 2, -1)
        for wrong in given:
            with self.assertRaises(ValueError):
                value_of(wrong)

    def test_constants_are_written_as_the_language_has_them(self) -> None:
        given: Tuple[GivenValue, ...] = (0, 1, "x", "z")
        self.assertEqual([constant(it) for it in given], ["1'b0", "1'b1", "1'bx", "1'bz"])

    def test_a_line_of_a_wave_is_a_change(self) -> None:
        self.assertEqual(change_of("13 x"), Change(13, "x"))

    def test_the_words_of_a_wave_are_its_changes(self) -> None:
        self.assertEqual(changes_of(("0", "x", "2", "1")), (Change(0, "x"), Change(2, "1")))

    def test_words_that_can_be_no_wave(self) -> None:
        for wrong in ("", "0", "1 0", "0 x 0 1", "0 x 5 1 4 0", "0 y", "zero 1"):
            with self.assertRaises(ValueError, msg=wrong):
                changes_of(tuple(wrong.split()))


class Lines(unittest.TestCase):
    def test_a_line_has_its_words_parted_by_blanks(self) -> None:
        self.assertEqual(line_of("stim", "a", 10, "1"), "stim a 10 1")

    def test_a_word_that_would_be_read_as_several_is_none(self) -> None:
        for wrong in ("", "a b", "a\tb", "a\nquit", "a\r"):
            with self.assertRaises(ValueError, msg=repr(wrong)):
                line_of("wave", wrong)

    def test_lines_that_have_no_reply(self) -> None:
        for line in ("", "  \t", "# wave y", "\t #", "\r"):
            self.assertTrue(is_skipped(line), repr(line))
        for line in ("wave #", "x", "\x0b"):
            self.assertFalse(is_skipped(line), repr(line))

    def test_a_line_that_is_no_command_is_not_sent(self) -> None:
        for wrong in ("", "# a", "wave a\nwave b"):
            with self.assertRaises(ValueError, msg=repr(wrong)):
                checked_line(wrong)
        self.assertEqual(checked_line("wave y"), "wave y")
