"""Lines: which are skipped, which bytes they may hold, how they end and how long they may be."""
import unittest
from typing import List, Tuple

from .talks import EMPTY, Talk, WithTalks

# Blank lines and comments get no reply, and nothing does behind `quit`.
LINES: Talk = [
    ("frob", "no 16 BadCommand"),
    ("",),
    (" \t ",),
    ("# x",),
    ("#x\x80",),
    (" \t#",),
    ("Wave a", "no 16 BadCommand"),
    ("wave a\x80", "no 16 BadCommand"),
    ("quit now", "no 16 BadCommand"),
    ("\tinput  \t a \r", "ok 1"),
    ("\r\r", "no 16 BadCommand"),
    ("input b\r ", "no 16 BadCommand"),
    ("wave a", "0 x", "ok 1"),
    ("quit", "ok 1"),
    ("wave a",),
]

# A line may hold a tab and the bytes 32 to 126, and a comment any.
BYTES: Talk = [
    ("wave a~", "no 1 UnknownNet"),
    ("wave a\x7f", "no 16 BadCommand"),
    ("wave a\x80", "no 16 BadCommand"),
    ("wave a\x1f", "no 16 BadCommand"),
    ("wave \ta", "no 1 UnknownNet"),
    ("wave a\x08", "no 16 BadCommand"),
    ("#\x7f\x80\x1f",),
]

# A byte, how often it stands in a line, the end of the line, and the reply to it, if there is one.
LENGTHS: List[Tuple[str, int, str, str]] = [
    ("a", 4_096, "\n", "no 16 BadCommand"),
    ("a", 4_097, "\n", "no 17 LongLine"),
    ("a", 9_000, "\n", "no 17 LongLine"),
    ("a", 4_095, "\r\n", "no 16 BadCommand"),
    ("a", 4_096, "\r\n", "no 17 LongLine"),
    (" ", 4_096, "\n", ""),
    (" ", 4_097, "\n", "no 17 LongLine"),
    ("#", 4_097, "\n", "no 17 LongLine"),
    ("\x80", 4_097, "\n", "no 17 LongLine"),
]


class Lines(WithTalks):
    def test_blank_lines_comments_and_bad_bytes(self) -> None:
        self.check_talk(EMPTY, LINES, "--horizon=0")

    def test_bytes_of_a_line(self) -> None:
        self.check_talk(EMPTY, BYTES, "--horizon=10")

    def test_the_end_of_the_input_ends_a_line(self) -> None:
        self.check_replies(EMPTY, "input a\nwave a", "ok 1\n0 x\nok 1\n", "--horizon=0")

    def test_lines_that_are_too_long(self) -> None:
        for byte, length, end, said in LENGTHS:
            with self.subTest((byte, length, end)):
                commands = (byte * length + end).encode("latin-1") * 2
                self.check_replies(EMPTY, commands, f"{said}\n" * 2 if said else "", "--horizon=0")


if __name__ == "__main__":
    unittest.main()
