"""Edits, one by one: which are refused and why, and what the others make of waves."""
import unittest
from typing import List, Tuple

from .talks import EMPTY, Talk, WithTalks

# Each fault of an edit, in the order of checks.
FAULTS: Talk = [
    ("net a'b wire", "no 4 BadName"),
    ("net a..b wire", "no 4 BadName"),
    ("input $end", "no 4 BadName"),
    ("input a", "ok 1"),
    ("net a wire", "no 3 DuplicateName"),
    ("input a", "no 3 DuplicateName"),
    ("net y wire", "ok 2"),
    ("gate g' not 1 1 y a", "no 4 BadName"),
    ("gate g not 1 1 y a", "ok 3"),
    ("gate g not 0 1 y a", "no 3 DuplicateName"),
    ("gate h not 0 1 y a", "no 5 ZeroDelay"),
    ("gate h not 1000001 0 y a", "no 5 ZeroDelay"),
    ("gate h not 1 1000001 y a", "no 6 DelayTooLarge"),
    ("gate h not 1 1 y a a", "no 7 WrongArity"),
    ("gate h not 1 1 y b b", "no 7 WrongArity"),
    ("gate h not 1 1 y", "no 7 WrongArity"),
    ("gate h not 1 1 q a", "no 1 UnknownNet"),
    ("gate h not 1 1 y b", "no 1 UnknownNet"),
    ("gate h not 1 1 a b", "no 1 UnknownNet"),
    ("gate h not 1 1 a y", "no 8 DrivenInput"),
    ("gate h not 1 1 1'b0 a", "no 1 UnknownNet"),
    ("gate h not 1 1 y 1'b2", "no 16 BadCommand"),
    ("gate h not 1 1 y 1'B1", "no 16 BadCommand"),
    ("gate h not 1000000 1000000 y 1'b1", "ok 4"),
    ("stim q 0 0", "no 1 UnknownNet"),
    ("stim y 1099511627777 0", "no 9 NotInput"),
    ("stim a 1099511627777 0", "no 11 TimeTooLarge"),
    ("stim a 18446744073709551616 0", "no 11 TimeTooLarge"),
    ("stim a 1099511627776 1", "ok 5"),
    ("stim a 0 2", "no 16 BadCommand"),
    ("stim a 0 X", "no 16 BadCommand"),
    ("stim a +1 0", "no 16 BadCommand"),
    ("stim a 007 z", "ok 6"),
    ("wave q", "no 1 UnknownNet"),
    ("wave a", "0 x", "7 z", "ok 6"),
]

# What each edit makes of a wave.
CHANGES: Talk = [
    ("input a", "ok 1"),
    ("net y wire", "ok 2"),
    ("gate g buf 5 5 y a", "ok 3"),
    ("stim a 0 0", "ok 4"),
    ("stim a 10 1", "ok 5"),
    ("wave y", "0 x", "5 0", "15 1", "ok 5"),
    ("unstim a 10", "ok 6"),
    ("stim a 12 1", "ok 7"),
    ("wave y", "0 x", "5 0", "17 1", "ok 7"),
    ("drop g", "ok 8"),
    ("wave y", "0 z", "ok 8"),
    ("gate h not 2 2 y a", "ok 9"),
    ("wave y", "0 x", "2 1", "14 0", "ok 9"),
    ("type h buf", "ok 10"),
    ("wave y", "0 x", "2 0", "14 1", "ok 10"),
    ("delay h 4 1", "ok 11"),
    ("wave y", "0 x", "1 0", "16 1", "ok 11"),
    ("net b wire", "ok 12"),
    ("wire h b a", "ok 13"),
    ("wave y", "0 z", "ok 13"),
    ("wave b", "0 x", "1 0", "16 1", "ok 13"),
    ("dropnet y", "ok 14"),
    ("wave y", "no 1 UnknownNet"),
    ("dropnet b", "no 10 NetInUse"),
    ("kind b wand", "ok 15"),
    ("wave b", "0 x", "1 0", "16 1", "ok 15"),
    ("horizon 10", "ok 16"),
    ("wave b", "0 x", "1 0", "ok 16"),
    ("value b 11", "no 11 TimeTooLarge"),
    ("horizon 20", "ok 17"),
    ("wave b", "0 x", "1 0", "16 1", "ok 17"),
]

# Names with dots are names in scopes.
DOTS: Talk = [
    ("net u.t wire", "ok 1"),
    ("input u.a", "ok 2"),
    ("gate u.g not 1 2 u.t u.a", "ok 3"),
    ("stim u.a 5 1", "ok 4"),
    ("wave u.t", "0 x", "7 0", "ok 4"),
    ("wave t", "no 1 UnknownNet"),
    ("hold a.b", "ok 4"),
    ("drop u.g", "ok 5"),
    ("value u.t 9", "z", "ok 5"),
    ("at a.b value u.t 9", "0", "ok 4"),
    ("free a.b", "ok 5"),
    ("net .a wire", "no 4 BadName"),
    ("net a. wire", "no 4 BadName"),
    ("net a..b wire", "no 4 BadName"),
    ("net a.$end wire", "no 4 BadName"),
    ("gate .g not 1 1 u.t u.a", "no 4 BadName"),
    ("hold b.", "no 4 BadName"),
    ("hold $end.b", "no 4 BadName"),
]

# A design to be refused edits of: the input a, the net b, and h, which drives b by a.
BASE = "input a\nnet b wire\ngate h buf 1 1 b a\nstim a 0 1\n"

# A line, and why it is refused.
REFUSED: List[Tuple[str, str]] = [
    ("dropnet q", "1 UnknownNet"),
    ("dropnet a", "10 NetInUse"),
    ("dropnet a b", "16 BadCommand"),
    ("drop q", "2 UnknownGate"),
    ("drop", "16 BadCommand"),
    ("kind q wor", "1 UnknownNet"),
    ("kind b and", "16 BadCommand"),
    ("kind b", "16 BadCommand"),
    ("type q and", "2 UnknownGate"),
    ("type h wire", "16 BadCommand"),
    ("type h bufif1", "7 WrongArity"),
    ("wire q b a", "2 UnknownGate"),
    ("wire h b a a", "7 WrongArity"),
    ("wire h b", "7 WrongArity"),
    ("wire h", "16 BadCommand"),
    ("wire h q a", "1 UnknownNet"),
    ("wire h b q", "1 UnknownNet"),
    ("wire h a q", "1 UnknownNet"),
    ("wire h a b", "8 DrivenInput"),
    ("wire h b 1'b2", "16 BadCommand"),
    ("delay q 1 1", "2 UnknownGate"),
    ("delay h 1000001 0", "5 ZeroDelay"),
    ("delay h 1 1000001", "6 DelayTooLarge"),
    ("delay h 1", "16 BadCommand"),
    ("delay h 1 x", "16 BadCommand"),
    ("unstim q 0", "1 UnknownNet"),
    ("unstim b 0", "9 NotInput"),
    ("unstim a 3", "12 NoSuchPoint"),
    ("unstim a 1099511627777", "12 NoSuchPoint"),
    ("unstim a", "16 BadCommand"),
    ("horizon 1099511627777", "11 TimeTooLarge"),
    ("horizon", "16 BadCommand"),
    ("horizon 1 2", "16 BadCommand"),
    ("commit", "19 NoBatch"),
]


class Edits(WithTalks):
    def test_each_fault_of_an_edit_in_order(self) -> None:
        self.check_talk(EMPTY, FAULTS, "--horizon=20")

    def test_each_edit_changes_the_waves(self) -> None:
        self.check_talk(EMPTY, CHANGES, "--horizon=20")

    def test_names_with_dots(self) -> None:
        self.check_talk(EMPTY, DOTS, "--horizon=20")

    def test_refused_edits_change_nothing(self) -> None:
        for line, cause in REFUSED:
            with self.subTest(line):
                replies = f"ok 1\nok 2\nok 3\nok 4\nno {cause}\n0 x\n1 1\nok 4\n"
                self.check_replies(EMPTY, f"{BASE}{line}\nwave b\n", replies, "--horizon=5")


if __name__ == "__main__":
    unittest.main()
