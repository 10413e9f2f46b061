"""Questions about waves."""
import unittest

from .talks import EMPTY, Talk, WithTalks

# A pulse of 3 units through a buffer of 3 and 3: the wave of y is x from 0, 0 from 3, 1 from 13, 0 from 16. The net n has no
# driver and the input b no point, so their waves have the value at 0 alone, z and x.
PULSE: Talk = [
    ("input a", "ok 1"),
    ("net y wire", "ok 2"),
    ("gate g buf 3 3 y a", "ok 3"),
    ("stim a 0 0", "ok 4"),
    ("stim a 10 1", "ok 5"),
    ("stim a 13 0", "ok 6"),
    ("net n wire", "ok 7"),
    ("input b", "ok 8"),
    ("next y 3", "13 1", "ok 8"),
    ("prev y 3", "0 x", "ok 8"),
    ("seek y 0 0", "3 0", "ok 8"),
    ("next y 16", "none", "ok 8"),
    ("value y 12", "0", "ok 8"),
    ("value y 101", "no 11 TimeTooLarge"),
]

# What is answered behind the pulse, up to the horizon 100.
QUESTIONS: Talk = [
    # at each change, and beside it
    ("value y 0", "x", "ok 8"),
    ("value y 2", "x", "ok 8"),
    ("value y 3", "0", "ok 8"),
    ("value y 13", "1", "ok 8"),
    ("value y 15", "1", "ok 8"),
    ("value y 16", "0", "ok 8"),
    ("next y 0", "3 0", "ok 8"),
    ("next y 2", "3 0", "ok 8"),
    ("next y 13", "16 0", "ok 8"),
    ("next y 15", "16 0", "ok 8"),
    ("prev y 0", "none", "ok 8"),
    ("prev y 1", "0 x", "ok 8"),
    ("prev y 4", "3 0", "ok 8"),
    ("prev y 13", "3 0", "ok 8"),
    ("prev y 16", "13 1", "ok 8"),
    ("prev y 17", "16 0", "ok 8"),
    # a search begins behind its moment, also where that is a change to the value
    ("seek y 3 0", "16 0", "ok 8"),
    ("seek y 2 0", "3 0", "ok 8"),
    ("seek y 16 0", "none", "ok 8"),
    ("seek y 3 1", "13 1", "ok 8"),
    ("seek y 13 1", "none", "ok 8"),
    ("seek y 16 1", "none", "ok 8"),
    ("seek y 0 x", "none", "ok 8"),
    ("seek y 0 z", "none", "ok 8"),
    # the horizon is within, and a moment after it is not
    ("value y 100", "0", "ok 8"),
    ("next y 100", "none", "ok 8"),
    ("prev y 100", "16 0", "ok 8"),
    ("seek y 100 0", "none", "ok 8"),
    ("next y 101", "no 11 TimeTooLarge"),
    ("prev y 101", "no 11 TimeTooLarge"),
    ("seek y 101 0", "no 11 TimeTooLarge"),
    ("prev y 18446744073709551616", "no 11 TimeTooLarge"),
    # the name comes before the moment
    ("value q 101", "no 1 UnknownNet"),
    ("next q 101", "no 1 UnknownNet"),
    ("next g 0", "no 1 UnknownNet"),
    ("prev a'b 0", "no 1 UnknownNet"),
    ("seek 1'b0 101 0", "no 1 UnknownNet"),
    # waves without a change after 0
    ("value n 50", "z", "ok 8"),
    ("next n 0", "none", "ok 8"),
    ("prev n 0", "none", "ok 8"),
    ("prev n 50", "0 z", "ok 8"),
    ("seek n 0 z", "none", "ok 8"),
    ("value b 100", "x", "ok 8"),
    ("prev b 100", "0 x", "ok 8"),
    # an input's wave
    ("next a 0", "10 1", "ok 8"),
    ("seek a 0 0", "13 0", "ok 8"),
    # words
    ("value y 007", "0", "ok 8"),
    (" value\ty  12 \r", "0", "ok 8"),
    ("value y", "no 16 BadCommand"),
    ("value y 1 2", "no 16 BadCommand"),
    ("value y +1", "no 16 BadCommand"),
    ("value q x", "no 16 BadCommand"),
    ("next", "no 16 BadCommand"),
    ("next y 1_0", "no 16 BadCommand"),
    ("prev y 0x1", "no 16 BadCommand"),
    ("prev y 3 0", "no 16 BadCommand"),
    ("seek y 0", "no 16 BadCommand"),
    ("seek y 0 X", "no 16 BadCommand"),
    ("seek y 0 01", "no 16 BadCommand"),
    ("seek y x 0", "no 16 BadCommand"),
    ("seek y 101 2", "no 16 BadCommand"),
    ("Next y 0", "no 16 BadCommand"),
    ("wave y 0", "no 16 BadCommand"),
]

# The same where the questions of tools are known.
WINDOWS: Talk = [
    # y changes at 3, at 13 and at 16: a part ends with its end
    ("window y 0 20 1", "3 x 0 more", "ok 8"),
    ("window y 0 20 2", "3 x 0 one", "13 0 0 more", "ok 8"),
    ("window y 0 20 4", "3 x 0 one", "13 0 1 one", "16 1 0 one", "ok 8"),
    ("window y 0 26 2", "3 x 1 more", "16 1 0 one", "ok 8"),
    # the change at the first moment is left out
    ("window y 3 16 1", "13 0 0 more", "ok 8"),
    # parts that end at 3, 6, 9 and 13
    ("window y 3 13 3", "13 0 1 one", "ok 8"),
    # more parts than moments
    ("window y 0 3 65536", "3 x 0 one", "ok 8"),
    ("window y 16 16 5", "ok 8"),
    ("window y 17 100 9", "ok 8"),
    ("window y 0 101 1", "no 11 TimeTooLarge"),
    ("window y 13 12 1", "no 11 TimeTooLarge"),
    ("window ' 0 0 1", "no 1 UnknownNet"),
    ("window q 13 12 1", "no 1 UnknownNet"),
    ("window y 0 20 0", "no 16 BadCommand"),
    ("window y 0 20 65537", "no 16 BadCommand"),
    ("window y 0 20 18446744073709551617", "no 16 BadCommand"),
    ("window q 0 20 x", "no 16 BadCommand"),
    ("window y 0 20 2 2", "no 16 BadCommand"),
]

PRESENT: Talk = [
    ("input a", "ok 1"),
    ("stim a 5 1", "ok 2"),
    ("value a 7", "1", "ok 2"),
    ("seek a 0 1", "5 1", "ok 2"),
    ("stim a 5 0", "ok 3"),
    ("value a 7", "0", "ok 3"),
    ("seek a 0 1", "none", "ok 3"),
    ("value a 9", "0", "ok 3"),
    ("stim a 11 1", "ok 4"),
    ("next a 5", "none", "ok 4"),
]

LAST_DUMP = """$version gatebench $end
$timescale 1 ns $end
$scope module m $end
$var wire 1 ! a $end
$var wire 1 " y $end
$upscope $end
$enddefinitions $end
#0
$dumpvars
0!
x"
$end
#3
0"
#1099511627773
1!
#1099511627776
1"
""".splitlines()

# Up to the last moment that a horizon can have: an event that is due there is shown, and one that is due behind it is not.
LAST: Talk = [
    ("input a", "ok 1"),
    ("net y wire", "ok 2"),
    ("gate g buf 3 3 y a", "ok 3"),
    ("stim a 0 0", "ok 4"),
    ("stim a 1099511627773 1", "ok 5"),
    ("wave y", "0 x", "3 0", "1099511627776 1", "ok 5"),
    ("value y 1099511627775", "0", "ok 5"),
    ("value y 1099511627776", "1", "ok 5"),
    ("value y 1099511627777", "no 11 TimeTooLarge"),
    ("next y 1099511627775", "1099511627776 1", "ok 5"),
    ("seek y 3 1", "1099511627776 1", "ok 5"),
    ("prev y 1099511627776", "3 0", "ok 5"),
    ("prev a 1099511627776", "1099511627773 1", "ok 5"),
    ("vcd", *LAST_DUMP, "ok 5"),
    ("begin", "ok 5"),
    ("unstim a 1099511627773", "ok 5"),
    ("stim a 1099511627774 1", "ok 5"),
    ("commit", "ok 6"),
    ("wave y", "0 x", "3 0", "ok 6"),
    ("stim a 1099511627776 z", "ok 7"),
    ("wave a", "0 0", "1099511627774 1", "1099511627776 z", "ok 7"),
]


class Questions(WithTalks):
    def test_each_question(self) -> None:
        self.check_talk(EMPTY, [*PULSE, *QUESTIONS], "--horizon=100")

    def test_each_question_alone(self) -> None:
        for line, *reply in QUESTIONS:
            with self.subTest(line):
                self.check_talk(EMPTY, [*PULSE, (line, *reply)], "--horizon=100")

    def test_a_window_in_parts(self) -> None:
        self.check_talk(EMPTY, [*PULSE, *WINDOWS], "--horizon=100", tools=True)
        unknown = [(line, "no 16 BadCommand") for line, *_ in WINDOWS]
        self.check_talk(EMPTY, [*PULSE, *unknown], "--horizon=100")

    def test_questions_ask_the_present_version(self) -> None:
        self.check_talk(EMPTY, PRESENT, "--horizon=10")

    def test_the_last_moment(self) -> None:
        self.check_talk(EMPTY, LAST, "--horizon=1099511627776")


if __name__ == "__main__":
    unittest.main()
