"""Turn-off delays in sessions: edits that give them, and the words in which they may stand."""
import unittest

from .talks import Talk, WithTalks

LET_GO = "module m(d,c,n); input d,c; output n; bufif1 #(2,3,5) g(n,d,c); endmodule"

EDITS: Talk = [
    ("stim d 0 1", "ok 1"),
    ("stim c 0 1", "ok 2"),
    ("stim c 10 0", "ok 3"),
    ("stim c 20 x", "ok 4"),
    ("wave n", "0 x", "2 1", "15 z", "22 x", "ok 4"),
    ("delay g 2 3", "ok 5"),
    ("wave n", "0 x", "2 1", "12 z", "22 x", "ok 5"),
    ("delay g 6 7/4", "ok 6"),
    ("wave n", "0 x", "6 1", "14 z", "24 x", "ok 6"),
    ("type g and", "no 21 NoTurnOff"),
    ("delay g 2 3/0", "no 5 ZeroDelay"),
    ("delay g 2 3/", "no 16 BadCommand"),
    ("begin", "ok 6"),
    ("delay g 6 7", "ok 6"),
    ("type g and", "ok 6"),
    ("commit", "ok 7"),
    ("delay g 1 1/1", "no 21 NoTurnOff"),
    ("type g bufif0", "ok 8"),
    ("delay g 2 3/007", "ok 9"),
    ("wave n", "0 x", "7 z", "12 1", "22 x", "ok 9"),
]

WORDS: Talk = [
    ("delay g 2 3/", "no 16 BadCommand"),
    ("delay g 2 /3", "no 16 BadCommand"),
    ("delay g 2 /", "no 16 BadCommand"),
    ("delay g 2/3 3", "no 16 BadCommand"),
    ("delay g 2/ 3", "no 16 BadCommand"),
    ("delay g 2 3 /4", "no 16 BadCommand"),
    ("delay g 2 3/ 4", "no 16 BadCommand"),
    ("delay g 2 3/4/5", "no 16 BadCommand"),
    ("delay g 2 3//4", "no 16 BadCommand"),
    ("delay g 2 3/x", "no 16 BadCommand"),
    ("delay g 2 3/+4", "no 16 BadCommand"),
    ("delay g 2 3,4", "no 16 BadCommand"),
    ("delay g/2 3/4", "no 16 BadCommand"),
    ("gate h bufif1 2 3/ n d c", "no 16 BadCommand"),
    ("gate h bufif1 2/3 4 n d c", "no 16 BadCommand"),
    ("delay q 2 3/4", "no 2 UnknownGate"),
    ("delay g 2 3/99999999999999999999", "no 6 DelayTooLarge"),
    ("delay g 2 3/1000001", "no 6 DelayTooLarge"),
    ("delay g 0 3/1000001", "no 5 ZeroDelay"),
    ("gate h and 2 3/4 n d c", "no 21 NoTurnOff"),
    ("gate h and 2 3/4 n d' c", "no 16 BadCommand"),
    ("gate h buf 2 3/4 q d c", "no 21 NoTurnOff"),
    ("gate g and 2 3/0 n d c", "no 3 DuplicateName"),
    ("gate h notif1 2 3/1000000 n d c", "ok 1"),
    ("delay h 3/2 1", "no 16 BadCommand"),
]


class TurnOffDelays(WithTalks):
    def test_edits_and_waves(self) -> None:
        self.check_talk(LET_GO, EDITS, "--horizon=30")

    def test_words(self) -> None:
        self.check_talk(LET_GO, WORDS, "--horizon=30")


if __name__ == "__main__":
    unittest.main()
