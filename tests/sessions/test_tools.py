"""The lines that gatetool knows beside those of gatebench: the word at fault of each refusal, and what a change comes from."""
import unittest

from .talks import EMPTY, Talk, WithTalks

# An input a, and an inverter g from it to y; k holds this version.
INVERTER: Talk = [
    ("input a", "ok 1"),
    ("stim a 5 1", "ok 2"),
    ("net y wire", "ok 3"),
    ("gate g not 1 1 y a", "ok 4"),
    ("hold k", "ok 4"),
]

# Lines that change nothing, and what each is answered where the questions of tools are known.
WORDS: Talk = [
    ("fault value a 1", "x", "ok 4"),
    ("fault at k drivers y", "g", "ok 4"),
    ("fault wave yy", "no 1 UnknownNet yy"),
    ("fault at k value b 0", "no 1 UnknownNet b"),
    # OUT, then each IN
    ("fault gate h and 1 1 w p q", "no 1 UnknownNet w"),
    ("fault gate h and 1 1 y a p q", "no 1 UnknownNet p"),
    ("fault drop h", "no 2 UnknownGate h"),
    ("fault net y wire", "no 3 DuplicateName y"),
    ("fault hold k", "no 3 DuplicateName k"),
    ("fault net a'b wire", "no 4 BadName a'b"),
    ("fault delay g 1000001 00", "no 5 ZeroDelay 0"),
    ("fault delay g 1 1000001", "no 6 DelayTooLarge 1000001"),
    ("fault gate h not 1 1 y", "no 7 WrongArity not"),
    ("fault type g bufif1", "no 7 WrongArity bufif1"),
    ("fault wire g y", "no 7 WrongArity g"),
    ("fault wire g a y", "no 8 DrivenInput a"),
    ("fault stim y 3 1", "no 9 NotInput y"),
    ("fault points y", "no 9 NotInput y"),
    ("fault dropnet y", "no 10 NetInUse y"),
    ("fault value a 101", "no 11 TimeTooLarge 101"),
    ("fault window a 9 101", "no 11 TimeTooLarge 101"),
    ("fault window a 9 8", "no 11 TimeTooLarge 9"),
    ("fault horizon 99999999999999999999", "no 11 TimeTooLarge 18446744073709551615"),
    ("fault unstim a 007", "no 12 NoSuchPoint 7"),
    ("fault at z wave b", "no 18 UnknownHold z"),
    ("fault free z", "no 18 UnknownHold z"),
    ("fault commit", "no 19 NoBatch"),
    ("fault delay g 1 1/2", "no 21 NoTurnOff 2"),
    ("fault nett a wire", "no 16 BadCommand nett"),
    ("fault net a wirr", "no 16 BadCommand wirr"),
    ("fault delay g 1 2/ 3", "no 16 BadCommand 2/"),
    ("fault window a 0 9 65537", "no 16 BadCommand 65537"),
    ("fault wire g y a 1'b2", "no 16 BadCommand 1'b2"),
    ("fault vcd now", "no 16 BadCommand now"),
    ("fault at k stim a 0 1", "no 16 BadCommand stim"),
    ("fault at k gate g and", "no 16 BadCommand and"),
    ("fault # a", "no 16 BadCommand #"),
    # a word is missing, there are two of `fault`, or another byte
    ("fault", "no 16 BadCommand"),
    ("fault at k", "no 16 BadCommand"),
    ("fault gate h and 1", "no 16 BadCommand"),
    ("fault fault wave a", "no 16 BadCommand"),
    ("fault wave \xffa", "no 16 BadCommand"),
    ("fault nett \xffa", "no 16 BadCommand nett"),
]

# What made a change, what it led to, and what differs. Under k a rises at 5 and y falls at 6; now a falls at 8 too, and y rises
# at 9. Under n there is a net w more.
CHANGE: Talk = [
    ("stim a 8 0", "ok 5"),
    ("net w wire", "ok 6"),
    ("hold n", "ok 6"),
    ("dropnet w", "ok 7"),
]

CHANGES: Talk = [
    ("why a 5", "stimulus", "ok 7"),
    ("why a 0", "beginning", "ok 7"),
    ("why y 6", "g 5 a 1", "ok 7"),
    ("why y 7", "none", "ok 7"),
    ("fault why y 9", "g 8 a 0", "ok 7"),
    ("at k why y 9", "none", "ok 4"),
    ("reach a 8", "g 9 y 1", "ok 7"),
    ("reach a 4", "none", "ok 7"),
    ("reach y 9", "ok 7"),
    ("diff k", "a 8", "y 9", "ok 7"),
    ("diff n", "w 0", "ok 7"),
    ("at k diff n", "w 0", "a 8", "y 9", "ok 4"),
    ("at n diff n", "ok 6"),
    ("why w 101", "no 1 UnknownNet"),
    ("reach y 101", "no 11 TimeTooLarge"),
    ("diff z", "no 18 UnknownHold"),
    ("fault reach w 0", "no 1 UnknownNet w"),
    ("fault at n why w 101", "no 11 TimeTooLarge 101"),
    ("fault diff z", "no 18 UnknownHold z"),
    ("fault at k diff z", "no 18 UnknownHold z"),
    ("fault at z diff v", "no 18 UnknownHold z"),
    ("fault why y x", "no 16 BadCommand x"),
]

# A refused commit names the word by the design that the edits before the refused one make, and ends the batch. Behind `quit`
# nothing gets a reply.
COMMITS: Talk = [
    ("fault net p wire", "ok 1"),
    ("fault begin", "ok 1"),
    ("fault begin", "no 20 InBatch"),
    ("net q wire", "ok 1"),
    ("fault gate h buf 1 1 q r", "ok 1"),
    ("fault commit", "no 1 UnknownNet r"),
    ("commit", "no 19 NoBatch"),
    ("begin", "ok 1"),
    ("net q tri", "ok 1"),
    ("fault commit", "ok 2"),
    ("kinds q", "no 16 BadCommand"),
    ("fault quit", "ok 2"),
    ("wave p",),
]


class Tools(WithTalks):
    def check_tools(self, before: Talk, lines: Talk) -> None:
        """Gatetool answers these lines so, behind those, and gatebench can't read them."""
        self.check_talk(EMPTY, [*before, *lines], "--horizon=100", tools=True)
        self.check_talk(EMPTY, [*before, *((line, "no 16 BadCommand") for line, *_ in lines)], "--horizon=100")

    def test_each_word_at_fault(self) -> None:
        self.check_tools(INVERTER, WORDS)

    def test_changes_and_differences(self) -> None:
        self.check_tools([*INVERTER, *CHANGE], CHANGES)

    def test_words_of_commits(self) -> None:
        self.check_talk(EMPTY, COMMITS, "--horizon=100", tools=True)


if __name__ == "__main__":
    unittest.main()
