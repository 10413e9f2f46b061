"""In which nets two designs differ, and from which moment on: one gives way to the other, net by net, in one session."""
import unittest
from typing import List, Tuple

from ..making import WithDesigns, batch, lines_of

# The buffer's output has x up to 3, and then what the input had 3 earlier.
QUIET = "input a; net y wire; gate g buf 3 3 y a; stim a 0 0; horizon 30"
AT_10 = "input a; net y wire; gate g buf 3 3 y a; stim a 0 0; stim a 10 1; horizon 30"
AT_12 = "input a; net y wire; gate g buf 3 3 y a; stim a 0 0; stim a 12 1; horizon 30"
SHORT = "input a; net y wire; gate g buf 3 3 y a; stim a 0 0; stim a 12 1; horizon 10"
SHORTER = "input a; net y wire; gate g buf 3 3 y a; stim a 0 0; stim a 12 1; horizon 9"
WITH_MORE = "net w wire; input a; net y wire; net u wire; gate g buf 3 3 y a; stim a 0 1; stim a 9 0; horizon 30"
NOTHING = "horizon 7"

TWO_INPUTS = "input b; net y wire; input a; gate g buf 3 3 y a; stim a 5 1; stim b 5 1; horizon 30"
TWO_QUIET_INPUTS = "input b; net y wire; input a; gate g buf 3 3 y a; horizon 30"
OTHER_ORDER = "net y wire; input b; input a; gate g buf 3 3 y a; stim a 5 1; stim b 7 1; horizon 30"

# An input without points has x, and a net that nothing drives z.
UNKNOWN = "input a; horizon 3"
FLOATING = "net a wire; horizon 3"

UP_TO_8 = (
    "input a; horizon 99; stim a 0 0; stim a 1 1; stim a 2 0; stim a 3 1; stim a 4 0; stim a 5 1; stim a 6 0; stim a 7 1; stim a 8 0"
)
LONG = f"{UP_TO_8}; stim a 9 1; stim a 20 0; stim a 21 1"
LONGER = f"{LONG}; stim a 40 z"
OTHERWISE = f"{UP_TO_8}; stim a 9 x; stim a 20 0; stim a 21 1"

# What the row shows, the design that is asked, the other one, and the lines of the nets of the first that differ.
ROWS: List[Tuple[str, str, str, str]] = [
    ("nothing differs", QUIET, QUIET, ""),
    ("a point moved", AT_10, AT_12, "a 10 / y 13"),
    ("a point moved, from the other side", AT_12, AT_10, "a 10 / y 13"),
    ("two nets at one moment", TWO_INPUTS, TWO_QUIET_INPUTS, "b 5 / a 5 / y 8"),
    ("nets that the first has alone", WITH_MORE, QUIET, "w 0 / a 0 / u 0 / y 3"),
    ("nets that the other one has alone", QUIET, WITH_MORE, "a 0 / w 0 / u 0 / y 3"),
    ("the other one has no nets", QUIET, NOTHING, "a 0 / y 0"),
    ("the first has no nets", NOTHING, QUIET, "a 0 / y 0"),
    ("neither has nets", NOTHING, NOTHING, ""),
    ("a difference at the lesser horizon", AT_10, SHORT, "a 10"),
    ("a difference at the lesser horizon, which is that of the first", SHORT, AT_10, "a 10"),
    ("a difference behind the lesser horizon", AT_10, SHORTER, ""),
    ("a difference behind the lesser horizon, which is that of the first", SHORTER, AT_10, ""),
    ("nets at other places", TWO_INPUTS, OTHER_ORDER, "b 5"),
    ("nets at other places, from the other side", OTHER_ORDER, TWO_INPUTS, "b 5"),
    ("x and z", UNKNOWN, FLOATING, "a 0"),
    ("many changes alike", LONG, LONG, ""),
    ("a change behind many alike, in the other one", LONG, LONGER, "a 40"),
    ("a change behind many alike, in the first", LONGER, LONG, "a 40"),
    ("another value between many alike", LONG, OTHERWISE, "a 9"),
]

# What takes all away that lines have made.
DROPS = {"gate": "drop", "net": "dropnet", "input": "dropnet"}

ADDED_AGAIN = "net w wire; drop g; dropnet y; net y wire; gate g buf 3 3 y a"


def taken_away(lines: List[str]) -> List[str]:
    """The edits that remove the nets and the gates of these lines."""
    words = [line.split() for line in reversed(lines)]
    return [f"{DROPS[verb]} {name}" for verb, name, *_ in words if verb in DROPS]


class Diff(WithDesigns):
    def check_row(self, asked: str, other: str, wanted: str) -> None:
        """In the present version, and in a held one where a third version is present."""
        old = lines_of(other)
        edits = batch([*taken_away(old), *lines_of(asked)])
        replies = self.behind(old, ["hold k", *edits, "diff k", "hold j", "horizon 40", "at j diff k"])
        lines = [*(wanted.split(" / ") if wanted else []), "ok 2"]
        self.assertEqual((replies[-4], replies[-1]), (lines, lines))

    def test_two_designs(self) -> None:
        for name, asked, other, wanted in ROWS:
            with self.subTest(name):
                self.check_row(asked, other, wanted)

    def test_commits_one_behind_the_other(self) -> None:
        again = batch(lines_of(ADDED_AGAIN))
        lines = ["hold k", "stim a 10 1", "diff k", "unstim a 10", "diff k"]
        lines += [*again, "diff k", "hold j", "at k diff j", "delay g 4 4", "diff k"]
        wanted = [["ok 1"], ["ok 2"], ["a 10", "y 13", "ok 2"], ["ok 3"], ["ok 3"]]
        wanted += [["ok 3"]] * (len(again) - 1) + [["ok 4"], ["w 0", "ok 4"], ["ok 4"], ["w 0", "ok 1"], ["ok 5"], ["w 0", "y 3", "ok 5"]]
        self.assertEqual(self.behind(lines_of(QUIET), lines), wanted)


if __name__ == "__main__":
    unittest.main()
