"""Lists of edits of which one is refused: it stands behind others that change what it asks for, and what was there stays."""
import unittest
from typing import List, Tuple

from ..making import WithDesigns, batch, lines_of
from .designs import DESIGN

# What the row shows, the edits of a list, and why its commit is refused, with the word of the first edit that is.
LISTS: List[Tuple[str, str, str]] = [
    (
        "the third edit, though the edits behind it would be accepted",
        "stim a 20 1; stim a 25 0; delay g 0 3; horizon 50; stim a 30 1",
        "5 ZeroDelay 0",
    ),
    (
        "the fifth edit, behind a net that is replaced with its gate",
        "drop g; dropnet y; net y wand; gate g buf 1 1 y a; drop k",
        "2 UnknownGate k",
    ),
    (
        "the third edit and not the fifth, which removes a gate twice",
        "drop h; dropnet n; wire g n a; drop g; drop g",
        "1 UnknownNet n",
    ),
    (
        "no edit: a net gives way to an input, which gets a point",
        "drop h; dropnet n; input n; stim n 5 1; drop g",
        "",
    ),
]

PULSE = "input a; net y wire; gate g buf 3 3 y a; horizon 30; stim a 0 0; stim a 10 1; stim a 12 0"

THIRD_REFUSED = "stim a 20 1; stim a 25 0; delay g 0 3; horizon 50; stim a 30 1"


class Lists(WithDesigns):
    def test_the_first_that_is_refused(self) -> None:
        first = lines_of(DESIGN)
        before = self.shown_behind(first, [])
        for name, edits, cause in LISTS:
            with self.subTest(name):
                lines = ["begin", *lines_of(edits), "fault commit"]
                self.assertEqual(self.behind(first, lines)[-1], [f"no {cause}" if cause else "ok 2"])
                self.assertEqual(self.shown_behind(first, lines) == before, bool(cause))

    def test_waves_version_and_horizon_stay(self) -> None:
        asked = ["wave y", "wave a", "value y 30", "value y 31"]
        replies = self.behind(lines_of(PULSE), [*batch(lines_of(THIRD_REFUSED)), *asked])
        wanted = [["0 x", "3 0", "ok 1"], ["0 0", "10 1", "12 0", "ok 1"], ["0", "ok 1"], ["no 11 TimeTooLarge"]]
        self.assertEqual(replies[-5:], [["no 5 ZeroDelay"], *wanted])

    def test_a_commit_without_edits(self) -> None:
        first = lines_of("horizon 10; input a; net y wire; gate g buf 5 5 y a; stim a 0 0")
        self.assertEqual(self.replies_to(batch([])), [["ok 0"], ["ok 1"]])
        self.assertEqual(self.behind(first, [*batch([]), "wave y"]), [["ok 1"], ["ok 2"], ["0 x", "5 0", "ok 2"]])


if __name__ == "__main__":
    unittest.main()
