"""The program gaterace at its work, which its output does not show: what it asks of memory tells that commits are made and looks
are compared, as many as there have to be, and allocations that are refused make looks wrong."""
import os
import re
import shutil
import sys
import unittest
from typing import Optional

from .support import WithProgram

sys.path.insert(0, os.path.join(os.path.dirname(os.path.dirname(os.path.abspath(__file__))), "tools"))
from shim import Ended, Shim, compiled  # noqa: E402

DESIGN = "module m(a,y); input a; output y; buf #(3,3) g(y,a); endmodule\n"
EDITS = "stim a 7 0\nstim a 7 1\n"
# How many allocations threads and what holds them may ask for besides.
BESIDE = 200
# How often a race is begun that may have no threads for its editors.
ROUNDS = 20


@unittest.skipUnless(shutil.which("cc"), "there is no C compiler")
class Races(WithProgram):
    variable = "GATERACE"

    def setUp(self) -> None:
        super().setUp()
        self.shim = Shim(compiled(self.folder), self.folder)
        self.design = self.path(self.write("d.v", DESIGN))

    def path(self, name: str) -> str:
        return os.path.join(self.folder, name)

    def race(self, script: str, viewers: int, looks: int, refuse: Optional[str] = None) -> Ended:
        """A race, where these allocations are refused."""
        words = [self.program, self.design, self.path(self.write("s", script)), str(viewers), str(looks)]
        return self.shim.run(words, {"REFUSE": refuse} if refuse else None)

    def asked(self, script: str, viewers: int, looks: int) -> int:
        """How many allocations a race asks for in which each look is right."""
        wanted = Ended(0, f"looks {viewers * looks} wrong 0\n".encode(), b"")
        self.assertEqual(self.race(script, viewers, looks), wanted)
        return self.shim.counts().allocations

    def test_each_look_is_compared(self) -> None:
        # A run from scratch asks for more than one allocation.
        few, many, more = (self.asked("", 1, looks) for looks in (10, 1010, 2010))
        self.assertGreater(many - few, 2 * 1000)
        self.assertAlmostEqual(more - many, many - few, delta=BESIDE)

    def test_each_viewer_looks_so_often(self) -> None:
        # The number of viewers and that of the looks are not exchanged: there are no 1,000 viewers.
        self.assertAlmostEqual(self.asked("", 10, 100), self.asked("", 1, 1000), delta=BESIDE)

    def test_each_commit_is_made(self) -> None:
        # The same lines in a batch that is left open are read and never submitted. A list of one edit is asked for by the script;
        # a commit asks at least for a copy of it, for a design and for a snapshot.
        read, made = self.asked("begin\n" + EDITS * 500, 1, 1), self.asked(EDITS * 500, 1, 1)
        self.assertGreater(made - read, 3 * 1000)

    def test_refused_looks_are_wrong(self) -> None:
        few, all_of_them = self.asked("", 1, 10), self.asked("", 1, 1010)
        # Nothing is had from the middle of the looks on. Where the looks get there before both editors have their threads, these
        # have none, and the race says so: it is run again.
        for _ in range(ROUNDS):
            ended = self.race("", 1, 1010, f"{(few + all_of_them) // 2}..")
            if ended != Ended(3, b"", b"out of memory\n"):
                break
        said = re.fullmatch(rb"looks 1010 wrong (\d+)\n", ended.printed)
        self.assertTrue(said, ended)
        self.assertAlmostEqual(int(said[1]), 500, delta=50)
        self.assertEqual(ended.status, 1)


if __name__ == "__main__":
    unittest.main()
