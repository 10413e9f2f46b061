"""The program gatebench over devices that bring and take few bytes, that fail, and that take none."""
import os
import shutil
import subprocess
import unittest

from .support import Ended, WithProgram

HERE = os.path.dirname(os.path.abspath(__file__))
EXAMPLE = os.path.join(os.path.dirname(HERE), "docs", "examples", "batches")


def contents(name: str) -> str:
    with open(os.path.join(EXAMPLE, name), encoding="utf-8") as file:
        return file.read()


@unittest.skipUnless(shutil.which("cc"), "there is no C compiler")
class Devices(WithProgram):
    """Each session is that of an example, whose replies were worked out by hand."""

    variable = "GATEBENCH"

    def setUp(self) -> None:
        super().setUp()
        self.library = os.path.join(self.folder, "devices.so")
        subprocess.run(["cc", "-O2", "-shared", "-fPIC", os.path.join(HERE, "devices.c"), "-o", self.library], check=True)
        self.design = os.path.join(EXAMPLE, "design.v")
        self.commands, self.replies = contents("commands"), contents("expected")

    def run_over(self, **devices: int) -> Ended:
        """A session over such devices."""
        numbers = {name: str(number) for name, number in devices.items()}
        # By its path from the program's folder: a blank or a colon would end a name here.
        loaded = os.path.join(os.curdir, os.path.basename(self.library))
        return self.run_with([self.design], self.commands, env={**os.environ, "LD_PRELOAD": loaded, **numbers})

    def test_input_in_pieces(self) -> None:
        for size in (1, 2, 4096):
            self.assertEqual(self.run_over(READ_PIECE=size), Ended(0, self.replies, ""), size)

    def test_a_sink_that_takes_few_bytes(self) -> None:
        for size in (1, 2, 4096):
            self.assertEqual(self.run_over(WRITE_PIECE=size), Ended(0, self.replies, ""), size)
            self.assertEqual(self.run_over(WRITE_PIECE=size, READ_PIECE=1), Ended(0, self.replies, ""), size)

    def replies_to(self, count: int) -> str:
        """The replies to the lines that end within the first `count` bytes of the commands."""
        commands = [line for line in self.commands[:count].split("\n")[:-1] if line.split() and not line.startswith("#")]
        kept, left = "", len(commands)
        for line in self.replies.splitlines(keepends=True):
            if not left:
                break
            kept += line
            left -= line.startswith(("ok ", "no "))
        return kept

    def test_a_read_that_fails_at_each_byte(self) -> None:
        for place in range(len(self.commands)):
            self.assertEqual(self.run_over(READ_FAILS=place), Ended(3, self.replies_to(place), "read failed\n"), place)

    def test_nothing_is_read_behind_the_end_of_a_session(self) -> None:
        self.assertTrue(self.commands.endswith("quit\n"))
        self.assertEqual(self.run_over(READ_FAILS=len(self.commands)), Ended(0, self.replies, ""))

    def test_a_write_that_fails_at_each_byte(self) -> None:
        for place in range(len(self.replies)):
            ended = Ended(3, self.replies[:place], "write failed\n")
            self.assertEqual(self.run_over(WRITE_FAILS=place), ended, place)
            self.assertEqual(self.run_over(WRITE_FAILS=place, WRITE_PIECE=1), ended, place)

    def test_a_write_that_takes_no_byte(self) -> None:
        for place in range(len(self.replies)):
            self.assertEqual(self.run_over(WRITE_STOPS=place), Ended(3, self.replies[:place], "write failed\n"), place)


if __name__ == "__main__":
    unittest.main()
