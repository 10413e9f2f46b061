"""The version: one number, which the programs print and the Python package has."""
import os
import re
import subprocess
import sys
import unittest

from .support import Ended, WithProgram

ROOT = os.path.dirname(os.path.dirname(os.path.abspath(__file__)))


def text_of(*path: str) -> str:
    with open(os.path.join(ROOT, *path), encoding="utf-8") as file:
        return file.read()


def version() -> str:
    """The number of the newest version that the list of changes has."""
    found = re.search(r"^## (\S+)$", text_of("CHANGELOG.md"), re.M)
    assert found, "CHANGELOG.md has no version"
    return found[1]


class Package(unittest.TestCase):
    def test_the_module(self) -> None:
        for words, said in ((["-c", "import gatebench; print(gatebench.__version__)"], ""), (["-m", "gatebench", "--version"], "gatebench package ")):
            ran = subprocess.run([sys.executable, *words], cwd=os.path.join(ROOT, "python"), capture_output=True, text=True, check=True)
            self.assertEqual(ran.stdout, f"{said}{version()}\n")


class Gatebench(WithProgram):
    variable = "GATEBENCH"

    def test_the_version_alone(self) -> None:
        name = self.variable.lower()
        for words in (["--version"], ["-V"], ["d.v", "--version"]):
            self.assertEqual(self.run_with(words), Ended(0, f"{name} {version()}\n", ""), words)

    def test_a_version_that_can_not_be_written(self) -> None:
        with open("/dev/full", "wb") as full:
            self.assertEqual(self.run_with(["--version"], stdout=full), Ended(3, "", "write failed\n"))

    def test_words_that_are_refused_before(self) -> None:
        lines = "error: unexpected argument '--frob' found\n\n  tip: to pass '--frob' as a value, use '-- --frob'\n\n"
        self.check_refused_words(["--frob", "--version"], lines)


class Gaterace(Gatebench):
    variable = "GATERACE"


if __name__ == "__main__":
    unittest.main()
