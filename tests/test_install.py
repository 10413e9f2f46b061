"""An installation: the programs, their manual pages, the completions of their words, and the guide."""
import os
import re
import shutil
import subprocess
import tempfile
import unittest
from typing import List

ROOT = os.path.dirname(os.path.dirname(os.path.abspath(__file__)))
PROGRAMS = ("gatebench", "gaterace")
# The first program goes by two names.
NAMES = ("gatetool", *PROGRAMS)


class Installed(unittest.TestCase):
    @classmethod
    def setUpClass(cls) -> None:
        room = tempfile.TemporaryDirectory()
        cls.addClassCleanup(room.cleanup)
        cls.prefix = os.path.join(room.name, "a prefix")
        programs = [os.environ[name.upper()] for name in PROGRAMS]
        subprocess.run([os.path.join(ROOT, "tools", "install"), cls.prefix, *programs], check=True)

    def path(self, *parts: str) -> str:
        return os.path.join(self.prefix, *parts)

    def text(self, *parts: str) -> str:
        with open(self.path("share", *parts), encoding="utf-8") as file:
            return file.read()

    def said(self, program: str) -> str:
        """What a program says of its use."""
        return subprocess.run([self.path("bin", program), "--help"], capture_output=True, text=True, check=False).stderr

    def options(self, program: str) -> List[str]:
        return re.findall(r"^  (--\w+)", self.said(program), re.M)

    def completed(self, program: str, words: List[str]) -> List[str]:
        """What bash offers for the last of these words, which come behind the program's name."""
        file = self.path("share", "bash-completion", "completions", program)
        script = f'source "$0"; COMP_WORDS=({program} "$@"); COMP_CWORD=$#; _{program}; printf "%s\\n" "${{COMPREPLY[@]}}"'
        ran = subprocess.run(["bash", "-c", script, file, *words], cwd=ROOT, capture_output=True, text=True, check=True)
        return ran.stdout.split()

    def test_the_programs_run(self) -> None:
        for program in NAMES:
            ran = subprocess.run([self.path("bin", program), "--version"], capture_output=True, text=True, check=True)
            self.assertRegex(ran.stdout, rf"^{program} [0-9.]+\n$")

    def test_nothing_else_is_installed(self) -> None:
        self.assertEqual(sorted(os.listdir(self.prefix)), ["bin", "share"])
        self.assertEqual(sorted(os.listdir(self.path("bin"))), sorted(NAMES))

    def test_each_option_has_its_place(self) -> None:
        for program, wanted in {
            "gatebench": ["--horizon", "--workers", "--delay", "--version"],
            "gatetool": ["--horizon", "--workers", "--delay", "--version"],
            "gaterace": ["--version"],
        }.items():
            self.assertEqual(self.options(program), wanted)
            page = self.text("man", "man1", f"{program}.1").replace("\\-", "-")
            zsh = self.text("zsh", "site-functions", f"_{program}")
            fish = self.text("fish", "vendor_completions.d", f"{program}.fish")
            for option in [*wanted, "--help"]:
                self.assertEqual(len(re.findall(rf"^\.B {option}( \w+)?$", page, re.M)), 1, option)
                self.assertEqual(zsh.count(f"'{option}["), 1, option)
                self.assertEqual(fish.count(f" -l {option[2:]} "), 1, option)

    def test_the_guide_that_the_programs_speak_of_is_there_with_its_pages(self) -> None:
        [named] = set(re.findall(r"docs/\w+\.md", self.said("gatebench")))
        page = self.text("man", "man1", "gatebench.1").replace("\\-", "-")
        [installed] = re.findall(r"^\.I share/(.*)$", page, re.M)
        self.assertTrue(installed.endswith(f"/{named}"), installed)
        guide = self.text(*installed.split("/"))
        folder = os.path.dirname(self.path("share", *installed.split("/")))
        linked = re.findall(r"\]\(([^)#]+)", guide)
        self.assertGreater(len(linked), 20)
        self.assertEqual([it for it in linked if not os.path.exists(os.path.join(folder, it))], [])

    def test_bash(self) -> None:
        self.assertEqual(self.completed("gatebench", ["--"]), ["--horizon", "--workers", "--delay", "--version", "--help"])
        self.assertEqual(self.completed("gatebench", ["m.v", "--w"]), ["--workers"])
        self.assertEqual(self.completed("gatebench", ["m.v", "--horizon", ""]), [])
        self.assertEqual(self.completed("gatebench", ["READ"]), ["README.md"])
        self.assertEqual(self.completed("gaterace", ["--v"]), ["--version"])

    @unittest.skipUnless(shutil.which("groff"), "there is no groff")
    def test_the_pages_are_whole(self) -> None:
        for program in PROGRAMS:
            page = self.path("share", "man", "man1", f"{program}.1")
            ran = subprocess.run(["groff", "-man", "-ww", "-Tutf8", page], capture_output=True, text=True, check=True)
            self.assertEqual(ran.stderr, "")
            self.assertRegex(ran.stdout, rf"(?m)^ +{program} +- ")
            statuses = self.text("man", "man1", f"{program}.1").partition(".SH EXIT STATUS\n")[2]
            self.assertEqual(set(re.findall(r"^\.B (\d)$", statuses, re.M)), {"0", "1", "2", "3"})


if __name__ == "__main__":
    unittest.main()
