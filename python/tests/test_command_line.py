"""`python -m gatebench draw`: what it prints, what it writes, what it refuses."""
import os
import subprocess
import sys
import unittest
from typing import Tuple

from .support import EXAMPLES, INVERTER, ROOT, WithFolder


class Draws(WithFolder):
    def setUp(self) -> None:
        super().setUp()
        self.write("m.v", INVERTER)
        self.write("commands", "stim a 0 0\nstim a 10 1\nquit\n")

    def draw(self, *words: str, encoding: str = "utf-8") -> Tuple[int, str, str]:
        """The status of a drawing, what it printed, and what it said on standard error."""
        environment = {**os.environ, "PYTHONPATH": os.path.join(ROOT, "python"), "PYTHONIOENCODING": encoding}
        ran = subprocess.run(
            [sys.executable, "-m", "gatebench", "draw", *words],
            cwd=self.folder, env=environment, capture_output=True, encoding="utf-8", timeout=60,
        )  # fmt: skip
        return ran.returncode, ran.stdout, ran.stderr

    def test_all_nets_up_to_the_horizon(self) -> None:
        wanted = "moment  0         10        20\n        │         │         │\na       ▁▁▁▁▁▁▁▁▁▁▔▔▔▔▔▔▔▔▔▔▔\ny       ╳╳▔▔▔▔▔▔▔▔▔▔▔▁▁▁▁▁▁▁▁\n"
        self.assertEqual(self.draw("m.v", "commands", "--horizon", "20"), (0, wanted, ""))

    def test_some_nets_in_a_window_in_ascii(self) -> None:
        status, printed, _ = self.draw("m.v", "commands", "--nets", "y", "a", "--from", "8", "--to", "14", "--ascii")
        self.assertEqual((status, printed), (0, "moment    10\n          |\ny       -----__\na       __-----\n"))

    def test_an_output_without_the_signs_gets_ascii(self) -> None:
        status, printed, _ = self.draw("m.v", "--to", "3", encoding="ascii")
        self.assertEqual((status, printed), (0, "moment  0\n        |\na       xxxx\ny       xxxx\n"))

    def test_the_pictures_of_the_documents_are_those_that_it_draws(self) -> None:
        for example, lines, nets in (("glitch", "commands", "s sn p q y w"), ("bus", "expectations", "a_on b_on line seen")):
            files = [os.path.join(EXAMPLES, example, it) for it in ("design.v", lines, "waves.svg")]
            words = ["--nets", *nets.split(), "--from", "16", "--to", "31", "--svg", "waves.svg"]
            self.assertEqual(self.draw(*files[:2], *words), (0, "", ""), example)
            with open(files[2], encoding="utf-8") as file:
                self.assertEqual(self.read("waves.svg"), file.read(), example)

    def test_the_picture_of_two_versions_in_the_documents(self) -> None:
        files = [os.path.join(EXAMPLES, "glitch", it) for it in ("design.v", "expectations", "cured.svg")]
        words = ["--horizon", "100", "--nets", "s", "p", "q", "y", "--from", "16", "--to", "31", "--before", "glitch", "--svg", "cured.svg"]
        self.assertEqual(self.draw(*files[:2], *words), (0, "", ""))
        with open(files[2], encoding="utf-8") as file:
            self.assertEqual(self.read("cured.svg"), file.read())

    def test_two_versions_as_text_and_for_wavedrom(self) -> None:
        self.write("commands", "stim a 0 0\nhold early\ndelay g 4 3\n")
        words = ["m.v", "commands", "--nets", "y", "--to", "7"]
        status, printed, _ = self.draw(*words, "--before", "early", "--ascii")
        self.assertEqual((status, printed.splitlines()[2:]), (0, ["y         xxxx----", "  before  xx------"]))
        self.assertEqual(self.draw(*words, "--wavedrom", "y.json"), (0, "", ""))
        self.assertIn('"wave": "x1"', self.read("y.json"))
        self.assertIn("no 18 UnknownHold", self.draw(*words, "--before", "late")[2])

    def test_a_command_that_is_refused(self) -> None:
        for line, said in (
            ("stim q 10 1", "1 UnknownNet: `q`: no net has this name"),
            ("stim A 10 1", "1 UnknownNet: `A`: no net has this name; there is a"),
            ("commit", "19 NoBatch: there is no batch to end"),
        ):
            self.write("commands", f"stim a 0 0\n\n{line}\n")
            self.assertEqual(self.draw("m.v", "commands"), (1, "", f"gatebench draw: commands:3: expected ok, got no {said}\n"))

    def test_what_can_t_be_drawn(self) -> None:
        wrong = {
            ("m.v", "--nets", "z"): "no net is named z",
            ("m.v", "--nets", "yy"): "no net is named yy; there is y",
            ("m.v", "--from", "9", "--to", "8"): "9 to 8 is not within 0 to 1000, the horizon",
            ("m.v", "--to", "1001"): "0 to 1001 is not within 0 to 1000, the horizon",
            ("m.v", "nobody"): "[Errno 2] No such file or directory: 'nobody'",
            ("commands",): "commands:1:1: 2 Syntax at `stim`: the word can't stand there, or a `;` is missing before it\n"
            "  stim a 0 0\n  ^^^^",
        }
        for words, said in wrong.items():
            self.assertEqual(self.draw(*words), (1, "", f"gatebench draw: {said}\n"))

    def test_nobody_reads_what_is_printed(self) -> None:
        environment = {**os.environ, "PYTHONPATH": os.path.join(ROOT, "python")}
        reader, writer = os.pipe()
        os.close(reader)
        words = [sys.executable, "-m", "gatebench", "draw", "m.v"]
        ran = subprocess.run(words, cwd=self.folder, env=environment, stdout=writer, stderr=subprocess.PIPE, text=True, timeout=60)
        os.close(writer)
        self.assertEqual((ran.returncode, ran.stderr), (141, ""))


class Words(unittest.TestCase):
    def test_without_words_it_says_what_there_is(self) -> None:
        environment = {**os.environ, "PYTHONPATH": os.path.join(ROOT, "python")}
        ran = subprocess.run([sys.executable, "-m", "gatebench"], env=environment, capture_output=True, text=True, timeout=60)
        self.assertEqual((ran.returncode, ran.stdout), (2, ""))
        for task in ("check", "draw", "faults", "sweep", "view", "import"):
            self.assertRegex(ran.stderr, rf"(?m)^ +{task} +[a-z]")
