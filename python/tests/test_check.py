"""`python -m gatebench check`: what it prints, its status, its report."""
import os
import subprocess
import sys
import xml.etree.ElementTree as ElementTree
from typing import Tuple

from gatebench.causes import COMMANDS
from gatebench.check import EXPLAINED

from .support import EXAMPLES, INVERTER, ROOT, WithFolder

WELL = """\
design m.v --horizon 20
stim a 0 0
stim a 10 1
expect y 1 x
expect-wave y 0 x 2 1 13 0
expect-refused 11 value y 21
expect-refused UnknownGate drop h
hold k
delay g 1 1
at k expect y 12 1
expect y 12 0
quit
"""


class Checks(WithFolder):
    def setUp(self) -> None:
        super().setUp()
        self.write("m.v", INVERTER)

    def run_check(self, *words: str) -> Tuple[int, str, str]:
        """The status of a check in the folder, what it printed, and what it said on standard error."""
        environment = {**os.environ, "PYTHONPATH": os.path.join(ROOT, "python")}
        ran = subprocess.run(
            [sys.executable, "-m", "gatebench", "check", *words],
            cwd=self.folder, env=environment, capture_output=True, text=True, timeout=60,
        )  # fmt: skip
        return ran.returncode, ran.stdout, ran.stderr

    def failures(self, text: str) -> "list[str]":
        """What a file with this text, behind the line of the design, has for its failures."""
        self.write("commands", "design m.v --horizon 20\n" + text)
        status, printed, _ = self.run_check("commands")
        lines = printed.splitlines()
        self.assertEqual((status != 0, lines[-1].rpartition(", ")[2]), (len(lines) > 1, f"failures: {len(lines) - 1}"))
        self.status = status
        return lines[:-1]

    def test_a_file_that_is_met(self) -> None:
        self.write("well", WELL)
        self.assertEqual(self.run_check("well"), (0, "files: 1, commands: 10, expectations: 6, failures: 0\n", ""))

    def test_a_value_that_is_another(self) -> None:
        self.assertEqual(self.failures("stim a 0 0\nexpect y 2 0\nexpect y 1 x\n"), ["commands:3: expected 0, got 1"])

    def test_a_wave_that_is_another(self) -> None:
        self.assertEqual(
            self.failures("stim a 0 0\n\nexpect-wave y 0 x 3 1\n"), ["commands:4: expected 0 x 3 1, got 0 x 2 1"]
        )

    def test_a_pulse_that_is_too_short(self) -> None:
        text = "stim a 0 0\nstim a 10 1\nexpect-no-pulse y 11\nhold k\nstim a 14 0\nexpect-no-pulse y 4\nat k expect-no-pulse y 11\nexpect-no-pulse y 3\n"
        self.assertEqual(self.failures(text), ["commands:7: expected no pulse shorter than 4, got 0 from 13 to 16"])
        [failure] = self.failures("expect-no-pulse q 4\n")
        self.assertEqual(failure, "commands:2: expected no pulse shorter than 4, got no 1 UnknownNet: `q`: no net has this name")

    def test_files_that_run_at_one_time_are_reported_in_order(self) -> None:
        names = [f"c{place}" for place in range(6)]
        for place, name in enumerate(names):
            self.write(name, f"design m.v --horizon 20\nstim a 0 0\nexpect y 2 {place % 2}\n")
        status, printed, said = self.run_check("-j", "3", *names)
        wanted = [f"c{place}:3: expected 0, got 1" for place in (0, 2, 4)] + ["files: 6, commands: 12, expectations: 6, failures: 3"]
        self.assertEqual((status, printed.splitlines(), said), (1, wanted, ""))

    def test_refusals_that_nobody_wants(self) -> None:
        self.assertEqual(
            self.failures("wave\nstim q 0 1\nexpect q 0 1\n"),
            [
                f"commands:2: expected ok, got no 16 BadCommand: {COMMANDS[16][1]}; it is `wave N`",
                "commands:3: expected ok, got no 1 UnknownNet: `q`: no net has this name",
                "commands:4: expected 1, got no 1 UnknownNet: `q`: no net has this name",
            ],
        )

    def test_names_like_one_that_is_not_there(self) -> None:
        # Each is looked for in the version that was asked.
        self.assertEqual(
            self.failures("net ready wire\nexpect redy 0 z\ndropnet ready\nexpect redy 0 z\nbegin\nnet reset wire\ndrop gg\ncommit\nexpect-refused 1 drop gg\nat kk wave y\n"),
            [
                "commands:3: expected z, got no 1 UnknownNet: `redy`: no net has this name; there is ready",
                "commands:5: expected z, got no 1 UnknownNet: `redy`: no net has this name",
                "commands:9: expected ok, got no 2 UnknownGate for line 8: drop gg: `gg`: no gate has this name; there is g",
                "commands:10: expected no 1, got no 2 UnknownGate: `gg`: no gate has this name; there is g",
                "commands:11: expected ok, got no 18 UnknownHold: `kk`: no version is held under this name",
            ],
        )

    def test_many_refusals(self) -> None:
        failures = self.failures("wave q\n" * (EXPLAINED + 2))
        self.assertEqual([it.endswith("UnknownNet") for it in failures], [False] * EXPLAINED + [True] * 2)

    def test_a_refusal_that_does_not_come(self) -> None:
        self.assertEqual(self.failures("expect-refused 1 wave y\n"), ["commands:2: expected no 1, got 0 x"])

    def test_a_refused_commit_names_the_line_at_fault(self) -> None:
        text = "delay g 5 5\nbegin\nstim a 0 1\n# comment\nvalue y 0\ndrop h\nstim a 5 0\ncommit\nexpect y 5 x\n"
        self.assertEqual(
            self.failures(text), ["commands:9: expected ok, got no 2 UnknownGate for line 7: drop h: `h`: no gate has this name"]
        )

    def test_a_begin_that_is_refused_begins_no_batch(self) -> None:
        self.assertEqual(
            self.failures("begin\ndrop h\nexpect-refused InBatch begin\nbegin\nstim a 5 0\ncommit\n"),
            [
                "commands:5: expected ok, got no 20 InBatch: there is a batch already",
                "commands:7: expected ok, got no 2 UnknownGate for line 3: drop h: `h`: no gate has this name",
            ],
        )

    def test_a_commit_without_a_batch_names_no_line(self) -> None:
        self.assertEqual(self.failures("stim a 0 1\ncommit\n"), ["commands:3: expected ok, got no 19 NoBatch: there is no batch to end"])

    def test_a_line_that_can_t_be_read(self) -> None:
        self.assertEqual(
            self.failures("expect y 2\n"), ["commands:2: expected expect NET T VALUE, got expect y 2"]
        )

    def test_a_design_that_is_refused(self) -> None:
        self.write("m.v", "module m;\nreg q;\nendmodule")
        [failure] = self.failures("wave y\n")
        self.assertEqual((self.status, failure), (3, "commands: m.v:2:1: 3 Unsupported at `reg`: `python3 -m gatebench import` with `--synthesize`"))

    def test_a_design_that_is_not_there(self) -> None:
        os.remove(os.path.join(self.folder, "m.v"))
        [failure] = self.failures("wave y\n")
        self.assertEqual((self.status, failure), (3, "commands: m.v can't be read: No such file or directory"))

    def test_files_that_are_not_there(self) -> None:
        self.write("well", WELL)
        status, printed, _ = self.run_check("nobody", "well")
        self.assertEqual(status, 3)
        self.assertEqual(
            printed.splitlines(),
            ["nobody: can't be read: No such file or directory", "files: 2, commands: 10, expectations: 6, failures: 1"],
        )

    def test_a_file_without_a_design_takes_that_of_the_command_line(self) -> None:
        self.write("commands", "stim a 0 0\nexpect y 2 1\nexpect-refused 11 value y 6\n")
        self.assertEqual(self.run_check("commands", "--design", "m.v", "--horizon", "5")[0], 0)
        self.write("well", WELL)
        self.assertEqual(self.run_check("well", "--design", "nobody", "--horizon", "5")[0], 0)
        status, printed, _ = self.run_check("commands")
        self.assertEqual(status, 3)
        self.assertIn("commands: has no line 'design FILE'", printed)

    def test_a_program_that_dies_is_told_with_the_line(self) -> None:
        program = self.stand_in("answer(1)\nanswer(1)\nanswer(1, b'0\\nok 1\\n')\nsys.stderr.write('gone')\nsys.exit(3)")
        self.write("commands", "design m.v\nstim a 0 1\nexpect y 2 1\nstim a 9 0\nexpect y 9 1\n")
        status, printed, _ = self.run_check("commands", "--program", program)
        self.assertEqual(status, 4)
        self.assertEqual(
            printed.splitlines()[:2],
            ["commands:3: expected 1, got 0", "commands:4: the program ended with status 3: gone"],
        )

    def test_a_program_that_can_t_be_opened_is_told_of_the_file(self) -> None:
        program = self.stand_in("sys.stderr.write('read failed\\n')\nsys.exit(3)")
        self.write("commands", "design m.v\n\nstim a 0 1\n")
        causes = {
            program: "the program ended with status 3: read failed",
            "no-program": "no-program can't be started: No such file or directory",
        }
        for path, said in causes.items():
            status, printed, _ = self.run_check("commands", "--program", path)
            self.assertEqual((status, printed.splitlines()[0]), (4, f"commands: {said}"))

    def test_the_report_for_ci_systems(self) -> None:
        self.write("well", WELL)
        self.write("bad", "design m.v\nexpect y 0 1\nexpect y 0 x\ndrop <h>\n")
        status, _, _ = self.run_check("well", "bad", "nobody", "--junit", "report.xml")
        self.assertEqual(status, 3)
        suites = ElementTree.parse(os.path.join(self.folder, "report.xml")).getroot().findall("testsuite")
        counts = [[suite.get(it) for it in ("name", "tests", "failures", "errors")] for suite in suites]
        self.assertEqual(counts, [["well", "6", "0", "0"], ["bad", "3", "2", "0"], ["nobody", "1", "0", "1"]])
        for suite in suites:
            self.assertEqual(len(suite.findall("testcase")), int(str(suite.get("tests"))))
        failures = [str(it.text) for it in suites[1].iter("failure")]
        self.assertEqual(
            failures, ["bad:2: expected 1, got x", "bad:4: expected ok, got no 2 UnknownGate: `<h>`: no gate has this name"]
        )
        last = suites[1].findall("testcase")[2]
        self.assertEqual([last.get(it) for it in ("name", "file", "line")], ["line 4: drop <h>", "bad", "4"])
        self.assertGreater(float(str(suites[0].get("time"))), 0)

    def test_wrong_words_have_status_2(self) -> None:
        for words in ((), ("--junit",), ("a", "--wibble"), ("a", "-j", "0")):
            status, _, said = self.run_check(*words)
            self.assertEqual(status, 2)
            self.assertIn("usage:", said)

    def test_the_expectations_of_the_examples(self) -> None:
        for example in ("glitch", "bus"):
            status, printed, _ = self.run_check(os.path.join(EXAMPLES, example, "expectations"))
            self.assertEqual(status, 0, printed)
