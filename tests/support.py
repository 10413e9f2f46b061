"""What the tests of the programs share: a folder of their own, and a run of a program with what it printed and said."""
import os
import resource
import subprocess
import tempfile
import unittest
from typing import Any, List, NamedTuple, Sequence, Union

# The longest design text, in bytes.
MAX_TEXT = 4_194_304
# How long a run may take before it counts as one without an end, on a machine with much else to do.
SECONDS = 300


class Ended(NamedTuple):
    """How a run ended: its status, what it printed, and what it said on standard error."""

    status: int
    printed: str
    said: str


class WithProgram(unittest.TestCase):
    """A test in a folder of its own, with the program that the environment names by `variable`."""

    variable = ""

    def setUp(self) -> None:
        self.program = os.environ[self.variable]
        room = tempfile.TemporaryDirectory()
        self.addCleanup(room.cleanup)
        self.folder = room.name

    def write(self, name: str, text: Union[str, bytes]) -> str:
        """A file of the folder with this text; its name."""
        with open(os.path.join(self.folder, name), "wb") as file:
            file.write(text if isinstance(text, bytes) else text.encode())
        return name

    def run_with(self, words: Sequence[Union[str, bytes]], commands: Union[str, bytes] = "", **streams: Any) -> Ended:
        """A run with these words and commands. Each of its three streams may be another one: a file, as `stdout=`."""
        given = {"stdout": subprocess.PIPE, "stderr": subprocess.PIPE, **streams}
        if "stdin" not in given:
            given["input"] = commands if isinstance(commands, bytes) else commands.encode()
        ran = subprocess.run([self.program, *words], cwd=self.folder, timeout=SECONDS, **given)
        return Ended(ran.returncode, (ran.stdout or b"").decode(), (ran.stderr or b"").decode())

    def run_within(self, memory: int, words: List[Union[str, bytes]], commands: str = "") -> Ended:
        """A run that may have so many bytes of memory."""

        def limit() -> None:
            resource.setrlimit(resource.RLIMIT_AS, (memory, memory))

        return self.run_with(words, commands, preexec_fn=limit)

    def help_text(self) -> str:
        """What the program says of its use."""
        return self.run_with(["--help"]).said

    def check_refused_words(self, words: List[Union[str, bytes]], lines: str) -> None:
        """They are refused with these lines on the word at fault, with the help behind them, and fit a screen."""
        ended = self.run_with(words)
        self.assertEqual(ended, Ended(2, "", lines + self.help_text()), words)
        self.assertLessEqual(len(ended.said.splitlines()), 24)
        self.assertLessEqual(max(len(it) for it in ended.said.splitlines()), 80)


class WithTool(WithProgram):
    """A test of gatetool: gatebench, started by its other name. It is asked behind what `given` says."""

    variable = "GATEBENCH"

    def setUp(self) -> None:
        super().setUp()
        self.gatebench = self.program
        self.program = os.path.join(self.folder, "gatetool")
        os.symlink(os.path.abspath(self.gatebench), self.program)

    def as_gatebench(self, words: Sequence[Union[str, bytes]], commands: Union[str, bytes] = "") -> Ended:
        """A run by the program's own name."""
        name, self.program = self.program, self.gatebench
        ended = self.run_with(words, commands)
        self.program = name
        return ended

    def given(self, design: str, *points: str, horizon: int = 40) -> None:
        """A design, with points of its inputs as `N T V` that one commit sets."""
        self.words: List[Union[str, bytes]] = [self.write("m.v", design), "--horizon", str(horizon)]
        self.begun = ["begin", *(f"stim {it}" for it in points), "commit"]
        self.behind = "ok 0\n" * (len(points) + 1) + "ok 1\n"

    def ask(self, *lines: str) -> str:
        """What these lines are answered; the version before them is 1."""
        ended = self.run_with(self.words, "".join(f"{line}\n" for line in (*self.begun, *lines)))
        self.assertEqual((ended.status, ended.said), (0, ""))
        self.assertTrue(ended.printed.startswith(self.behind), ended.printed)
        return ended.printed[len(self.behind) :]

    def check(self, line: str, *answer: str) -> None:
        """The question has this answer, of the present version and of a held one, and behind `fault` too."""
        reply = "".join(f"{said}\n" for said in (*answer, "ok 1"))
        printed = self.ask(line, f"fault {line}", "hold k", "horizon 0", f"at k {line}", f"fault at k {line}")
        self.assertEqual(printed, f"{reply}{reply}ok 1\nok 2\n{reply}{reply}", line)
