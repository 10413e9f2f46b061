"""tools/try: what it prints, and the program that it leaves. The program stands in for the toolchain's unproved build."""
import os
import shutil
import subprocess
import unittest
from typing import Optional

from .support import WithProgram

ROOT = os.path.dirname(os.path.dirname(os.path.abspath(__file__)))
# Where the toolchain would build a program among its temporary files and run it, it is copied there.
RT = """#!/bin/sh
shift 2
mkdir "$TMPDIR/inside"
cp '{program}' "$TMPDIR/inside/built"
exec "$TMPDIR/inside/built" "$@"
"""
# What it leaves in bin/.
LEFT = "gatebench gatebench-unproved gatetool"


class Tries(WithProgram):
    variable = "GATEBENCH"

    def setUp(self) -> None:
        super().setUp()
        self.use(self.program)
        os.makedirs(self.path("crates", "app"))
        os.mkdir(self.path("tools"))
        for tool in ("try", "unproved.py", "workspace.py", "install"):
            shutil.copy(os.path.join(ROOT, "tools", tool), self.path("tools", tool))
        shutil.copytree(os.path.join(ROOT, "docs", "examples", "first"), self.path("docs", "examples", "first"))

    def path(self, *parts: str) -> str:
        return os.path.join(self.folder, *parts)

    def use(self, program: str) -> None:
        """Makes a program the one that the toolchain builds."""
        os.chmod(self.path(self.write("rt", RT.format(program=program))), 0o755)

    def says(self, *words: str, given: str = "", status: int = 0) -> "subprocess.CompletedProcess[str]":
        environment = {**os.environ, "PATH": f"{self.folder}:{os.environ['PATH']}"}
        ran = subprocess.run(
            [self.path(words[0]), *words[1:]], cwd=self.folder, env=environment, input=given, capture_output=True, text=True, timeout=60
        )
        self.assertEqual(ran.returncode, status, ran.stdout + ran.stderr)
        return ran

    def left(self) -> Optional[str]:
        """What stands in bin/, nothing where there is no such folder."""
        return " ".join(sorted(os.listdir(self.path("bin")))) if os.path.isdir(self.path("bin")) else None

    def test_a_program_is_left_that_says_it_is_unproved(self) -> None:
        self.assertIn("bin/gatebench is this UNPROVED build", self.says("tools/try").stdout)
        self.assertEqual(self.left(), LEFT)
        self.write("m.v", "module m(input a, output y); buf #3 (y, a); endmodule\n")
        for name, inputs in (("bin/gatebench", "no 16 BadCommand"), ("bin/gatetool", "a wire\nok 1")):
            ran = self.says(name, "m.v", "--horizon", "9", given="stim a 0 1\nwave y\ninputs\n")
            self.assertEqual(ran.stdout, f"ok 1\n0 x\n3 1\nok 1\n{inputs}\n")
            self.assertRegex(ran.stderr, "^gatebench: UNPROVED, .*\n$")

    def test_it_is_not_installed(self) -> None:
        self.says("tools/try")
        self.assertIn("unproved", self.says("tools/install", self.path("prefix"), status=1).stderr)

    def test_files_of_ones_own(self) -> None:
        self.write("m.v", "module m(input a, output y); buf (y, a); endmodule\n")
        self.write("commands", "stim a 0 1\n# nothing\nwave y\n")
        printed = self.says("tools/try", "m.v", "commands", "--delay", "4").stdout
        self.assertIn("    stim a 0 1                ok 1\n    # nothing\n    wave y                    0 x\n", printed)
        self.assertEqual(self.left(), LEFT)

    def test_a_proved_program_stays(self) -> None:
        os.mkdir(self.path("bin"))
        shutil.copy(self.program, self.path("bin", "gatebench"))
        self.assertIn("was left as it is", self.says("tools/try").stdout)
        self.assertEqual(self.left(), "gatebench")

    def test_what_can_not_be_kept(self) -> None:
        # The toolchain has its temporary files elsewhere.
        self.write("rt", f"#!/bin/sh\nshift 2\nexec '{self.program}' \"$@\"\n")
        self.assertIn("could not be kept", self.says("tools/try").stdout)
        self.assertIn(self.left(), (None, ""))

    def test_a_design_that_is_refused(self) -> None:
        self.write("m.v", "module m; reg q; endmodule\n")
        self.write("commands", "wave q\n")
        self.assertIn("line 1: 3 Unsupported", self.says("tools/try", "m.v", "commands", status=1).stderr)

    def test_wrong_words(self) -> None:
        self.write("commands", "wave q\n")
        self.assertIn("no.v: No such file", self.says("tools/try", "no.v", "commands", status=1).stderr)
        self.assertIn("DESIGN COMMANDS", self.says("tools/try", "--help", status=1).stderr)
        self.write("m.v", "module m; endmodule\n")
        self.assertIn("--horizn", self.says("tools/try", "m.v", "commands", "--horizn", "3", status=1).stderr)


if __name__ == "__main__":
    unittest.main()
