"""The plugin of pytest, where a Python here has pytest."""
import os
import re
import subprocess
import unittest
from typing import List

from .support import INVERTER, ROOT, WithFolder, first_python_with

PYTEST = first_python_with("pytest")


@unittest.skipUnless(PYTEST, "no Python here has pytest (Debian: python3-pytest)")
class Plugin(WithFolder):
    def run_pytest(self, *words: str) -> List[str]:
        """The lines that pytest prints over the folder."""
        # Of the plugins that may be installed none has a part in what is printed.
        environment = {**os.environ, "PYTHONPATH": os.path.join(ROOT, "python"), "PYTEST_DISABLE_PLUGIN_AUTOLOAD": "1"}
        ran = subprocess.run(
            [str(PYTEST), "-m", "pytest", "-p", "gatebench.pytest_plugin", "-p", "no:cacheprovider", "--color=no", *words],
            cwd=self.folder,
            env=environment,
            capture_output=True,
            text=True,
            timeout=300,
        )
        self.assertEqual(ran.stderr, "")
        return ran.stdout.splitlines()

    def test_the_fixture_ends_its_sessions_and_waves_are_drawn(self) -> None:
        self.write("m.v", INVERTER)
        self.write("test_m.py", """
            kept = []
            def test_well(gatebench):
                session = gatebench("m.v", horizon=20)
                kept.append(session)
                session.stim("a", 0, 0)
                assert session.wave("y").at(2) == "1"
            def test_ended():
                assert "ended" in repr(kept[0])
            def test_slower(gatebench):
                session = gatebench("m.v", horizon=20)
                session.stim("a", 0, 0)
                before = session.hold("before")
                session.delay("g", 4, 3)
                assert session.wave("y") == before.wave("y")
        """)  # fmt: skip
        lines = self.run_pytest()
        self.assertIn("1 failed, 2 passed", lines[-1])
        # y rises at 4 with the other delay, and at 2 before.
        [at] = [it for it, line in enumerate(lines) if line.startswith("E ") and "differ from 2 on: x, and 1" in line]
        drawing = [it[1:].strip() for it in lines[at + 2 : at + 6]]
        self.assertEqual(drawing[2:], ["y left   xxxx-----------------", "y right  xx-------------------"])

    def test_files_of_expectations_are_tests(self) -> None:
        self.write("m.v", INVERTER)
        self.write("a.gatebench", """\
            design m.v --horizon 20
            stim a 0 0
            expect y 2 1
            hold early
            stim a 9 1
            expect y 3 0
            at early expect-wave y 0 x 3 1
            expect-no-pulse y 20
            expect-refused UnknownNet stim a 1 1
            drop h
        """)  # fmt: skip
        lines = self.run_pytest("-v")
        results = [found for line in lines if line.startswith("a.gatebench::") for found in re.findall("PASSED|FAILED", line)]
        self.assertEqual(results, ["FAILED", "PASSED", "FAILED", "FAILED", "FAILED", "FAILED"])
        text = "\n".join(lines)
        self.assertIn("a.gatebench:10: expected ok, got no 2 UnknownGate", text)
        self.assertIn("a.gatebench:9: expected no UnknownNet, got ok", text)
        # y rises at 2, and falls at 12.
        self.assertIn("a.gatebench:6: expected 0, got 1\n\nmoment  0         10        20\n", text)
        self.assertIn("\ny       xx----------_________\n", text)
        self.assertIn("\nexpected  xxx------------------\ny         xx-------------------\n", text)

    def test_the_files_may_have_another_pattern_and_be_bad(self) -> None:
        self.write("m.v", INVERTER)
        self.write("pytest.ini", "[pytest]\ngatebench_files = expect_*\n")
        self.write("expect_y", "design m.v\nexpect y 0 x\n")
        self.write("a.gatebench", "expect\n")
        self.assertIn("2 passed", self.run_pytest()[-1])
        self.write("expect_z", "design m.v\nexpect z\n")
        self.assertTrue(any(it.endswith("expect_z:2: expected expect NET T VALUE, got expect z") for it in self.run_pytest()))
        self.write("expect_z", "design none.v\nexpect z 0 1\n")
        text = "\n".join(self.run_pytest())
        self.assertIn("none.v can't be read: No such file or directory", text)
        self.assertIn("expect_z:2: was not reached", text)


if __name__ == "__main__":
    unittest.main()
