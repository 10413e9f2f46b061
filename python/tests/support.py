"""What the tests share: designs, and programs that stand in for gatebench."""
import os
import subprocess
import sys
import tempfile
import textwrap
import unittest
from typing import Optional

from gatebench import program_path

ROOT = os.path.dirname(os.path.dirname(os.path.dirname(os.path.abspath(__file__))))
EXAMPLES = os.path.join(ROOT, "docs", "examples")

# An inverter that takes 2 time units to rise and 3 to fall.
INVERTER = "module m(input a, output y);\n  not #(2,3) g(y, a);\nendmodule\n"


def first_python_with(module: str) -> Optional[str]:
    """A Python that has a module: this one, or that of the system."""
    for python in (sys.executable, "/usr/bin/python3"):
        try:
            if not subprocess.run([python, "-c", f"import {module}"], capture_output=True, timeout=60).returncode:
                return python
        except OSError:
            pass
    return None


class WithFolder(unittest.TestCase):
    """A test with a folder of its own."""

    def setUp(self) -> None:
        room = tempfile.TemporaryDirectory()
        self.addCleanup(room.cleanup)
        self.folder = room.name

    def write(self, name: str, text: str) -> str:
        """A file of the folder with this text; its path."""
        path = os.path.join(self.folder, name)
        with open(path, "w", encoding="utf-8", newline="\n") as file:
            file.write(textwrap.dedent(text))
        return path

    def read(self, name: str) -> str:
        with open(os.path.join(self.folder, name), encoding="utf-8") as file:
            return file.read()

    def without_tools(self) -> str:
        """A program that starts the one which is tested under its own name, by which it does not know the questions of tools."""
        link = os.path.join(self.folder, "gatebench")
        os.symlink(os.path.abspath(program_path()), link)
        path = self.write("without-tools", f"#!/bin/sh\nexec '{link}' \"$@\"\n")
        os.chmod(path, 0o755)
        return path

    def stand_in(self, body: str) -> str:
        """A program in gatebench's place. `body` may use `answer(line)`, which gives a first command line its reply, and
        the streams `commands` and `replies`."""
        path = self.write("stand-in", f"#!{sys.executable}\n" + STAND_IN + textwrap.dedent(body))
        os.chmod(path, 0o755)
        return path


STAND_IN = """
import os, sys, time
commands, replies = sys.stdin.buffer, sys.stdout.buffer
def answer(count=1, reply=b"ok 0\\n"):
    for _ in range(count):
        commands.readline()
        replies.write(reply)
        replies.flush()
"""
