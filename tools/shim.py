"""Runs of a built program under tools/refuse.c, which refuses allocations and lets reads and writes fail."""
import os
import shutil
import subprocess
import sys
from typing import Any, NamedTuple, Union

from workspace import ROOT

SECONDS = 300


class Ended(NamedTuple):
    """How a run ended: its status, a text where it did not end by itself; what it printed, and what it said."""

    status: Union[int, str]
    printed: bytes
    said: bytes


class Counts(NamedTuple):
    """What a run asked for: allocations, and reads and writes."""

    allocations: int
    moves: int


def compiled(folder):
    """The library, in this folder, or none where there is no C compiler."""
    compiler = shutil.which("cc")
    if compiler:
        library = os.path.join(folder, "refuse.so")
        source = os.path.join(ROOT, "tools", "refuse.c")
        subprocess.run([compiler, "-O2", "-shared", "-fPIC", source, "-o", library], check=True)
        return library
    return None


class Shim:
    """The library, and a folder for what it counts."""

    def __init__(self, library, room):
        # The program runs in the library's folder, and has its path from there: a blank or a colon would end a name.
        self.folder, name = os.path.split(library)
        self.library, self.counts_file = os.path.join(os.curdir, name), os.path.join(room, "counts")

    def run(self, words, faults=None, **streams: Any):
        """A run of a program; `faults` has variables of the library, such as REFUSE, with their texts."""
        loaded = {**os.environ, "LD_PRELOAD": self.library, "COUNTS": self.counts_file, **(faults or {})}
        pipes = {"stdout": subprocess.PIPE, "stderr": subprocess.PIPE}
        try:
            ran = subprocess.run(words, cwd=self.folder, timeout=SECONDS, env=loaded, **pipes, **streams)
        except subprocess.TimeoutExpired:
            return Ended("no end", b"", b"")
        return Ended(ran.returncode if ran.returncode >= 0 else f"signal {-ran.returncode}", ran.stdout, ran.stderr)

    def counts(self):
        """What the last run asked for."""
        with open(self.counts_file, "rb") as file:
            bytes_of = file.read()
        return Counts(*(int.from_bytes(bytes_of[place:place + 8], sys.byteorder) for place in (0, 8)))


def numbers_of(count, limit=None):
    """1 to `count`; with a limit about so many of them, spread over all."""
    step = max(1, -(-count // limit)) if limit else 1
    return range(1, count + 1, step)
