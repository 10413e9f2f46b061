"""Folders of examples for gatebench, and how their commands are replied to."""
import argparse
import os
import tempfile
from collections import Counter

from shim import Shim, compiled
from workspace import ROOT, fail

EXAMPLES = os.path.join(ROOT, "docs", "examples")


def contents(*path):
    with open(os.path.join(*path), "rb") as file:
        return file.read()


class Example:
    """A folder: the words behind the program, and the commands."""

    def __init__(self, folder):
        self.name = os.path.relpath(folder, ROOT)
        there = set(os.listdir(folder))
        self.words = [os.path.abspath(os.path.join(folder, "design.v"))]
        if "args" in there:
            self.words += contents(folder, "args").decode().split()
        given = [it for it in ("commands", "stdin") if it in there]
        self.commands = contents(folder, given[0]).splitlines(keepends=True) if given else []


def examples():
    """The folders of docs/examples that run gatebench over a design."""
    for name in sorted(os.listdir(EXAMPLES)):
        folder = os.path.join(EXAMPLES, name)
        if os.path.exists(os.path.join(folder, "design.v")) and not os.path.exists(os.path.join(folder, "program")):
            yield folder


def has_reply(command):
    return bool(command.split()) and not command.lstrip(b" \t").startswith(b"#")


def replies(text):
    """The replies, each with its last line; a piece behind the last one is a reply of its own."""
    reply = b""
    for line in text.splitlines(keepends=True):
        reply += line
        if line.startswith((b"ok ", b"no ")):
            yield reply
            reply = b""
    if reply:
        yield reply


def told(runs, kinds):
    """The numbers of runs in words."""
    return f"{sum(runs.values())} runs (" + ", ".join(f"{runs[it]} {it}" for it in kinds) + ")"


def over_examples(description, kinds, try_example):
    """Reads the command line, tries each example, and says how many runs of which kind there were and what was wrong. Of each
    kind but the last one there has to be a run. `try_example` is given the program, the shim, the example and the limit."""
    parser = argparse.ArgumentParser(description=description, formatter_class=argparse.RawDescriptionHelpFormatter)
    parser.add_argument("program", nargs="?", default=os.path.join(ROOT, "bin", "gatebench"))
    parser.add_argument("folders", nargs="*", metavar="FOLDER")
    parser.add_argument("--limit", type=int, metavar="RUNS")
    given = parser.parse_intermixed_args()
    path = os.path.abspath(given.program)
    if not os.access(path, os.X_OK):
        fail(f"there is no program {path}: `make demo` builds bin/gatebench")
    with tempfile.TemporaryDirectory() as room:
        library = compiled(room)
        if not library:
            print(f"{parser.prog}: skipped, since there is no C compiler cc: nothing was run")
            return
        all_runs, all_wrong = Counter(), 0
        for folder in given.folders or examples():
            example = Example(folder)
            runs, wrong = try_example(path, Shim(library, room), example, given.limit)
            print(f"{example.name}: {told(runs, kinds)}, {len(wrong)} wrong", flush=True)
            print("".join(f"  {it}\n" for it in wrong[:3]), end="")
            all_runs, all_wrong = all_runs + runs, all_wrong + len(wrong)
        print(f"{told(all_runs, kinds)}, {all_wrong} wrong")
        if all_wrong:
            fail(f"{all_wrong} runs went wrong")
        for kind in kinds[:-1]:
            if not all_runs[kind]:
                fail(f"there was no run {kind}")
