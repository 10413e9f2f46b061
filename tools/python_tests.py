"""Runs tests that are written in Python, over built programs."""
import os
import signal
import sys
import unittest

from workspace import fail

# What the environment may say of how Python, pytest and others print and what they load: no test is about it.
SETTINGS = (
    "CLICOLOR_FORCE", "COLUMNS", "FORCE_COLOR", "LINES", "PYTEST_ADDOPTS", "PYTEST_PLUGINS", "PYTHONDEVMODE", "PYTHONIOENCODING",
    "PYTHONOPTIMIZE", "PYTHONSAFEPATH", "PYTHONUTF8", "PYTHONWARNINGS",
)  # fmt: skip


def find_program(path, variable):
    """Names a built program to the tests by a variable of the environment."""
    path = os.path.abspath(path)
    if not os.access(path, os.X_OK):
        fail(f"there is no program {path}: `make demo` builds bin/gatebench and bin/gaterace")
    os.environ[variable] = path


def be_usual():
    """Takes back what a machine may have set before the tests began. A shell lets the programs that it starts behind its back
    ignore interrupts, and they hand that on."""
    signal.signal(signal.SIGINT, signal.default_int_handler)
    for name in SETTINGS:
        os.environ.pop(name, None)


def tests_of(name, top):
    """The tests of a folder or of a module below `top`, of a class or one alone."""
    loader, folder = unittest.defaultTestLoader, os.path.join(top, *name.split("."))
    return loader.discover(folder, top_level_dir=top) if os.path.isdir(folder) else loader.loadTestsFromName(name)


def run(top, folder, names):
    """Runs the tests with these names, or else all those of the folder."""
    be_usual()
    sys.path.insert(0, top)
    discover = unittest.defaultTestLoader.discover
    tests = unittest.TestSuite([tests_of(name, top) for name in names]) if names else discover(folder, top_level_dir=top)
    if not tests.countTestCases():
        fail("there is no test")
    ran = unittest.TextTestRunner(stream=sys.stdout, verbosity=1).run(tests)
    for test, reason in ran.skipped:
        print(f"skipped: {test.id()}: {reason}")
    for test, _ in ran.failures + ran.errors:
        print(f"failed: {test.id()}")
    sys.exit(0 if ran.wasSuccessful() else 1)
