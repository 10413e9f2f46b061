"""The plugin of pytest (7 or later): the fixture `gatebench`, files of expectations as tests, and waves in reports.

Installed with the package it is found by itself; else `-p gatebench.pytest_plugin` loads it. The files of expectations are
`*.gatebench`, or those that the ini option `gatebench_files` names."""
from contextlib import ExitStack
from fnmatch import fnmatch
from typing import Any, Callable, Iterator, List, Optional, Union

import pytest

from .check import Failure, Report, check_file
from .errors import GatebenchError
from .failing import difference_lines, drawing_of
from .script import BadLine, Opening, Script, Step, read_script
from .session import TIMEOUT, Session
from .wave import Wave

FILES = "gatebench_files"
NO_DESIGN = Opening("")


@pytest.fixture
def gatebench() -> Iterator[Callable[..., Session]]:
    """Opens sessions, as Session does, which are ended at the test's end: `session = gatebench("m.v", horizon=40)`."""
    with ExitStack() as stack:

        def open_session(*words: Any, **options: Any) -> Session:
            session = Session(*words, **options)
            stack.callback(session.kill)
            return session

        yield open_session


def pytest_addoption(parser: pytest.Parser) -> None:
    parser.addini(FILES, "patterns of files of commands with what they expect", type="args", default=["*.gatebench"])


def pytest_collect_file(file_path: Any, parent: pytest.Collector) -> Optional[pytest.File]:
    if any(fnmatch(file_path.name, it) for it in parent.config.getini(FILES)):
        found: pytest.File = ExpectationFile.from_parent(parent, path=file_path)
        return found
    return None


def pytest_assertrepr_compare(op: str, left: object, right: object) -> Optional[List[str]]:
    """Draws two waves that are not equal."""
    if op == "==" and isinstance(left, Wave) and isinstance(right, Wave):
        return difference_lines(left, right)
    return None


class NotMet(Exception):
    """What is wrong at a line of a file, with a drawing or none."""

    def __init__(self, where: str, failure: Failure, drawing: str) -> None:
        super().__init__(f"{where}: {failure.message}" + (f"\n\n{drawing}" if drawing else ""))


class ExpectationFile(pytest.File):
    """A file of commands: a test for its commands, and one for each expectation."""

    script: Script
    found: Optional[Report] = None

    def collect(self) -> "Iterator[Union[Commands, Expectation]]":
        try:
            self.script = read_script(str(self.path))
        except BadLine as bad:
            raise self.CollectError(f"{self.path}:{bad.number}: expected {bad.wanted}, got {bad.line.strip()}") from None
        yield Commands.from_parent(self, name="commands")
        for step in self.script.steps:
            if step.is_expectation:
                yield Expectation.from_parent(self, name=f"{step.number}: {step.text.strip()}", step=step)

    def report(self) -> Report:
        """What came of the file, which is run once."""
        if self.found is None:
            self.found = check_file(str(self.path), NO_DESIGN, None, TIMEOUT)
        return self.found


class Line(pytest.Item):
    """A test of a file."""

    parent: ExpectationFile
    number = 0

    def fail(self, failure: Failure, drawing: str = "") -> None:
        where = f"{self.path}:{failure.number}" if failure.number else str(self.path)
        raise NotMet(where, failure, drawing)

    def repr_failure(self, excinfo: Any, style: Any = None) -> Any:
        return str(excinfo.value) if isinstance(excinfo.value, NotMet) else super().repr_failure(excinfo, style)

    def reportinfo(self) -> Any:
        return self.path, max(0, self.number - 1), self.name


class Commands(Line):
    """All commands of a file are carried out."""

    def runtest(self) -> None:
        report = self.parent.report()
        expected = {it.number for it in report.steps if it.is_expectation}
        for failure in report.failures():
            if failure.number not in expected:
                self.fail(failure)


class Expectation(Line):
    """What a line expects."""

    def __init__(self, *, step: Step, **options: Any) -> None:
        super().__init__(**options)
        self.step, self.number = step, step.number

    def runtest(self) -> None:
        report = self.parent.report()
        cases = [it for it in report.cases if it.number == self.number]
        if not cases:
            self.fail(Failure(self.number, "was not reached"))
        for case in cases:
            if case.failure is not None:
                self.fail(case.failure, self.drawing())

    def drawing(self) -> str:
        """The wave at fault, empty where there is none, as for a command that was to be refused."""
        if self.step.refusal is not None:
            return ""
        try:
            return drawing_of(self.parent.script, self.step, NO_DESIGN)
        except (GatebenchError, OSError, ValueError):
            return ""
