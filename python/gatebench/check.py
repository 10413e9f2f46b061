"""Runs files of commands, and says where a reply is not the one that is expected."""
import time
from concurrent.futures import ThreadPoolExecutor
from enum import IntEnum
from typing import Callable, Dict, Iterator, List, NamedTuple, Optional, Sequence, Tuple

from .causes import without_fault
from .errors import DesignRefused, GatebenchError, NoReply
from .refusal import NO_EDIT, place_at_fault
from .replies import Reply
from .script import BadLine, Opening, Script, Step, read_script
from .session import Session


# Of how many refusals of a file it is said what they mean: where its design is another one, each line may be refused.
EXPLAINED = 50


class Failure(NamedTuple):
    """What is wrong at a line; the number is 0 where it is wrong with the file as a whole."""

    number: int
    message: str


class Outcome(IntEnum):
    """What came of files, the worst last; the numbers are the statuses of the command."""

    MET = 0
    NOT_MET = 1
    # A file, or its design, can't be read, or is none.
    BAD_FILE = 3
    # There is no program, or it ended before it had answered.
    NO_PROGRAM = 4


class Case(NamedTuple):
    """An expectation, or a command that failed: its line, and its failure or None."""

    number: int
    text: str
    failure: Optional[Failure]


class Report(NamedTuple):
    """What came of a file: its steps, and its cases in order. `error` is why it could not be run to its end, and `cause` what
    that was. `seconds` is how long it took."""

    path: str
    steps: List[Step]
    cases: List[Case]
    error: Optional[Failure] = None
    cause: Outcome = Outcome.MET
    seconds: float = 0.0

    @property
    def outcome(self) -> Outcome:
        return self.cause or (Outcome.NOT_MET if self.failures() else Outcome.MET)

    @property
    def expectations(self) -> int:
        return sum(it.is_expectation for it in self.steps)

    def failures(self) -> List[Failure]:
        found = [it.failure for it in self.cases if it.failure is not None]
        return found if self.error is None else [*found, self.error]

    def lines(self) -> Iterator[str]:
        """A line for each failure."""
        for number, message in self.failures():
            yield f"{self.path}:{number}: {message}" if number else f"{self.path}: {message}"


def check_file(path: str, default: Opening, program: Optional[str], timeout: Optional[float]) -> Report:
    """Runs a file. `default` opens its session where the file does not say how, with an empty design for none."""
    since = time.monotonic()
    report = report_of(path, default, program, timeout)
    return report._replace(seconds=time.monotonic() - since)


def check_files(
    paths: Sequence[str], default: Opening, program: Optional[str], timeout: Optional[float], jobs: int
) -> Iterator[Report]:
    """Runs files, so many at one time; their reports come in the order of the files."""
    with ThreadPoolExecutor(jobs) as pool:
        yield from pool.map(lambda path: check_file(path, default, program, timeout), paths)


def report_of(path: str, default: Opening, program: Optional[str], timeout: Optional[float]) -> Report:
    try:
        script = read_script(path)
    except BadLine as bad:
        return bad_file(path, bad.number, f"expected {bad.wanted}, got {bad.line.strip()}")
    except OSError as error:
        return bad_file(path, 0, f"can't be read: {error.strerror}")
    opening = script.opening or default
    if not opening.design:
        return bad_file(path, 0, "has no line 'design FILE', and no --design was given")
    return run_script(path, script, opening, program, timeout)


def bad_file(path: str, number: int, message: str) -> Report:
    return Report(path, [], [], Failure(number, message), Outcome.BAD_FILE)


def run_script(path: str, script: Script, opening: Opening, program: Optional[str], timeout: Optional[float]) -> Report:
    steps = script.steps

    def open_session() -> Session:
        return Session(
            opening.design, horizon=opening.horizon, delay=opening.delay, program=program, timeout=timeout
        )

    try:
        with open_session() as session:
            replies, error = answers(session, steps)
    except OSError as failure:
        return bad_file(path, 0, f"{opening.design} can't be read: {failure.strerror}")
    except DesignRefused as failure:
        # A failure is one line: what follows shows the line of the design.
        return bad_file(path, 0, str(failure).split("\n")[0])
    except GatebenchError as failure:
        return Report(path, steps, [], Failure(0, str(failure)), Outcome.NO_PROGRAM)
    cause = Outcome.MET if error is None else Outcome.NO_PROGRAM
    return Report(path, steps, list(cases_of(steps, replies, open_session)), error, cause)


def answers(session: Session, steps: List[Step]) -> Tuple[List[Reply], Optional[Failure]]:
    """The replies to the steps; where the program does not give all of them, also why, at the line that it stopped at."""
    try:
        return session.ask([it.line for it in steps]), None
    except NoReply as failure:
        return failure.replies, Failure(steps[min(len(failure.replies), len(steps) - 1)].number, str(failure))


def cases_of(steps: List[Step], replies: List[Reply], open_session: Callable[[], Session]) -> Iterator[Case]:
    """The expectations, met or not, and the commands that were refused. `open_session` gives a session for a second look."""
    meanings = meanings_of(steps, replies, open_session)
    for place, (step, reply) in enumerate(zip(steps, replies)):
        if not step.is_met(reply):
            wrong = f"expected {step.wanted()}, got {step.got(reply)}"
            if without_fault(step.line) == ["commit"] and not reply.is_ok:
                wrong += edit_at_fault(steps, replies, place, open_session)
            yield Case(step.number, step.text, Failure(step.number, wrong + meanings.get(place, "")))
        elif step.is_expectation:
            yield Case(step.number, step.text, None)


def meanings_of(steps: List[Step], replies: List[Reply], open_session: Callable[[], Session]) -> Dict[int, str]:
    """What refusals mean that nobody wants, by the places of their steps, with names like those that nothing has. A second session
    carries out the steps before each, since names come and go."""
    found: Dict[int, str] = {}
    places = [it for it, (step, reply) in enumerate(zip(steps, replies)) if not (reply.is_ok or step.is_met(reply))][:EXPLAINED]
    if not places:
        return found
    try:
        with open_session() as session:
            for begin, place in zip([0, *places], places):
                session.ask([it.line for it in steps[begin:place]])
                found[place] = session.refused(steps[place].line, replies[place]).means()
    except GatebenchError:
        # What the refusals are is said without it.
        pass
    return found


def edit_at_fault(
    steps: List[Step], replies: List[Reply], place: int, open_session: Callable[[], Session]
) -> str:
    """Which line is at fault for the refused commit at a place, in words. Nothing where that can't be said.

    A second session goes up to the batch; questions in the batch do no harm, since no edit of a trial is carried out."""
    refusal = replies[place]
    begins = [it for it in range(place) if without_fault(steps[it].line) == ["begin"] and replies[it].is_ok]
    if refusal.code in NO_EDIT or not begins or begins[-1] + 1 == place:
        return ""
    batch = steps[begins[-1] + 1 : place]
    try:
        with open_session() as session:
            session.ask([it.line for it in steps[: begins[-1]]])
            fault = batch[place_at_fault(session.ask, [it.line for it in batch], refusal)]
    except GatebenchError:
        return ""
    return f" for line {fault.number}: {fault.line}"
