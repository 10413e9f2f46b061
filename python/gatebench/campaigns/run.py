"""Runs what-ifs over a design, by any executor of concurrent.futures: each one by itself, so their order and who runs them
change no verdict."""
import os
from concurrent.futures import FIRST_COMPLETED, Executor, Future, wait
from contextlib import closing
from threading import Event, local
from typing import Any, Callable, Dict, Generator, Iterable, Iterator, List, NamedTuple, Optional, Sequence, Tuple

from ..edits import batches
from ..errors import Closed, Refused
from ..lines import line_of
from ..refusal import NO_EDIT
from ..replies import Reply
from ..script import Step
from ..session import TIMEOUT, Session
from ..started import started
from ..values import change_of
from ..wave import Wave
from .judge import REFUSED, Judge, Verdict, Waves
from .what_if import WhatIf

# What-ifs are given away in pieces: so many pieces about at least, so many what-ifs at most. At the end processes wait for the one
# with the last piece, so that a piece has to be small beside what each of them does.
PIECES, MOST = 64, 200
# Set when a process is interrupted that works for another one, or that gives work away: what is still to be done is not done.
interrupted = Event()
# Seconds between two looks for an interrupt.
LOOK = 0.2
# How many pieces are given away before one has to come back: they are in memory until then.
AHEAD = 64


class Bench(NamedTuple):
    """A design with its stimulus, and the nets whose waves are compared. It holds the text and no path, so that it can be sent
    to a machine that has no such file; without `program` each one looks for its own."""

    text: str
    steps: Tuple[Step, ...]
    nets: Tuple[str, ...]
    horizon: Optional[int] = None
    delay: Optional[int] = None
    program: Optional[str] = None
    timeout: Optional[float] = TIMEOUT

    def open(self) -> Session:
        """A session with the stimulus. BadStep where a command is refused."""
        return self.start()[0]

    def start(self) -> Tuple[Session, List[Reply]]:
        """The same, and the replies to the commands."""

        def session() -> Session:
            return Session(text=self.text, horizon=self.horizon, delay=self.delay, program=self.program, timeout=self.timeout)

        return started(session, self.steps)


def bench_of(
    text: str,
    lines: Iterable[str],
    nets: Iterable[str],
    *,
    horizon: Optional[int] = None,
    delay: Optional[int] = None,
    program: Optional[str] = None,
    timeout: Optional[float] = TIMEOUT,
) -> Bench:
    """A design text with the command lines of its stimulus, and the nets that are compared."""
    steps = tuple(Step(number, line, line) for number, line in enumerate(lines, 1))
    return Bench(text, steps, tuple(nets), horizon, delay, program, timeout)


class Runner:
    """Takes one what-if after another: a commit undoes one and makes the next."""

    def __init__(self, bench: Bench, judge: Judge) -> None:
        self.bench, self.judge = bench, judge
        self.questions = [line_of("wave", net) for net in bench.nets]
        self.begin()
        self.good: Waves = self.session.waves(*bench.nets)
        self.replies = [it.lines for it in self.session.ask(self.questions)]

    def begin(self) -> None:
        self.session, self.undo = self.bench.open(), ()  # type: Session, Tuple[str, ...]

    def verdict(self, what_if: WhatIf) -> Verdict:
        commits = [line for some in batches([*self.undo, *what_if.edits]) for line in ("begin", *some, "commit")]
        # All in one block: to write, to wait and to read take Python longer than all else.
        replies = self.session.ask([*commits, *self.questions])
        if not all(it.is_ok for it in replies):
            return self.verdict_alone(what_if)
        self.undo = what_if.undo
        return self.judge(self.good, self.waves(replies[len(commits) :]))

    def verdict_alone(self, what_if: WhatIf) -> Verdict:
        """The verdict of a what-if for which something was refused, in a session of its own: what is said of it does not hang on those
        before it, and of several commits some may have been carried out."""
        self.session.kill()
        self.begin()
        try:
            self.session.edits(what_if.edits)
        except Refused as refused:
            if refused.code in NO_EDIT:
                raise
            self.session.kill()
            self.begin()
            return Verdict(REFUSED, note=str(refused))
        self.undo = what_if.undo
        return self.judge(self.good, self.waves(self.session.ask(self.questions)))

    def waves(self, replies: Iterable[Reply]) -> Waves:
        """The waves that replies to the questions show, read where they are not the good ones."""
        found = {}
        for (net, good), before, reply in zip(self.good.items(), self.replies, replies):
            changed = reply.lines != before
            found[net] = Wave(net, tuple(map(change_of, reply.lines)), good.horizon) if changed else good
        return found

    def verdicts(self, what_ifs: Iterable[WhatIf]) -> Iterator[Verdict]:
        """The verdicts of some what-ifs as they come. Behind an error the session has ended."""
        try:
            for it in what_ifs:
                if interrupted.is_set():
                    raise Closed("the campaign was interrupted")
                yield self.verdict(it)
        except BaseException:
            self.session.kill()
            raise


def verdicts_of(bench: Bench, judge: Judge, what_ifs: Iterable[WhatIf]) -> Iterator[Verdict]:
    """The verdicts of some what-ifs as they come, in a session of their own."""
    runner = Runner(bench, judge)
    try:
        yield from runner.verdicts(what_ifs)
    finally:
        runner.session.kill()


class Kept(local):
    """The runner of the last piece of this thread: its session, with the stimulus carried out, is that of the next piece too. A
    process that was forked has none of another one's."""

    runner: Optional[Runner] = None
    process = 0


kept = Kept()


def run_piece(bench: Bench, judge: Judge, what_ifs: Sequence[WhatIf]) -> List[Verdict]:
    """The verdicts of some what-ifs, for an executor."""
    runner = kept.runner if kept.process == os.getpid() else None
    kept.runner, kept.process = None, os.getpid()
    if runner is None or (runner.bench, runner.judge) != (bench, judge):
        if runner is not None:
            runner.session.kill()
        runner = Runner(bench, judge)
    verdicts = list(runner.verdicts(what_ifs))
    kept.runner = runner
    return verdicts


def run(
    bench: Bench,
    what_ifs: Sequence[WhatIf],
    judge: Judge,
    executor: Optional[Executor] = None,
    done: Sequence[int] = (),
) -> Iterator[Tuple[int, Verdict]]:
    """The place and the verdict of each what-if but those that are done, as they come. Without an executor they run here."""
    left = sorted(set(range(len(what_ifs))) - set(done))
    if executor is None:
        yield from zip(left, verdicts_of(bench, judge, (what_ifs[it] for it in left)))
        return
    size = max(1, min(MOST, -(-len(left) // PIECES)))
    pieces = (left[start : start + size] for start in range(0, len(left), size))

    def words(places: Sequence[int]) -> Tuple[Any, ...]:
        return bench, judge, [what_ifs[it] for it in places]

    with closing(finished(executor, pieces, words)) as found:
        for places, future in found:
            yield from zip(places, future.result())


def finished(
    executor: Executor, pieces: Iterator[Sequence[int]], words: Callable[[Sequence[int]], Tuple[Any, ...]]
) -> "Generator[Tuple[Sequence[int], Future[List[Verdict]]], None, None]":
    """Each piece with what came of it, as they come. `words` are those of `run_piece`."""
    given: "Dict[Future[List[Verdict]], Sequence[int]]" = {}
    try:
        while True:
            for _, places in zip(range(AHEAD - len(given)), pieces):
                given[executor.submit(run_piece, *words(places))] = places
            if not given:
                return
            for future in next_done(given):
                yield given.pop(future), future
    finally:
        for future in given:
            future.cancel()


def next_done(given: "Iterable[Future[List[Verdict]]]") -> "Iterable[Future[List[Verdict]]]":
    """Those that are done, once there are some. KeyboardInterrupt where this process was interrupted."""
    while not interrupted.is_set():
        done = wait(given, LOOK, FIRST_COMPLETED).done
        if done:
            return done
    raise KeyboardInterrupt


def run_all(
    bench: Bench, what_ifs: Sequence[WhatIf], judge: Judge, executor: Optional[Executor] = None
) -> List[Verdict]:
    """The verdicts of all what-ifs, in their order."""
    found = dict(run(bench, what_ifs, judge, executor))
    return [found[place] for place in range(len(what_ifs))]
