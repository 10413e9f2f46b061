"""Files of commands with what they expect.

Beside the commands of the language, blank lines and comments a file may have these lines:

    design FILE OPTIONS..        first of all: the design, by its path from this file's folder, and --horizon and --delay; a path
                                 with a blank stands in quotes
    expect NET T VALUE           the net has this value at the moment T
    expect-wave NET T V T V ..   these are all changes of the net
    expect-no-pulse NET N        no value of the net lasts less than N time units between two changes
    expect-refused CODE LINE     the command LINE is refused; CODE is its number or its name
    at K expect ..               the same of the version that is held under K; at K expect-wave, expect-no-pulse likewise

What is expected is asked where it stands, of the version that is the present one there."""
import argparse
import os
import shlex
from typing import List, NamedTuple, NoReturn, Optional, Sequence, Tuple

from .errors import GatebenchError
from .lines import is_skipped
from .questions import Questions
from .replies import Reply
from .values import change_of, changes_of, value_of
from .wave import Pulse, Wave

EXPECT, EXPECT_WAVE, EXPECT_REFUSED, EXPECT_NO_PULSE = "expect", "expect-wave", "expect-refused", "expect-no-pulse"


class BadLine(Exception):
    """A line that can't be read: its number from 1, and what is wanted in its place."""

    def __init__(self, number: int, wanted: str, line: str) -> None:
        super().__init__(wanted)
        self.number, self.wanted, self.line = number, wanted, line


class BadStep(GatebenchError):
    """A line was not answered as it has to be: its number, and how it was answered."""

    def __init__(self, number: int, message: str) -> None:
        super().__init__(f"line {number}: {message}")
        self.number, self.message = number, message


class Step(NamedTuple):
    """A line to send, and what its reply has to be: the lines of its answer, a refusal by its code or name, or a wave without
    pulses that last less than so many time units.

    Where nothing is expected of a command, only that it is not refused, all three are None."""

    number: int
    text: str
    line: str
    answer: Optional[Tuple[str, ...]] = None
    refusal: Optional[str] = None
    shortest: Optional[int] = None

    @property
    def is_expectation(self) -> bool:
        return self[3:] != (None, None, None)

    def wanted(self) -> str:
        """What is expected, in words."""
        if self.refusal is not None:
            return f"no {self.refusal}"
        if self.shortest is not None:
            return f"no pulse shorter than {self.shortest}"
        return "ok" if self.answer is None else in_words(self.answer)

    def got(self, reply: Reply) -> str:
        """A reply in one line, by what was expected."""
        if self.shortest is None or not reply.is_ok:
            return got(reply)
        return ", ".join(f"{it.value} from {it.start} to {it.end}" for it in self.short_pulses(reply))

    def short_pulses(self, reply: Reply) -> List[Pulse]:
        """The pulses that last less than is expected, of the wave that a reply shows."""
        changes = tuple(change_of(it) for it in reply.lines)
        return Wave("", changes, changes[-1].time).pulses(self.shortest)

    def is_met(self, reply: Reply) -> bool:
        if self.refusal is not None:
            return not reply.is_ok and self.refusal in (str(reply.code), reply.name)
        if self.shortest is not None:
            return reply.is_ok and not self.short_pulses(reply)
        return reply.is_ok and self.answer in (None, reply.lines)


class Opening(NamedTuple):
    """How a session is opened: the design's file, and options or None."""

    design: str
    horizon: Optional[int] = None
    delay: Optional[int] = None


class Script(NamedTuple):
    """A file of commands: how its session is opened, None where it does not say, and its steps."""

    opening: Optional[Opening]
    steps: List[Step]


def in_words(answer: Sequence[str]) -> str:
    """The lines of an answer in one line."""
    return " ".join(answer) or "ok"


def got(reply: Reply) -> str:
    """A reply in one line."""
    return in_words(reply.lines) if reply.is_ok else reply.end


def carry_out(session: Questions, steps: Sequence[Step]) -> List[Reply]:
    """The replies to steps. BadStep at the first one that is not as it has to be."""
    replies = session.ask([it.line for it in steps])
    for step, reply in zip(steps, replies):
        if not step.is_met(reply):
            means = "" if reply.is_ok else session.refused(step.line, reply).means()
            raise BadStep(step.number, f"expected {step.wanted()}, got {step.got(reply)}{means}")
    return replies


def read_script(path: str) -> Script:
    """Reads a file of commands. BadLine where a line of it can't be read, OSError where the file can't."""
    with open(path, encoding="utf-8", errors="surrogateescape", newline="\n") as file:
        return script_of(file.read(), os.path.dirname(path))


def script_of(text: str, folder: str) -> Script:
    """The commands of a text. Paths in it are from `folder`. What stands behind `quit` is BadLine."""
    opening, steps, quit_at = None, [], 0  # type: Optional[Opening], List[Step], int
    for number, line in enumerate(text.split("\n"), 1):
        if is_skipped(line):
            continue
        if quit_at:
            raise BadLine(number, f"nothing behind the quit of line {quit_at}", line)
        words = line.split()
        if words[0] == "design":
            if opening is not None or steps:
                raise BadLine(number, "the line of the design before all others", line)
            opening = opening_of(folder, number, line)
        elif words == ["quit"]:
            quit_at = number
        else:
            steps.append(step_of(number, line, words))
    return Script(opening, steps)


def step_of(number: int, line: str, words: List[str]) -> Step:
    prefix = words[:2] if words[0] == "at" and len(words) > 2 else []
    verb, rest = words[len(prefix)], words[len(prefix) + 1 :]
    try:
        if verb == EXPECT:
            net, time, value = rest
            return Step(number, line, " ".join([*prefix, "value", net, str(int(time))]), answer=(value_of(value),))
        if verb == EXPECT_WAVE:
            answer = tuple(f"{it.time} {it.value}" for it in changes_of(tuple(rest[1:])))
            return Step(number, line, " ".join([*prefix, "wave", rest[0]]), answer=answer)
        if verb == EXPECT_NO_PULSE:
            net, least = rest
            return Step(number, line, " ".join([*prefix, "wave", net]), shortest=int(least))
        if verb == EXPECT_REFUSED and not prefix:
            code, first, *others = rest
            return Step(number, line, " ".join([first, *others]), refusal=code)
    except (ValueError, IndexError) as error:
        raise BadLine(number, FORMS[verb], line) from error
    return Step(number, line, line)


FORMS = {
    EXPECT: f"{EXPECT} NET T VALUE",
    EXPECT_WAVE: f"{EXPECT_WAVE} NET T V T V .., with rising times from 0 on",
    EXPECT_REFUSED: f"{EXPECT_REFUSED} CODE LINE",
    EXPECT_NO_PULSE: f"{EXPECT_NO_PULSE} NET N",
}


class OptionReader(argparse.ArgumentParser):
    """Reads the options of a line, and raises where they are wrong."""

    def error(self, message: str) -> NoReturn:
        raise ValueError(message)


def option_reader() -> argparse.ArgumentParser:
    reader = OptionReader(add_help=False, allow_abbrev=False)
    reader.add_argument("design")
    reader.add_argument("--horizon", type=int)
    reader.add_argument("--delay", type=int)
    return reader


def opening_of(folder: str, number: int, line: str) -> Opening:
    try:
        found = option_reader().parse_args(shlex.split(line)[1:])
    except ValueError:
        raise BadLine(number, "design FILE [--horizon H] [--delay D]", line) from None
    return Opening(os.path.join(folder, found.design), found.horizon, found.delay)
