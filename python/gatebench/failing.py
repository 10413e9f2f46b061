"""The waves behind an expectation that is not met, and behind two waves that are not equal, as text."""
from typing import List, Optional, Sequence

from .draw_text import ASCII, draw_text
from .picture import window
from .questions import Questions
from .script import Opening, Script, Step
from .session import TIMEOUT, Session
from .values import changes_of
from .wave import Wave

# How much is drawn before and behind the moment at fault, in time units.
AROUND = 40


def drawing_of(script: Script, step: Step, default: Opening, program: Optional[str] = None) -> str:
    """The wave of the net that an expectation asks, beside the expected one where it says all changes.

    A session of its own goes up to the expectation."""
    opening = script.opening or default
    before = [it.line for it in script.steps if it.number < step.number]
    with Session(
        opening.design, horizon=opening.horizon, delay=opening.delay, program=program, timeout=TIMEOUT
    ) as session:
        session.ask(before)
        words = step.line.split()
        source: Questions = session
        if words[0] == "at":
            source, words = session.at(words[1]), words[2:]
        wave, unit = source.wave(words[1]), source.dump().unit
    if words[0] == "value":
        return drawn([wave], unit, int(words[2]))
    if step.answer is None:
        return drawn([wave], unit, wave.pulses(step.shortest)[0].start)
    changes = changes_of(tuple(" ".join(step.answer).split()))
    return beside(Wave("expected", changes, max(wave.horizon, changes[-1].time)), wave, unit)


def beside(first: Wave, second: Wave, unit: str) -> str:
    """Two waves round the moment from which they differ."""
    return drawn([first, second], unit, first.first_difference(second) or 0)


def drawn(waves: Sequence[Wave], unit: str, moment: int) -> str:
    """Waves round a moment, in plain characters, since reports go to files too."""
    horizon = min(it.horizon for it in waves)
    middle = min(moment, horizon)
    picture = window(waves, unit, horizon, max(0, middle - AROUND), min(horizon, middle + AROUND))
    return draw_text(picture, 2 * AROUND + 40, ASCII)


def difference_lines(first: Wave, second: Wave) -> List[str]:
    """What a report says of two waves that were to be equal."""
    time = first.first_difference(second)
    if time is None:
        return [f"the waves have other horizons: {first.horizon} and {second.horizon}"]
    what = f"the waves of {first.net} and {second.net} differ from {time} on: {first.at(time)}, and {second.at(time)}"
    if first.net == second.net:
        first, second = (Wave(f"{it.net} {side}", it.changes, it.horizon) for it, side in ((first, "left"), (second, "right")))
    return [what, "", *beside(first, second, "time unit").splitlines()]
