"""Cases by a seed and a number."""
import random

from case import Case

from . import circuits, sessions, texts
from .tool_lines import ToolLines

HORIZONS = [0, 5, 20, 20, 40, 40, 60]
# How many designs are looked at for a session, for one with an input and a gate.
TRIES = 8
# How many sessions of gatetool are over circuits.
CIRCUITS = 0.7


def options(rng, horizon, delay):
    words = ["--horizon", str(horizon)] + (["--delay", str(delay)] if delay else [])
    return tuple(words + (["--workers", str(rng.choice([2, 3]))] if rng.random() < 0.03 else []))


def text_case(seed, number):
    """A text, and commands that show all of the design that it may spell."""
    rng = random.Random(f"{seed} text {number}")
    delay, horizon = rng.choice([None, None, 2, 1000000]), rng.choice(HORIZONS)
    case = Case(texts.text(rng, delay is not None), options(rng, horizon, delay))
    design = case.design()
    return case if design is None else case._replace(commands=sessions.show_all(rng, design, horizon))


def lively(rng, delay, words):
    """A text that spells a design, with an input and a gate where one is found soon."""
    found = None
    for _ in range(TRIES):
        case = Case(texts.right(rng, delay is not None), words)
        design = case.design()
        found = case if design else found
        if design and design.gates and any(net.is_input for net in design.nets.values()):
            return case
    return found or Case(b"module m(input a, output y); not #2 (y, a); endmodule\n", words)


def commands(lines):
    return sessions.session(lines, lines.rng.choice([8, 16, 32, 64]))


def session_case(seed, number):
    """A session over a design."""
    rng = random.Random(f"{seed} session {number}")
    delay, horizon = rng.choice([None, None, 3]), rng.choice(HORIZONS)
    case = lively(rng, delay, options(rng, horizon, delay))
    return case._replace(commands=commands(sessions.Lines(rng, case.design(), horizon)))


def tool_case(seed, number):
    """A session of gatetool."""
    rng = random.Random(f"{seed} tool {number}")
    delay, horizon = rng.choice([None, None, 3]), rng.choice(HORIZONS)
    words = options(rng, horizon, delay)
    case = Case(circuits.text(rng, delay), words) if rng.random() < CIRCUITS else lively(rng, delay, words)
    return case._replace(commands=commands(ToolLines(rng, case.design(), horizon)), tool=True)
