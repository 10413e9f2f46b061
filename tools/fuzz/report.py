"""A difference in words: what the program is given, and how it and the reading go on."""
import difflib
import re
from itertools import zip_longest

LINES = 40


def kind_of(answer, other):
    """In what two answers differ: their statuses and the first lines that differ, without their numbers; or nothing."""
    if answer == other:
        return None
    lines = ([*it.said.splitlines(), *it.printed.splitlines()] for it in (answer, other))
    first = next((pair for pair in zip_longest(*lines) if pair[0] != pair[1]), (None, None))
    return answer.status, other.status, *(line and re.sub(rb"[0-9]+", b"0", line) for line in first)


def lines_of(text):
    return [repr(line)[2:-1] for line in text.splitlines(keepends=True)]


def block(name, lines):
    further = [f"    .. {len(lines) - LINES} further lines"] if len(lines) > LINES else []
    return [f"{name}:", *(f"    {line if len(line) < 200 else line[:200] + ' ..'}" for line in lines[:LINES]), *further]


def ended(answer):
    return [f"status {answer.status}", *lines_of(answer.said), *lines_of(answer.printed)]


def shown(case, answer):
    """What the program is given, and its answer beside that of the reading: lines of both, of the one and of the other."""
    other = list(difflib.unified_diff(ended(case.answer()), ended(answer), lineterm="", n=3))[3:]
    made = [f"{'gatetool' if case.tool else 'gatebench'} design.v {' '.join(case.words)}", *block("design.v", lines_of(case.text))]
    return "\n".join([*made, *block("commands", lines_of(case.commands)), *block("the reading (-), the program (+)", other)])
