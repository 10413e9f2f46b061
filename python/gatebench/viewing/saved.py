"""What was done on a page as files: commands with what they expect, or Python."""
import os
import shlex
from typing import Dict, Iterator, List, Sequence

from ..script import Step
from ..wave import Wave
from .edited_session import Entry
from .rules import NoPulse, Rule
from .view import View


def expectations(view: View, nets: Sequence[str], folder: str) -> str:
    """A file for `check` in `folder`: what was carried out, and the waves of these nets and the rules as what is expected. Rules that
    no line of such a file says are comments."""
    design = shlex.quote(os.path.relpath(view.opening.design, folder))
    lines = [f"design {design}{options(view, ' --horizon {}', ' --delay {}')}"]
    lines += [it.text for it in view.steps]
    for entry in view.current.log:
        lines += entry_lines(entry)
    lines += [wave_line(it) for it in waves(view, nets)]
    lines += [rule_line(it) for it in view.rules]
    return "".join(f"{it}\n" for it in lines)


def python(view: View, nets: Sequence[str], folder: str) -> str:
    """The same as a Python file."""
    design = os.path.relpath(view.opening.design, folder)
    opened = f"Session({design!r}{options(view, ', horizon={}', ', delay={}')})"
    body = [line for entry in [*initial(view.steps), *view.current.log] for line in entry_calls(entry)]
    for it in waves(view, nets):
        changes = ", ".join(f"({time}, {value!r})" for time, value in it.changes)
        body.append(f"assert session.wave({it.net!r}).changes == ({changes},)")
    body += [f"assert not {it.call}" for it in view.rules]
    names = ["Session", *sorted({it.call.partition("(")[0] for it in view.rules})]
    head = [f"from gatebench import {', '.join(names)}", "", f"with {opened} as session:"]
    return "\n".join([*head, *(f"    {it}" for it in body or ["pass"])]) + "\n"


def rule_line(rule: Rule) -> str:
    return f"expect-no-pulse {rule.net} {rule.width}" if isinstance(rule, NoPulse) else f"# {rule.nets[0]}: {rule.said}"


def options(view: View, horizon: str, delay: str) -> str:
    given = ((horizon, view.opening.horizon), (delay, view.opening.delay))
    return "".join(form.format(value) for form, value in given if value is not None)


def waves(view: View, nets: Sequence[str]) -> List[Wave]:
    return [view.current.now.wave(it) for it in nets]


def wave_line(wave: Wave) -> str:
    return " ".join(["expect-wave", wave.net, *(f"{it.time} {it.value}" for it in wave.changes)])


def entry_lines(entry: Entry) -> List[str]:
    """An entry of the log as lines of a file."""
    if isinstance(entry, str):
        return [entry]
    return entry if len(entry) == 1 else ["begin", *entry, "commit"]


def initial(steps: Sequence[Step]) -> Iterator[Entry]:
    """The commands of the file that the page was opened with; what they expect is left out."""
    for it in steps:
        if not it.is_expectation:
            yield it.line


def entry_calls(entry: Entry) -> List[str]:
    """An entry of the log as calls."""
    if isinstance(entry, str):
        return [f"session.command({entry!r})"]
    return ["session.edits([", *(f"    {it!r}," for it in entry), "])"]


FORMS: Dict[str, str] = {"expectations": "expectations", "python": "session.py"}
