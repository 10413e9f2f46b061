"""Which nets of two versions differ, and from when."""
from typing import Dict, Iterable, Iterator, List, Mapping, NamedTuple, Optional, Sequence, Set, Tuple

from .asked import DIFF, UNKNOWN_NET
from .dump import read_head
from .html import line, table
from .lines import line_of
from .questions import Questions
from .session import Held


class Difference(NamedTuple):
    """A net that differs from the moment `time` on: it is `before` there in the first version, `after` in the second.

    A net that is in one of them alone differs from 0 on, and has None in the other."""

    time: int
    net: str
    before: Optional[str]
    after: Optional[str]


class Differences(List[Difference]):
    """Nets that differ, in order of time. A notebook shows them as a table."""

    def _repr_html_(self) -> str:
        rows = [[str(it.time), it.net, it.before or "not there", it.after or "not there"] for it in self]
        return table(("from", "net", "before", "now"), rows) if rows else line("no net differs")


def diff(first: Questions, second: Questions) -> Differences:
    """The nets whose waves differ, in order of time, and at one moment by name.

    A session stands for its present version. Waves are compared up to the lesser of the two horizons. The program says it of a
    version that a session holds beside another one of it; else, and where it does not know the question, both dumps are read."""
    asked = question(first, second)
    found = said(*asked) if asked else read(first, second)
    old, new = values(first, found), values(second, found)
    differences = (Difference(time, net, old.get(net), new.get(net)) for net, time in found.items())
    return Differences(sorted(differences, key=lambda it: (it.time, it.net)))


def changed(first: Questions, second: Questions) -> Optional[Set[str]]:
    """The names of the nets that differ, where the program says them; None where it would take both dumps."""
    asked = question(first, second)
    return set(said(*asked)) if asked else None


def question(first: Questions, second: Questions) -> Optional[Tuple[Questions, str]]:
    """The question for the nets that differ, behind the version that it is asked of; None where there is none."""
    for held, other in ((first, second), (second, first)):
        session = other.session if isinstance(other, Held) else other
        if isinstance(held, Held) and held.session is session and held.knows(DIFF):
            return other, line_of("diff", held.name)
    return None


def said(version: Questions, question: str) -> Dict[str, int]:
    """The nets that differ by the program's answer, with the moment from which on."""
    pairs = (it.split(" ") for it in version.answer(question))
    return {net: int(time) for net, time in pairs}


def read(first: Questions, second: Questions) -> Dict[str, int]:
    """The same by the dumps of both versions."""
    before, after = Blocks(first.dump_lines()), Blocks(second.dump_lines())
    # A net that one of them alone has differs from 0 on.
    found = {net: 0 for net in {*before.codes} ^ {*after.codes}}
    for net, time in differing(before, after):
        found.setdefault(net, time)
    return found


class Blocks:
    """A dump, cut at its moments. The lines of a moment are compared as they are, and read where they differ alone."""

    def __init__(self, lines: Sequence[str]) -> None:
        rest = iter(lines)
        _, names = read_head(rest)
        self.names, self.codes = names, {name: code for code, name in names.items()}
        self.lines = list(rest)
        starts = [place for place, line in enumerate(self.lines) if line[0] == "#"]
        self.horizon = int(self.lines[starts[-1]][1:])
        ends = [*starts[1:], len(self.lines)]
        self.places = {int(self.lines[start][1:]): (start + 1, end) for start, end in zip(starts, ends)}

    def at(self, time: int) -> List[str]:
        """The lines of a moment."""
        start, end = self.places.get(time, (0, 0))
        return self.lines[start:end]

    def changes(self, lines: Iterable[str]) -> Set[Tuple[str, str]]:
        """The changes that lines show, as a value and a net."""
        return {(line[0], self.names[line[1:]]) for line in lines if line[0] != "$"}


def differing(before: Blocks, after: Blocks) -> Iterator[Tuple[str, int]]:
    """Each net that has another change than in the other dump, with the moment, in order of time.

    Up to the first one of a net its waves are the same; there only one of them changes, or both do to other values."""
    is_same = before.names == after.names
    horizon = min(before.horizon, after.horizon)
    for time in sorted(it for it in {*before.places, *after.places} if it <= horizon):
        old, new = before.at(time), after.at(time)
        if is_same and old == new:
            continue
        for _, net in before.changes(old) ^ after.changes(new):
            yield net, time


def values(version: Questions, moments: Mapping[str, int]) -> Dict[str, str]:
    """The value of each net that the version has at its moment."""
    lines = {net: line_of("value", net, time) for net, time in moments.items()}
    replies = zip(lines.items(), version.ask(list(lines.values())))
    return {net: reply.one_line(line) for (net, line), reply in replies if reply.code != UNKNOWN_NET}
