"""Parts of waves as the program sums them up, so that a picture of a long wave costs its pixels and not its changes
(docs/tool-questions.md)."""
from typing import Dict, Iterable, List, NamedTuple, Sequence

from ..lines import line_of
from .hexadecimal import hexadecimal
from .spans import Span, add_many


class Part(NamedTuple):
    """A part in which a net changes: the moment of its first change, the value at the part's end, and whether there are more."""

    time: int
    last: str
    is_many: bool


class Cut(NamedTuple):
    """A net from one moment to another: its value at the first one, and those of so many equal parts in which it changes, by
    their numbers."""

    value: str
    parts: Dict[int, Part]


class Cuts(NamedTuple):
    """How a window is cut: into `parts` equal parts of the moments behind `start` up to `end`."""

    start: int
    end: int
    parts: int

    def lines(self, net: str) -> List[str]:
        """The two questions for a net."""
        return [line_of("value", net, self.start), line_of("window", net, self.start, self.end, self.parts)]

    def begin(self, number: int) -> int:
        """The first moment of a part."""
        return self.start + number * (self.end - self.start) // self.parts + 1

    def number(self, time: int) -> int:
        """The part that a moment lies in: the last one that begins at it or before."""
        return -(-(time - self.start) * self.parts // (self.end - self.start)) - 1

    def cut(self, value: str, lines: Sequence[str]) -> Cut:
        """The net that has this value at the start, and in whose window these lines show the parts."""
        return Cut(value, {self.number(it.time): it for it in map(part_of, lines)})

    def spans(self, row: Sequence[Cut]) -> List[Span]:
        """What is drawn of the nets of a row, which is a vector if there are several: as `windows.spans_of` has it."""
        values = [it.value for it in row]
        spans = [(self.start, shown(values))]
        for number in sorted({number for it in row for number in it.parts}):
            changed = {place: it.parts[number] for place, it in enumerate(row) if number in it.parts}
            for place, part in changed.items():
                values[place] = part.last
            if is_one(changed.values()):
                spans.append((min(it.time for it in changed.values()), shown(values)))
            else:
                add_many(spans, self.begin(number), (self.begin(number + 1), shown(values)))
        return spans


def part_of(line: str) -> Part:
    """The part that a line `T FIRST LAST one` or `T FIRST LAST more` shows."""
    time, _, last, count = line.split(" ")
    return Part(int(time), last, count == "more")


def is_one(parts: Iterable[Part]) -> bool:
    """Whether all that changes in some parts does so at one moment."""
    found = list(parts)
    return len({it.time for it in found}) == 1 and not any(it.is_many for it in found)


def shown(values: Sequence[str]) -> str:
    return values[0] if len(values) == 1 else hexadecimal("".join(values))
