"""Waves as text for a terminal."""
from typing import Dict, List, NamedTuple

from .picture import Picture
from .wave import Wave


class Signs(NamedTuple):
    """The sign of each value, of a cell in which a net changes more than once, and of a mark of the axis."""

    values: Dict[str, str]
    several: str
    mark: str


UNICODE = Signs({"0": "▁", "1": "▔", "x": "╳", "z": "╌"}, "┃", "│")
ASCII = Signs({"0": "_", "1": "-", "x": "x", "z": "z"}, "#", "|")

# What the line of another version is called, below that of the net.
BEFORE = "  before"

# How far apart the marks of the axis are at least, in cells.
MARK_CELLS = 10


def draw_text(picture: Picture, width: int = 100, signs: Signs = UNICODE) -> str:
    """The waves, a line for each net, at most `width` characters wide where names leave room for 20 cells.

    A cell is a moment, or where the window is too long for that as many moments as are needed. It shows the value at
    its end; where the net changes in it more than once, it shows that, so no pulse is too short to be seen. The wave of another
    version stands below."""
    label = max([len("moment"), *(len(it.net) for it in picture.waves), *(len(BEFORE) for _ in picture.before)]) + 2
    step = -(-picture.moments // max(20, width - label))
    lines = axis(picture, label, step, signs.mark, width)
    for wave in picture.waves:
        lines.append(wave.net.ljust(label) + cells(wave, picture, step, signs))
        if wave.net in picture.before:
            lines.append(BEFORE.ljust(label) + cells(picture.before[wave.net], picture, step, signs))
    legend = f"one cell is {step} x {picture.unit}; {signs.several} is more than one change"
    return "\n".join([*lines, *([legend] if step > 1 else [])]) + "\n"


def cells(wave: Wave, picture: Picture, step: int, signs: Signs) -> str:
    """The cells of a wave."""
    drawn = []
    for begin in range(picture.start, picture.end + 1, step):
        end = min(begin + step - 1, picture.end, wave.horizon)
        if end < begin:
            break
        changes = wave.between(max(begin, picture.start + 1), end)
        drawn.append(signs.several if len(changes) > 1 else signs.values[wave.at(end)])
    return "".join(drawn)


def axis(picture: Picture, label: int, step: int, mark: str, width: int) -> List[str]:
    """Two lines: the moments of the marks, where there is room for them, and the marks."""
    numbers, marks = "moment".ljust(label - 1), " " * label
    for moment in picture.marks(MARK_CELLS * step):
        column = label + (moment - picture.start) // step
        marks = marks.ljust(column) + mark
        if len(numbers) < column and column + len(str(moment)) <= width:
            numbers = numbers.ljust(column) + str(moment)
    return [numbers.rstrip(), marks]
