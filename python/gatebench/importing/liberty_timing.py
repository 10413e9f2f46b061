"""The delays of the outputs of Liberty cells, at a load and a time of transition."""
from fractions import Fraction
from typing import Dict, List, NamedTuple, Optional

from .fault import Fault, ImportRefused
from .liberty import Library, pins_in
from .liberty_text import Group
from .times import Delays, unit_of

DISABLE = "three_state_disable"


class Timing(NamedTuple):
    """The load at each output, and the time of transition at each input, in units of the library."""

    load: float
    slew: float


def delays_in(library: Library, cell: str, pin: str, at: Timing) -> Optional[Delays]:
    """Rise, fall and turn-off delay of an output in femtoseconds: the greatest of all arcs to it. None where no arc has a
    delay."""
    templates = {it.names[0]: it for it in library.group.all("lu_table_template") if it.names}
    arcs = [arc for it in pins_in(library.cells[cell].group) if it.names == [pin] for arc in it.all("timing")]
    unit = femtoseconds(library)
    on = [it for it in arcs if not it.text("timing_type").startswith(DISABLE)]
    off = [it for it in arcs if it.text("timing_type").startswith(DISABLE)]
    rise, fall = (greatest(on, edge, templates, at) for edge in ("rise", "fall"))
    lets_go = [it for edge in ("rise", "fall") for it in [greatest(off, edge, templates, at)] if it is not None]
    known = [it for it in (rise, fall) if it is not None]
    if not known:
        return None
    rise, fall = known[0] if rise is None else rise, known[0] if fall is None else fall
    return Delays(rise * unit, fall * unit, max(lets_go) * unit if lets_go else None)


def femtoseconds(library: Library) -> int:
    """The time unit of a library. ImportRefused where it is none."""
    text = library.group.text("time_unit", "1ns")
    try:
        return unit_of(text).femtoseconds
    except ValueError as error:
        raise ImportRefused(
            [Fault(library.file, library.group.line, "time_unit", str(error), "correct it there")]
        ) from None


def greatest(arcs: List[Group], edge: str, templates: Dict[str, Group], at: Timing) -> Optional[Fraction]:
    """The greatest delay to this edge, None where there is none."""
    found = [delay for arc in arcs for delay in [arc_delay(arc, edge, templates, at)] if delay is not None]
    return max(found, default=None)


def arc_delay(arc: Group, edge: str, templates: Dict[str, Group], at: Timing) -> Optional[Fraction]:
    """The delay of one arc: of its table, or of the linear model, which grows with the load alone."""
    for table in arc.all(f"cell_{edge}"):
        return looked_up(table, templates.get(table.names[0] if table.names else ""), at)
    intrinsic = arc.number(f"intrinsic_{edge}")
    if intrinsic is None:
        return None
    return Fraction(str(intrinsic)) + Fraction(str(at.load)) * Fraction(str(arc.number(f"{edge}_resistance") or 0.0))


def numbers(words: List[str]) -> List[Fraction]:
    return [Fraction(it) for word in words for it in word.replace(",", " ").split()]


def looked_up(table: Group, template: Optional[Group], at: Timing) -> Fraction:
    """The value of a table: between its points on straight lines, beyond them that of its ends."""
    values = numbers(table.attributes.get("values", ["0"]))
    axes = [axis(table, template, number) for number in (1, 2)]
    points = [place(template, number, at) for number in (1, 2)]
    if len(values) == 1 or not axes[0]:
        return values[0]
    if not axes[1]:
        return along(axes[0], values, points[0])
    width = len(axes[1])
    rows = [values[it : it + width] for it in range(0, len(values), width)]
    return along(axes[0], [along(axes[1], row, points[1]) for row in rows], points[0])


def axis(table: Group, template: Optional[Group], number: int) -> List[Fraction]:
    name = f"index_{number}"
    own = table.attributes.get(name)
    return numbers(own if own is not None else template.attributes.get(name, []) if template else [])


def place(template: Optional[Group], number: int, at: Timing) -> Fraction:
    """Where a table is looked up along one of its variables; without a template the first one is the load."""
    variable = template.text(f"variable_{number}") if template else ""
    is_slew = variable == "input_net_transition" or not variable and number == 2
    return Fraction(str(at.slew if is_slew else at.load))


def along(points: List[Fraction], values: List[Fraction], at: Fraction) -> Fraction:
    """The value at a point of a line through points."""
    if at <= points[0] or len(points) == 1:
        return values[0]
    for left, right, low, high in zip(points, points[1:], values, values[1:]):
        if at <= right:
            return low + (high - low) * (at - left) / (right - left)
    return values[len(points) - 1]
