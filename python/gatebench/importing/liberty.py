"""Cells of Liberty files: their gates by their functions, and the delays of their outputs."""
import re
from typing import Dict, List, NamedTuple, Optional, Tuple

from .expression import BadFunction, Expression, expression_of, inverted, pins_of
from .fault import Fault
from .liberty_text import Group, library_of
from .models import Builder, Model

# The attribute of a cell that gates a clock, and what its pins are said to be.
CLOCK_GATE = "clock_gating_integrated_cell"
ROLES = ("clock", "enable", "test", "out")
ELSEWHERE = "give a Verilog module of gates for it"


class LibertyCell(NamedTuple):
    """A cell of a file. Its gates, or why it has none."""

    name: str
    file: str
    group: Group
    model: Optional[Model]
    fault: Optional[Fault]


class Refusal(Exception):
    """A cell can't be made of gates."""

    def __init__(self, group: Group, word: str, why: str) -> None:
        super().__init__(why)
        self.group, self.word, self.why = group, word, why


class Library(NamedTuple):
    """The cells of a file, and its units in femtoseconds."""

    file: str
    group: Group
    cells: Dict[str, LibertyCell]


def read_library(path: str) -> Library:
    """Reads a Liberty file. ImportRefused where it is none."""
    with open(path, encoding="utf-8", errors="surrogateescape") as file:
        group = library_of(path, file.read())
    cells = {it.names[0]: cell_of(path, it) for it in group.all("cell") if it.names}
    return Library(path, group, cells)


def cell_of(path: str, group: Group) -> LibertyCell:
    try:
        return LibertyCell(group.names[0], path, group, model_of(group), None)
    except Refusal as refusal:
        fault = Fault(path, refusal.group.line, refusal.word, refusal.why, ELSEWHERE)
        return LibertyCell(group.names[0], path, group, None, fault)


def pins_in(group: Group) -> List[Group]:
    """The groups of the pins, one for each name, in order."""
    found = [pin for it in group.groups for pin in (it.all("pin") if it.kind in ("bus", "bundle") else [it])]
    return [it._replace(names=[name]) for it in found if it.kind == "pin" for name in it.names]


def model_of(cell: Group) -> Model:
    pins = pins_in(cell)
    builder = Builder([it.names[0] for it in pins])
    power = {it.names[0] for it in cell.all("pg_pin") if it.names}
    if re.fullmatch(r"latch_posedge(_precontrol|_postcontrol)?", cell.text(CLOCK_GATE)):
        add_clock_gate(builder, cell, pins)
        return builder.model(power)
    for kind in ("statetable", "ff_bank", "latch_bank"):
        for found in cell.all(kind):
            raise Refusal(found, kind, f"cells with a {kind} are not imported")
    states: Dict[str, str] = {}
    for found in cell.groups:
        if found.kind in ("ff", "latch"):
            add_state(builder, found, states)
    for pin in pins:
        if pin.text("direction") in ("output", "inout") and "internal_node" not in pin.attributes:
            add_output(builder, pin, states)
    return builder.model(power)


def add_clock_gate(builder: Builder, cell: Group, pins: List[Group]) -> None:
    """A latch that is open while the clock is 0, and the clock where it holds a 1; a test pin acts before or behind it."""
    roles = {role: pin.names[0] for pin in pins for role in ROLES if pin.text(f"clock_gate_{role}_pin") == "true"}
    if not {"clock", "enable", "out"} <= set(roles):
        raise Refusal(cell, CLOCK_GATE, "no pins are said to be its clock, its enable and its output")
    clock, enable, out = roles["clock"], roles["enable"], roles["out"]
    test = roles.get("test")
    names = (builder.fresh("q"), builder.fresh("qn"))
    is_behind = test is not None and cell.text(CLOCK_GATE).endswith("postcontrol")
    before: Expression = enable if test is None or is_behind else ("or", (enable, test))
    behind: Expression = ("or", (names[0], test)) if test is not None and is_behind else names[0]
    builder.latch(names, builder.inner(inverted(clock)), builder.inner(before), [], [])
    builder.output(out, ("and", (clock, behind)))


def function_in(builder: Builder, group: Group, name: str, states: Dict[str, str]) -> Expression:
    """The expression of an attribute, over pins and inner nets."""
    text = group.text(name)
    try:
        found = renamed(expression_of(text), states)
    except BadFunction:
        raise Refusal(group, text or name, f"the attribute {name} is no function") from None
    for pin in pins_of(found):
        if pin not in builder.taken:
            raise Refusal(group, pin, f"the attribute {name} names no pin by it")
    return found


def renamed(of: Expression, names: Dict[str, str]) -> Expression:
    if isinstance(of, str):
        return names.get(of, of)
    return (of[0], tuple(renamed(it, names) for it in of[1]))


def add_output(builder: Builder, pin: Group, states: Dict[str, str]) -> None:
    if "function" not in pin.attributes:
        raise Refusal(pin, pin.names[0], "it is an output without a function")
    function = function_in(builder, pin, "function", states)
    lets_go = function_in(builder, pin, "three_state", states) if "three_state" in pin.attributes else None
    builder.output(pin.names[0], function, lets_go)


def add_state(builder: Builder, group: Group, states: Dict[str, str]) -> None:
    """The gates of a group `ff` or `latch`."""
    given = [*group.names, "IQN"][:2] if group.names else ["IQ", "IQN"]
    names = (builder.fresh("q"), builder.fresh("qn"))
    is_latch = group.kind == "latch"
    clock = function_in(builder, group, "enable" if is_latch else "clocked_on", {})
    states.update(zip(given, names))
    data = function_in(builder, group, "data_in" if is_latch else "next_state", states)
    clear, preset = (acting(builder, group, it) for it in ("clear", "preset"))
    if clear and preset:
        clear[0], preset[0] = builder.stronger(clear[0], preset[0], both_of(group))
    build = builder.latch if is_latch else builder.flip_flop
    build(names, builder.inner(clock), builder.inner(data), clear, preset)


def acting(builder: Builder, group: Group, name: str) -> List[str]:
    """The net that clears or presets while it is 0, none where the group has no such attribute."""
    if name not in group.attributes:
        return []
    return [builder.inner(inverted(function_in(builder, group, name, {})))]


def both_of(group: Group) -> str:
    """Which of clear and preset is the stronger one: 0 for clear, 1 for preset, else none."""
    values = tuple(group.text(f"clear_preset_var{it}", "X").upper() for it in (1, 2))
    for value in values:
        if value in ("T", "N"):
            raise Refusal(group, value, "a state that clear and preset together keep or invert is not imported")
    if values == ("L", "L"):
        raise Refusal(group, "clear_preset_var2", "outputs that are both 0 are not imported")
    if values[0] == "L" or (values[0] == "X" and values[1] == "H"):
        return "0"
    return "" if values[1] in ("H", "X") else "1"
