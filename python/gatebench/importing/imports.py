"""An import: Verilog files and libraries become one text of gates, with the names of the source beside it."""
import re
from typing import List, NamedTuple, Optional, Sequence, Set, Tuple

from ..limits import MOST_TEXT
from ..names import Names
from .delays import Timed, Wanted
from .fault import Fault, ImportRefused
from .gates import Gates
from .liberty import Library, read_library
from .liberty_timing import Timing
from .netlist import Netlist, Place, netlist_of
from .scopes import Scopes
from .sdf import Annotations, read_sdf
from .sources import GATES, Source, Sources
from .text import Writer
from .times import Unit, unit_of
from .yosys import Ran, Yosys, room

LIMITS = {"nets": 65_536, "gates": 65_536}
MAX_INPUTS = 64
SYNTHESIZED = "the synthesized netlist"


class Options(NamedTuple):
    """What is imported, and how: Verilog files of the design and of cells, one of which is the top only by its name, and
    Liberty files."""

    files: Sequence[str]
    cells: Sequence[str] = ()
    libraries: Sequence[str] = ()
    sdf: Sequence[str] = ()
    top: Optional[str] = None
    unit: Optional[Unit] = None
    delay: int = 1
    timing: Optional[Timing] = None
    synthesize: bool = False


class Imported(NamedTuple):
    """A design: its text, its names, its counts, and what the import had to change."""

    text: str
    names: Names
    top: str
    unit: Unit
    nets: int
    gates: int
    notes: List[str]


def import_design(options: Options) -> Imported:
    """Imports a design. ImportRefused with all that can't be imported; ToolMissing without yosys."""
    libraries, annotations, faults = read_beside(options)
    sources = Sources(keeps_kinds=not options.synthesize)
    sources.read(options.files, options.cells, replaced_by(libraries))
    refuse(faults + sources.faults)
    netlist, told = run_yosys(sources, options, libraries)
    gates = Gates(netlist, sources.primitives, libraries)
    refuse([*netlist.faults, *gates.faults, *inputs_at_fault(netlist, gates)])
    unit = unit_for(options, sources)
    timed = Timed(netlist, gates, Wanted(unit, options.delay, libraries, options.timing, annotations))
    scopes = Scopes(netlist, gates)
    text = Writer(scopes, timed.delays, unit, netlist.top).text()
    refuse(timed.faults + scopes.faults + limits(scopes, gates, text))
    names = Names(scopes.net_names, scopes.gate_names)
    told += notes(timed, netlist, gates, options)
    return Imported(text, names, netlist.top, unit, count(scopes), len(gates.gates), told)


def refuse(faults: List[Fault]) -> None:
    if faults:
        raise ImportRefused(faults)


def read_beside(options: Options) -> Tuple[List[Library], Annotations, List[Fault]]:
    """The libraries and the SDF files, and what is wrong in them."""
    libraries: List[Library] = []
    annotations: Annotations = {}
    faults: List[Fault] = []
    for path in options.libraries:
        try:
            libraries.append(read_library(path))
        except ImportRefused as refused:
            faults += refused.faults
    for path in options.sdf:
        try:
            annotations.update(read_sdf(path))
        except ImportRefused as refused:
            faults += refused.faults
    return libraries, annotations, faults


def replaced_by(libraries: List[Library]) -> Set[str]:
    """The cells that stand in the place of a module whose gates have no delays."""
    return {name for it in libraries for name, cell in it.cells.items() if cell.model}


def run_yosys(sources: Sources, options: Options, libraries: List[Library]) -> Tuple[Netlist, List[str]]:
    """The flat netlist, and what is to be said of how it was made."""
    with room() as folder:
        yosys = Yosys(sources, options.top, folder, "source")
        if options.synthesize:
            return synthesized(yosys, options, libraries)
        ran = yosys.netlist()
        flat = netlist_of(ran.netlist, ran.hierarchy, yosys.original)
        return flat, remarks(ran) + widths(flat, ran)


def synthesized(first: Yosys, options: Options, libraries: List[Library]) -> Tuple[Netlist, List[str]]:
    """The same by way of a netlist that yosys makes of the source."""
    try:
        text, told = first.synthesize(libraries)
    except ImportRefused:
        # yosys tells one cell that it does not know; without the synthesis all are found.
        ran = first.netlist()
        flat = netlist_of(ran.netlist, ran.hierarchy, first.original)
        refuse([*flat.faults, *Gates(flat, first.sources.primitives, libraries).faults])
        raise
    made = Sources()
    made.primitives = first.sources.primitives
    made.files = [Source(SYNTHESIZED, text, False), *(it for it in first.sources.files if it.is_cells)]
    second = Yosys(made, options.top, first.folder, "netlist")
    ran = second.netlist()
    flat = netlist_of(ran.netlist, ran.hierarchy, lambda path: first.original(second.original(path)))
    return flat, told + remarks(ran)


def remarks(ran: Ran) -> List[str]:
    """What is to be said of a run of yosys."""
    found = list(ran.remarks)
    if ran.initial:
        found.append(f"initial values are left out, of {many(ran.initial, 'net')}: x until they are set")
    return found


def many(count: int, what: str) -> str:
    return f"{count} {what}{'s' * (count != 1)}"


def widths(netlist: Netlist, ran: Ran) -> List[str]:
    """The pins that have another width than what is connected to them. ImportRefused where that is a terminal of a gate."""
    told, faults = [], []
    for cell, pin, connected, width in ran.resized:
        places = [it.place for it in netlist.cells if it.name == cell or it.name.endswith("." + cell)]
        place = places[0] if places else Place("the design", 0)
        if places and re.fullmatch(r"[io]\d+", pin):
            faults.append(Fault(*place, cell, f"a gate takes one bit, and not {connected} at once", "name the bit"))
        else:
            told.append(f"{cell}: the pin {pin} has {many(width, 'bit')}, and is connected to {connected}")
    refuse(faults)
    return told


def inputs_at_fault(netlist: Netlist, gates: Gates) -> List[Fault]:
    """The inputs that something else drives: a gate, a constant, or another input."""
    drivers = {it.output: f"the gate {it.name}" for it in gates.gates}
    faults = []
    for port in netlist.ports:
        if port.direction == "input":
            by = drivers.get(port.bit, "" if isinstance(port.bit, int) else f"the constant {port.bit}")
            if by:
                why = f"{by} drives this input"
                faults.append(Fault("the design", 0, port.name, why, "drive a net in its place, or make it an output"))
            drivers[port.bit] = f"the input {port.name}"
    return faults


def unit_for(options: Options, sources: Sources) -> Unit:
    """The time unit of the text: the one that is asked for; 1 ps where delays come from files; else that of the source."""
    if options.unit:
        return options.unit
    return unit_of("1ps") if options.sdf or options.timing else sources.unit or unit_of("1ns")


def count(scopes: Scopes) -> int:
    return sum(bool(it.name) for it in [*scopes.nets.values(), *scopes.constants])


def limits(scopes: Scopes, gates: Gates, text: str) -> List[Fault]:
    found = {"nets": count(scopes), "gates": len(gates.gates)}
    cure = "import a part of the design by --top"
    faults = [
        Fault("the design", 0, what, f"it has {found[what]}, and may have {most}", cure)
        for what, most in LIMITS.items()
        if found[what] > most
    ]
    if len(text.encode("utf-8", "surrogateescape")) > MOST_TEXT:
        faults.append(Fault("the design", 0, "bytes", f"its text is over {MOST_TEXT} bytes", cure))
    for gate in gates.gates:
        if gate.kind in GATES and len(gate.inputs) > MAX_INPUTS:
            faults.append(
                Fault("the design", 0, gate.name, f"it has over {MAX_INPUTS} inputs", "write it as several gates")
            )
    return faults


def notes(timed: Timed, netlist: Netlist, gates: Gates, options: Options) -> List[str]:
    """What the text has otherwise than its source, and what its user may not know of it."""
    found = []
    if timed.below_one:
        found.append(f"a delay of less than {timed.wanted.unit} is 1 now, of {many(timed.below_one, 'gate')}")
    if gates.made_up and not options.synthesize:
        made = many(gates.made_up, "cell")
        found.append(f"{made} made of expressions and behaviour as they stand: --synthesize makes fewer")
    both = [it.name for it in netlist.ports if it.direction == "inout"]
    if both:
        found.append(f"{many(len(both), 'port')} for both ways, as {both[0]}: no input; a gate of a session may drive it")
    lost = undriven(netlist, gates)
    if lost:
        found.append(f"{many(len(lost), 'net')} read and driven by nothing, as {lost[0]}: z")
    return found


def undriven(netlist: Netlist, gates: Gates) -> List[str]:
    """The nets that a gate reads, and that neither a gate nor an input drives, by one of their names."""
    driven = {it.output for it in gates.gates} | {it.bit for it in netlist.ports if it.direction != "output"}
    driven |= {it.bit for it in netlist.names if it.kind in ("tri0", "tri1")}
    lost = {bit for it in gates.gates for bit in it.inputs if isinstance(bit, int) and bit not in driven}
    names = {it.bit: it.name for it in reversed(netlist.names)}
    return sorted(names.get(it, "one without a name") for it in lost)
