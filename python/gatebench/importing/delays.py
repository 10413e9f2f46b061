"""The delays of the gates of a design: of SDF, else of Liberty, else as a text writes them, else one for all."""
from typing import Dict, List, NamedTuple, Optional, Set

from ..limits import MOST_DELAY
from .fault import Fault
from .gates import Gate, Gates
from .liberty import Library
from .liberty_timing import Timing, delays_in
from .models import Lead
from .netlist import Bit, Netlist
from .sdf import Annotations
from .sources import THREE_STATE
from .text import Delay
from .times import Delays, Unit, in_units


class Wanted(NamedTuple):
    """What delays are taken from: `default` is in time units."""

    unit: Unit
    default: int
    libraries: List[Library]
    timing: Optional[Timing]
    annotations: Annotations


class Timed:
    """The delay of each gate, by its identity."""

    def __init__(self, netlist: Netlist, gates: Gates, wanted: Wanted) -> None:
        self.wanted = wanted
        self.faults: List[Fault] = []
        self.delays: Dict[int, Delay] = {}
        self.known: Dict[int, Delays] = {}
        self.below_one = 0
        self.annotate(netlist, gates)
        if wanted.timing:
            self.look_up(gates, wanted.timing)
        self.timed_cells: Set[str] = {it.cell for it in gates.gates if it.cell and it.library and id(it) in self.known}
        for gate in gates.gates:
            self.delays[id(gate)] = self.delay_of(gate)

    def annotate(self, netlist: Netlist, gates: Gates) -> None:
        """Takes the delays of SDF files, each for the gates of an instance that drive the net at its output."""
        nets: Dict[str, Bit] = {it.name: it.bit for it in netlist.names}
        nets.update((f"{it.cell}.{it.name}", it.bit) for it in gates.names)
        drivers: Dict[Bit, List[Gate]] = {}
        for gate in gates.gates:
            drivers.setdefault(gate.output, []).append(gate)
        for (instance, pin), given in self.wanted.annotations.items():
            bit = nets.get(f"{instance}.{pin}" if instance else pin, "")
            found = [it for it in drivers.get(bit, []) if not instance or it.name.startswith(instance + ".")]
            if not found:
                word = f"{instance}.{pin}" if instance else pin
                cure = "give the SDF file of this netlist, or name the top of its hierarchy by --top"
                self.faults.append(
                    Fault(given.file, given.line, word, "no gate of the design drives an output by this name", cure)
                )
            for gate in found:
                self.known[id(gate)] = given.delays

    def look_up(self, gates: Gates, timing: Timing) -> None:
        """Takes the delays of Liberty cells that no SDF file has."""
        found: Dict[str, Optional[Delays]] = {}
        for gate in gates.gates:
            if gate.library and gate.pin and id(gate) not in self.known:
                key = f"{gate.library.name}.{gate.pin}"
                if key not in found:
                    library = next(it for it in self.wanted.libraries if it.file == gate.library.file)
                    found[key] = delays_in(library, gate.library.name, gate.pin, timing)
                delays = found[key]
                if delays:
                    self.known[id(gate)] = delays

    def delay_of(self, gate: Gate) -> Delay:
        """The delay of a gate in time units. The inner gates of a cell take 1 each, and that of its output the rest."""
        known = self.known.get(id(gate))
        if known:
            return self.whole(gate, known, gate.lead, 1)
        if gate.cell in self.timed_cells:
            return Delay(1, 1)
        if gate.written and gate.written.delays:
            scale = self.wanted.unit.femtoseconds if gate.written.in_units else 1
            return self.whole(gate, gate.written.delays, gate.lead, scale)
        return Delay(self.wanted.default, self.wanted.default)

    def whole(self, gate: Gate, delays: Delays, lead: Lead, scale: int) -> Delay:
        """Delays in time units, less the inner gates that come before the gate."""
        rise, fall, off = (None if it is None else in_units(it * scale, self.wanted.unit) for it in delays)
        assert rise is not None and fall is not None
        self.below_one += any(it is not None and it * scale < self.wanted.unit.femtoseconds for it in delays)
        times = [max(1, rise - lead[0]), max(1, fall - lead[1])]
        lets_go = max(1, off - max(lead)) if off is not None and gate.kind in THREE_STATE else None
        longest = max([*times, lets_go or 0])
        if longest > MOST_DELAY:
            why = f"its delay is {longest} of {self.wanted.unit}, and may be {MOST_DELAY}"
            self.faults.append(Fault("the design", 0, gate.name, why, "take a coarser time unit by --unit"))
        return Delay(times[0], times[1], lets_go)
