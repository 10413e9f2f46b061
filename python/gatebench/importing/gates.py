"""The gates of a flat netlist: each cell by its model, each gate of a text as it is written."""
import re
from typing import Dict, List, NamedTuple, Optional, Tuple

from .fault import Fault
from .liberty import Library, LibertyCell
from .models import Lead, Model, ModelGate
from .netlist import Bit, Cell, Kind, Netlist
from .power import POWER
from .sources import UNKNOWN_PREFIX, Primitive
from .yosys_cells import model_of

SWITCH_CURE = "write the cell as gates, or give its Liberty file by --lib"


class Gate(NamedTuple):
    """A gate with the nets at its terminals. `cell` and `pin` are the instance and the output by which delays name it;
    `library` has its cell where it is one of a Liberty file. `written` are the delays of its text."""

    name: str
    kind: str
    output: Bit
    inputs: Tuple[Bit, ...]
    cell: str = ""
    pin: str = ""
    written: Optional[Primitive] = None
    library: Optional[LibertyCell] = None
    lead: Lead = (0, 0)


class PinName(NamedTuple):
    """A name that the model of a cell gives a net: the cell's name, and that of the pin or the inner net."""

    cell: str
    name: str
    bit: Bit


class Gates:
    """All gates of a netlist, and what the cells call their nets. `made_up` counts the cells that yosys made."""

    def __init__(self, netlist: Netlist, primitives: Dict[str, Primitive], libraries: List[Library]) -> None:
        self.primitives = primitives
        self.cells: Dict[str, LibertyCell] = {}
        for library in libraries:
            for name, known in library.cells.items():
                self.cells.setdefault(name, known)
        self.gates: List[Gate] = []
        self.names: List[PinName] = []
        # What each cell is an instance of.
        self.kinds: Dict[str, Kind] = {}
        self.faults: List[Fault] = []
        bits = [it.bit for it in netlist.names] + [bit for it in netlist.cells for pin in it.pins.values() for bit in pin]
        self.made_up = sum(it.hidden for it in netlist.cells)
        self.last = max((it for it in bits if isinstance(it, int)), default=1)
        for cell in netlist.cells:
            self.cell(cell)

    def fresh(self) -> int:
        self.last += 1
        return self.last

    def fault(self, cell: Cell, word: str, why: str, cure: str) -> None:
        self.faults.append(Fault(cell.place.file, cell.place.line, word, why, cure))

    def cell(self, cell: Cell) -> None:
        primitive = self.primitives.get(cell.type)
        if primitive:
            self.primitive(cell, primitive)
        elif cell.type in self.cells:
            self.library_cell(cell, self.cells[cell.type])
        else:
            model = model_of(cell.type)
            if model:
                self.instance(cell, model, None)
            else:
                self.fault(cell, *unknown(cell))

    def primitive(self, cell: Cell, primitive: Primitive) -> None:
        """A gate of the text, or several for the outputs of one."""
        inputs = tuple(cell.pins[f"i{at}"][0] for at in range(primitive.terminals - primitive.outputs))
        for at in range(primitive.outputs):
            output = cell.pins[f"o{at}"][0]
            name = cell.name if primitive.outputs == 1 else f"{cell.name}${at + 1}"
            if isinstance(output, str):
                self.fault(cell, cell.name, "it drives a constant", "connect its output to a net")
            self.gates.append(Gate(name, primitive.kind, output, inputs, written=primitive))

    def library_cell(self, cell: Cell, known: LibertyCell) -> None:
        if known.fault:
            self.faults.append(known.fault)
        elif known.model:
            self.instance(cell, known.model, known)

    def instance(self, cell: Cell, model: Model, library: Optional[LibertyCell]) -> None:
        """The gates of a cell. That of a cell of yosys with one gate goes by the name of the cell."""
        nets = self.nets_of(cell, model)
        is_gate = library is None and len(model.gates) == 1
        for gate in model.gates:
            self.connect(cell, model, gate, nets)
            inputs = tuple(nets[it] for it in gate.inputs)
            name = cell.name if is_gate else f"{cell.name}.{gate.name}"
            owner = "" if is_gate else cell.name
            self.gates.append(
                Gate(name, gate.kind, nets[gate.output], inputs, owner, gate.pin or "", None, library, gate.lead)
            )
        if not is_gate:
            self.kinds[cell.name] = Kind(cell.type.strip("$_"), tuple(model.pins))
            self.names += [PinName(cell.name, net, bit) for net, bit in nets.items() if isinstance(bit, int)]

    def connect(self, cell: Cell, model: Model, gate: ModelGate, nets: Dict[str, Bit]) -> None:
        """Gives a net to each terminal of a gate of a model that has none yet."""
        for net in (gate.output, *gate.inputs):
            if net not in nets:
                nets[net] = net if net in ("0", "1") else self.fresh()
        if isinstance(nets[gate.output], str):
            self.fault(cell, gate.output, "this output of the cell is connected to a constant", "connect it to a net")

    def nets_of(self, cell: Cell, model: Model) -> Dict[str, Bit]:
        """The nets at the pins of a cell. Pins that supply power are passed over; an input without a net reads z."""
        nets: Dict[str, Bit] = {}
        for pin, bits in cell.pins.items():
            by_order = re.fullmatch(r"\$(\d+)", pin)
            if by_order and int(by_order[1]) <= len(model.pins):
                pin = model.pins[int(by_order[1]) - 1]
            if pin in model.pins:
                if len(bits) == 1:
                    nets[pin] = bits[0]
                elif bits:
                    self.fault(cell, pin, f"{len(bits)} bits at a pin of one", "connect one bit")
            elif pin not in model.power and not POWER.fullmatch(pin):
                pins = ", ".join(model.pins)
                self.fault(cell, pin, f"the cell {cell.type} has no pin by this name", f"it has {pins}")
        for gate in model.gates:
            for pin in gate.inputs:
                if pin in model.pins and pin not in nets and all(it.output != pin for it in model.gates):
                    nets[pin] = "z"
        return nets


def unknown(cell: Cell) -> Tuple[str, str, str]:
    """The word, the reason and the cure for a cell of a type that is not known."""
    type = cell.type
    if type.startswith(UNKNOWN_PREFIX):
        return type[len(UNKNOWN_PREFIX) :], "switches, pulls and user-defined primitives are not imported", SWITCH_CURE
    if type.startswith("$"):
        return type, "yosys has no gates for it", "write it otherwise, or map it with --synthesize"
    return type, "no file has a module or a cell of this name", "give its library by --lib, as Liberty or as Verilog"
