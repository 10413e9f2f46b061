"""The single stuck-at faults of a netlist as what-ifs."""
from typing import Dict, Iterable, Iterator, List, Tuple

from ..netlist import Gate, Netlist
from ..values import constant
from .what_if import WhatIf

Pins = List[Tuple[Gate, int]]

# What the inputs of a gate have to be for its output to be 0, and for it to be 1. Kinds that are not here take one input.
THREE_STATE = {"bufif1": ("01", "11"), "bufif0": ("00", "10"), "notif1": ("11", "01"), "notif0": ("10", "00")}
INVERTING = ("nand", "nor", "xnor", "not")


def faults_of(netlist: Netlist, seen: Iterable[str] = ()) -> Iterator[WhatIf]:
    """Each pin of each gate and each input of the design, stuck at 0 and at 1.

    The pin that alone reads a net has the fault of the net, which is listed once, with what drives it. `seen` are nets that are
    also read from outside."""
    readers, is_seen = netlist.readers(), set(seen)
    drivers: Dict[str, int] = {}
    for gate in netlist.gates:
        drivers[gate.output] = drivers.get(gate.output, 0) + 1
    for net in netlist.inputs:
        yield from stuck_pins(net, "", readers.get(net, []))
    for gate in netlist.gates:
        line = gate.output if drivers[gate.output] == 1 else f"{gate.output} from {gate.name}"
        yield from stuck_output(line, gate)
    inputs = set(netlist.inputs)
    for net, pins in readers.items():
        sources = drivers.get(net, 0) + (net in inputs)
        if "'" not in net and (len(pins) + (net in is_seen) > 1 or sources != 1):
            for gate, at in pins:
                yield from stuck_pins(branch(net, gate, at), gate.module, [(gate, at)])


def branch(net: str, gate: Gate, at: int) -> str:
    """What the pin of a gate is called."""
    return f"{net} at {gate.name}" if gate.inputs.count(net) == 1 else f"{net} at input {at + 1} of {gate.name}"


def stuck_output(line: str, gate: Gate) -> Iterator[WhatIf]:
    for value in "01":
        if gate.kind in THREE_STATE:
            inputs = THREE_STATE[gate.kind][int(value)]
        else:
            inputs = value if gate.kind not in INVERTING else "10"[int(value)]
        edit = gate.wired([constant(it) for it in inputs])
        yield WhatIf(f"{line} stuck at {value}", gate.module, (edit,), (gate.wired(gate.inputs),))


def stuck_pins(line: str, module: str, pins: Pins) -> Iterator[WhatIf]:
    """The faults of a line that these pins read. A line that none reads has none that shows."""
    gates: Dict[str, Gate] = {gate.name: gate for gate, _ in pins}
    places = {name: {at for gate, at in pins if gate.name == name} for name in gates} if len(pins) > 1 else None
    for value in "01":
        edits = []
        for gate in gates.values():
            stuck = places[gate.name] if places else {at for _, at in pins}
            edits.append(gate.wired([constant(value) if at in stuck else net for at, net in enumerate(gate.inputs)]))
        undo = tuple(gate.wired(gate.inputs) for gate in gates.values())
        yield WhatIf(f"{line} stuck at {value}", module, tuple(edits), undo)
