"""The gates of a design: by the lines that the program lists them in, or read from its text."""
from typing import Dict, List, NamedTuple, Optional, Sequence, Tuple

from .edits import fall_word
from .lines import line_of
from .netlist_text import Instance, Module, Range, Terminal, TextGate, Unread, bits_of, modules_of


class Gate(NamedTuple):
    """A gate by its name in commands, with its delays. An input is a net, or a constant such as `1'b0`."""

    name: str
    kind: str
    rise: int
    fall: int
    off: Optional[int]
    output: str
    inputs: Tuple[str, ...]

    @property
    def module(self) -> str:
        """The instance that it stands in: its name before the last dot."""
        return self.name.rpartition(".")[0]

    def wired(self, inputs: Sequence[str]) -> str:
        """The edit that connects it to other inputs."""
        return line_of("wire", self.name, self.output, *inputs)

    def delayed(self, rise: int, fall: int, off: Optional[int] = None) -> str:
        """The edit that gives it other delays."""
        return line_of("delay", self.name, rise, fall_word(fall, off))


def gate_of(line: str) -> Gate:
    """The gate that a line shows as the edit `gate` has it behind its first word. ValueError where it is no such line."""
    name, kind, rise, falls, output, *inputs = line.split()
    return Gate(name, kind, int(rise), *fall_of(falls), output, tuple(inputs))


def fall_of(word: str) -> Tuple[int, Optional[int]]:
    """The fall that a line writes, and the turn-off delay behind its slash."""
    fall, _, off = word.partition("/")
    return int(fall), int(off) if off else None


class Netlist(NamedTuple):
    """The inputs, the outputs and the gates of a design, all bits and instances by names of their own."""

    name: str
    inputs: List[str]
    outputs: List[str]
    gates: List[Gate]

    def readers(self) -> Dict[str, List[Tuple[Gate, int]]]:
        """Of each net that gates read their pins: a gate, and the place among its inputs."""
        found: Dict[str, List[Tuple[Gate, int]]] = {}
        for gate in self.gates:
            for place, net in enumerate(gate.inputs):
                found.setdefault(net, []).append((gate, place))
        return found


def netlist_of(text: str, delay: Optional[int] = None) -> Netlist:
    """The netlist of a text that the program takes. Gates without a delay have this one. ValueError where it can't be read."""
    modules = modules_of(text)
    used = {it.module for module in modules.values() for it in module.instances}
    tops = [module for name, module in modules.items() if name not in used]
    if len(tops) != 1:
        raise Unread(f"{len(tops)} modules are used by no other")
    [top] = tops
    gates: List[Gate] = []
    Spelling(modules, delay or 0, gates).instance("", top, {})

    def ports(direction: str) -> List[str]:
        found = (port for port in top.ports if top.directions[port] == direction)
        return [bit for port in found for bit in bits_of(top.ranges[port], port)]

    return Netlist(top.name, ports("input"), ports("output"), gates)


def read_netlist(path: str, delay: Optional[int] = None) -> Netlist:
    """The netlist of a file. OSError where it can't be read."""
    with open(path, encoding="latin-1") as file:
        return netlist_of(file.read(), delay)


class Spelling:
    """Writes all instances out: adds the gates of modules by their names in commands to `gates`."""

    def __init__(self, modules: Dict[str, Module], delay: int, gates: List[Gate]) -> None:
        self.modules, self.delay, self.gates = modules, delay, gates

    def instance(self, path: str, module: Module, given: Dict[str, Sequence[str]]) -> None:
        """Adds the gates below this path. `given` has the nets that are connected to the ports."""
        for gate in module.gates:
            output, *inputs = (self.nets(path, module, given, it)[0] for it in [gate.output, *gate.inputs])
            self.gates.append(Gate(path + gate.name, gate.kind, *self.delays(gate), output, tuple(inputs)))
        for it in module.instances:
            of = self.modules[it.module]
            inner = {port: self.nets(path, module, given, end) for port, end in connections(it, of) if end is not None}
            self.instance(f"{path}{it.name}.", of, inner)

    def nets(self, path: str, module: Module, given: Dict[str, Sequence[str]], end: Terminal) -> Sequence[str]:
        """The nets that a terminal of a module stands for, or its constant."""
        if "'" in end.name:
            return [end.name]
        bounds: Range = module.ranges.get(end.name)
        bits = given.get(end.name) or bits_of(bounds, path + end.name)
        if end.at is None or bounds is None:
            return bits
        return [bits[abs(end.at - bounds[0])]]

    def delays(self, gate: TextGate) -> Tuple[int, int, Optional[int]]:
        rise, fall, *off = gate.delays if len(gate.delays) > 1 else (gate.delays or (self.delay,)) * 2
        return rise, fall, off[0] if off else None


def connections(instance: Instance, of: Module) -> List[Tuple[str, Optional[Terminal]]]:
    return list(instance.by_name.items()) or list(zip(of.ports, instance.by_order))
