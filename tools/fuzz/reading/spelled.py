"""The passes over the modules of a text: faults of instances and of the modules together, and the design that is spelled."""
from functools import lru_cache

from . import design
from .grammar import Reader
from .tables import MAX_GATES, MAX_INSTANCES, MAX_LEVELS, MAX_NAME, MAX_NETS, MAX_TEXT, TEXT_FAULTS, Fault, is_joined


def width(module, terminal):
    """How many bits a connection has."""
    whole = terminal.name and terminal.index is None
    return len(module.nets[terminal.name].bits()) if whole else 1


def connected(instance, ports):
    """What is connected to which port, port by port, for an instance whose connections fit the ports."""
    return instance.by_name or list(zip(ports, instance.by_order))


def check_instance(text, module, instance):
    of = text.modules.get(instance.module)
    if of is None:
        raise Fault("UnknownModule", instance.place)
    named = [port for port, _ in instance.by_name]
    if len(instance.by_order) > len(of.ports) or len(set(named)) < len(named) or not set(named) <= set(of.ports):
        raise Fault("PortCount", instance.place)
    for port, terminal in connected(instance, of.ports):
        net = of.nets[port]
        if terminal and width(module, terminal) != len(net.bits()):
            raise Fault("WidthMismatch", instance.place)
        if terminal and terminal.value and net.direction == "output":
            raise Fault("PortKind", instance.place)


def top_of(text):
    """The one module that no module has an instance of."""
    inside = {name: {it.module for it in module.instances} for name, module in text.modules.items()}

    def is_among_its_own(name):
        found, left = set(), [name]
        while left:
            further = inside[left.pop()] - found
            found |= further
            left += further
        return name in found

    for name, module in text.modules.items():
        if is_among_its_own(name):
            raise Fault("Recursive", module.place)
    tops = [module for name, module in text.modules.items() if not any(name in it for it in inside.values())]
    if not tops:
        raise Fault("NoTop", line=1)
    if len(tops) > 1:
        raise Fault("ManyTops", tops[1].place)
    return tops[0]


class Spelling:
    """Makes the design of a text's modules, from the top down. A bit is a net's name, or a constant with its apostrophe."""

    def __init__(self, text, top):
        self.text, self.top = text, top
        self.nets, self.gates, self.faults = {}, {}, set()

        @lru_cache(maxsize=None)
        def size(name):
            """The levels of modules from this one down, and the instances in it."""
            inside = [size(it.module) for it in text.modules[name].instances]
            return 1 + max((it[0] for it in inside), default=0), sum(1 + it[1] for it in inside)

        levels, instances = size(top.name)
        if levels > MAX_LEVELS or instances > MAX_INSTANCES:
            raise Fault("TooMany", top.place)

    def note(self, fault, holds):
        if holds:
            self.faults.add(fault)

    def new_net(self, path, module, name):
        """The bits of a net that an instance of this module adds."""
        net = module.nets[name]
        bits = net.flat(path + name)
        made = design.Net(net.kind or "wire", module is self.top and net.direction == "input")
        self.note("BadName", any(len(bit) > MAX_NAME for bit in bits))
        self.nets.update(dict.fromkeys(bits, made))
        self.note("TooMany", len(self.nets) > MAX_NETS)
        return bits

    def bits_of(self, module, nets, terminal):
        """The bits that a terminal or a connection stands for, among the bits of the instance's nets."""
        if terminal.value:
            return [f"1'b{terminal.value}"]
        bits = nets[terminal.name]
        return bits if terminal.index is None else [bits[module.nets[terminal.name].bits().index(terminal.index)]]

    def instance(self, path, module, given):
        """Adds the nets and gates of an instance on this path, whose ports are given these bits, and all that is in it."""
        nets = {}
        for name, net in module.nets.items():
            if name in given:
                nets[name] = given[name]
                joined = {self.nets[bit].kind for bit in given[name] if "'" not in bit}
                self.note("PortKind", not all(is_joined(net.kind or "wire", kind) for kind in joined))
            else:
                nets[name] = self.new_net(path, module, name)
        for gate in module.gates:
            self.gate(path, module, nets, gate)
        for it in module.instances:
            of = self.text.modules[it.module]
            inner = {port: self.bits_of(module, nets, bit) for port, bit in connected(it, of.ports) if bit}
            self.instance(f"{path}{it.name}.", of, inner)

    def gate(self, path, module, nets, gate):
        output, *inputs = (self.bits_of(module, nets, it)[0] for it in [gate.output, *gate.inputs])
        name = path + gate.name
        self.gates[name] = design.Gate(gate.kind, gate.delays, output, tuple(inputs))
        self.note("BadName", len(name) > MAX_NAME)
        self.note("TooMany", len(self.gates) > MAX_GATES)
        self.note("PortKind", "'" in output)
        self.note("DrivenInput", output in self.nets and self.nets[output].is_input)

    def made(self):
        self.instance("", self.top, {})
        for fault in ("PortKind", "BadName", "TooMany", "DrivenInput"):
            if fault in self.faults:
                raise Fault(fault, self.top.place)
        return design.Design(self.top.name, self.text.unit or ("1", "ns"), self.nets, self.gates)


def read(text, default_delay):
    """The design that a text spells."""
    if len(text) > MAX_TEXT:
        raise Fault("Text", line=1)
    said = Reader(text, default_delay).read()
    for module in said.modules.values():
        for instance in module.instances:
            check_instance(said, module, instance)
    return Spelling(said, top_of(said)).made()


def refusal(text, fault):
    """What the program says of a text with this fault."""
    line = fault.line or text.count(b"\n", 0, fault.place) + 1
    return b"line %d: %d %s\n" % (line, TEXT_FAULTS[fault.name], fault.name.encode())
