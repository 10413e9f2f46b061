"""The scopes of a design: which gates and nets stand in each, and what they are called.

A name with dots is a path of scopes, also where the text wrote it as one escaped name. A net stands in the outermost scope
that has a name for it and from which all its gates can be reached; where none has, it stands in the innermost one that
reaches all, and a slash stands for each dot that is left."""
import re
from typing import Dict, Iterable, List, NamedTuple, Optional, Set, Tuple

from .fault import Fault
from .gates import Gate, Gates
from .netlist import Bit, Kind, NetName, Netlist

Path = Tuple[str, ...]

# The kind of a net that has no drivers and is constant from moment 0 on; one that is z is a wire, and an x needs a gate.
CONSTANT_KINDS = {"0": "tri0", "1": "tri1", "x": "wire", "z": "wire"}

# The most levels of modules, the top being one.
MAX_LEVELS = 32


class Name(NamedTuple):
    """A name of a net or a gate: its scopes, and its last part. `typed` is what the text calls it."""

    scope: Path
    last: str
    typed: str


class Net:
    """A net of the design, or a name of a constant: where it stands, and by which name. `direction` is that of a port of
    the top."""

    def __init__(self, bit: Bit) -> None:
        self.bit = bit
        self.names: List[Name] = []
        self.users: Optional[Path] = None
        self.home: Path = ()
        self.name = ""
        self.direction = ""
        self.kind = CONSTANT_KINDS[bit] if isinstance(bit, str) else "wire"
        self.locals: Dict[Path, str] = {}

    def local_name(self, scope: Path) -> str:
        """What the net is called in a scope that it comes into: the first name that it has there, or its own."""
        if not self.locals:
            self.locals = {it.scope: it.last for it in reversed(self.names)}
        return self.locals.get(scope, self.name)

    def use(self, scope: Path) -> None:
        """Says that a gate of this scope reads or drives it."""
        self.users = scope if self.users is None else common(self.users, scope)

    @property
    def path(self) -> str:
        return ".".join((*self.home, self.name))


class Taken:
    """Names that are given once."""

    def __init__(self) -> None:
        self.names: Set[str] = set()
        self.numbers: Dict[str, int] = {}

    def fresh(self, wanted: str) -> str:
        """A name that was not given before: the wanted one, or that with a number."""
        name, number = wanted, self.numbers.get(wanted, 1)
        while name in self.names:
            number += 1
            name = f"{wanted}${number}"
        self.numbers[wanted] = number
        self.names.add(name)
        return name


class Scope:
    """A scope: the gates, nets and scopes in it. `kind` is what it is an instance of, where that is known."""

    def __init__(self, path: Path, kind: Optional[Kind] = None) -> None:
        self.path, self.kind = path, kind
        self.gates: List[Tuple[str, Gate]] = []
        self.nets: List[Net] = []
        self.inner: Dict[str, Scope] = {}
        self.taken = Taken()

    def fresh(self, wanted: str) -> str:
        return self.taken.fresh(wanted)


def common(one: Path, other: Path) -> Path:
    """The innermost scope that both are in."""
    same = 0
    while same < min(len(one), len(other)) and one[same] == other[same]:
        same += 1
    return one[:same]


def plain(part: str) -> str:
    """A part of a name with the bytes that one may have."""
    return re.sub(r"[^\x21-\x26\x28-\x7e]", "_", part) or "_"


def name_of(typed: str) -> Name:
    """Takes a name apart at its dots. One whose parts can be no scopes is one part, with slashes."""
    parts = typed.split(".")
    if any(not it or it == "$end" for it in parts):
        parts = [typed.replace(".", "/").replace("$end", "$end_")]
    limit = MAX_LEVELS - 1
    if len(parts) > limit:
        parts = [*parts[: limit - 1], "/".join(parts[limit - 1 :])]
    *scope, last = map(plain, parts)
    return Name(tuple(scope), last, typed)


def is_made(name: Name) -> bool:
    """Whether a tool made the name, as `_12_`."""
    return bool(re.fullmatch(r"_\w*\d+_(\[\d+\])?", name.last))


class Scopes:
    """The scopes of a flat netlist. `net_names` and `gate_names` have what the text calls nets and gates, where that is not
    what they are called here, or has a scope, which may be written in several ways."""

    def __init__(self, netlist: Netlist, gates: Gates) -> None:
        self.root, self.kinds = Scope(()), {**netlist.kinds, **gates.kinds}
        self.nets: Dict[int, Net] = {}
        self.constants: List[Net] = []
        self.ports: List[Net] = []
        self.nameless = 0
        self.faults: List[Fault] = []
        self.net_names: Dict[str, str] = {}
        self.gate_names: Dict[str, str] = {}
        names = [name_of(it.name) for it in gates.gates]
        self.place_ports(netlist)
        self.use_nets(names, gates.gates)
        self.name_nets(netlist, gates)
        ports = set(map(id, self.ports))
        for net in [*self.nets.values(), *self.constants]:
            if id(net) not in ports:
                self.place_net(net)
        for name, gate in zip(names, gates.gates):
            self.place_gate(name, gate)
        self.map_only_gates(self.root)
        self.map_nets()

    def net(self, bit: int) -> Net:
        if bit not in self.nets:
            self.nets[bit] = Net(bit)
        return self.nets[bit]

    def scope(self, path: Path) -> Scope:
        """The scope at a path; it is made where it is not there."""
        at = self.root
        for place, part in enumerate(path):
            if part not in at.inner:
                at.taken.names.add(part)
                at.inner[part] = Scope(path[: place + 1], self.kinds.get(".".join(path[: place + 1])))
            at = at.inner[part]
        return at

    def place_ports(self, netlist: Netlist) -> None:
        """The ports of the top, in order. Of several that are one net an input is the port, or else the first."""
        inputs = {it.bit for it in netlist.ports if it.direction == "input"}
        placed: Set[Bit] = set()
        for port in netlist.ports:
            is_input = port.direction == "input"
            if isinstance(port.bit, int) and (port.bit in placed or not is_input and port.bit in inputs):
                continue
            placed.add(port.bit)
            net = self.net(port.bit) if isinstance(port.bit, int) else Net(port.bit)
            net.name = self.root.fresh(plain(port.name.replace(".", "/")))
            net.direction = "input" if is_input else "output"
            net.names.append(Name((), net.name, port.name))
            self.ports.append(net)
            self.root.nets.append(net)

    def use_nets(self, names: Iterable[Name], gates: Iterable[Gate]) -> None:
        for name, gate in zip(names, gates):
            self.scope(name.scope)
            for bit in (gate.output, *gate.inputs):
                if isinstance(bit, int):
                    self.net(bit).use(name.scope)

    def name_nets(self, netlist: Netlist, gates: Gates) -> None:
        ports = {it.name for it in netlist.ports}
        for net in netlist.names:
            if isinstance(net.bit, int):
                self.net(net.bit).names.append(name_of(net.name))
                self.give_kind(self.net(net.bit), net)
            elif net.name not in ports:
                self.constants.append(Net(net.bit))
                self.constants[-1].names.append(name_of(net.name))
        for pin in gates.names:
            if isinstance(pin.bit, int):
                self.net(pin.bit).names.append(name_of(f"{pin.cell}.{pin.name}"))

    def give_kind(self, net: Net, name: NetName) -> None:
        """A net is of the kind that one of its names has; two kinds are a fault."""
        if name.kind != "wire":
            if net.kind not in ("wire", name.kind):
                why = f"the net is of the kinds {net.kind} and {name.kind}"
                self.faults.append(Fault("the design", 0, name.name, why, "declare it alike everywhere"))
            net.kind = name.kind

    def place_net(self, net: Net) -> None:
        """Finds the scope and the name of a net that is no port. One that no gate reads or drives stands where its
        outermost name is, and is left out where a tool made all its names."""
        outer = sorted(net.names, key=lambda it: (len(it.scope), is_made(it)))
        if net.users is None and all(map(is_made, outer)):
            return
        users = outer[0].scope if net.users is None else net.users
        best = next((it for it in outer if users[: len(it.scope)] == it.scope), None)
        if best:
            home, wanted = best.scope, best.last
        elif outer:
            home = common(users, outer[0].scope)
            wanted = "/".join((*outer[0].scope[len(home) :], outer[0].last))
        else:
            self.nameless += 1
            home, wanted = users, f"_n{self.nameless}_"
        scope = self.scope(home)
        net.home, net.name = home, scope.fresh(wanted)
        scope.nets.append(net)

    def place_gate(self, name: Name, gate: Gate) -> None:
        scope = self.scope(name.scope)
        own = scope.fresh(name.last)
        scope.gates.append((own, gate))
        path = ".".join((*name.scope, own))
        if name.typed != path or name.scope:
            self.gate_names[name.typed] = path
        if gate.cell and gate.pin:
            self.gate_names.setdefault(gate.cell, path)

    def map_only_gates(self, scope: Scope) -> None:
        """An instance of one gate stands for it."""
        for inner in scope.inner.values():
            path = ".".join(inner.path)
            if len(inner.gates) == 1 and not inner.inner:
                self.gate_names.setdefault(path, f"{path}.{inner.gates[0][0]}")
            self.map_only_gates(inner)

    def map_nets(self) -> None:
        for net in [*self.ports, *self.nets.values(), *self.constants]:
            for name in net.names:
                if net.name and (name.typed != net.path or name.scope):
                    self.net_names[name.typed] = net.path
