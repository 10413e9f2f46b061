"""The text of a design: a module for each scope, those with the same gates written once. All nets are scalars."""
import re
from typing import Dict, List, NamedTuple, Optional, Set, Tuple

from .gates import Gate
from .netlist import Bit
from .scopes import Net, Scope, Scopes, Taken
from .times import Unit

KEYWORDS = set(
    """always and assign automatic begin buf bufif0 bufif1 case casex casez cmos deassign default defparam disable edge else
    end endcase endfunction endgenerate endmodule endprimitive endspecify endtable endtask event for force forever fork
    function generate genvar if initial inout input integer join large localparam macromodule medium module nand negedge nmos
    nor not notif0 notif1 or output parameter pmos posedge primitive pull0 pull1 pulldown pullup rcmos real realtime reg
    release repeat rnmos rpmos rtran rtranif0 rtranif1 scalared signed small specify specparam strong0 strong1 supply0
    supply1 table task time tran tranif0 tranif1 tri tri0 tri1 triand trior trireg unsigned uwire vectored wait wand weak0
    weak1 while wire wor xnor xor cell config design endconfig highz0 highz1 ifnone incdir include instance liblist library
    noshowcancelled pulsestyle_ondetect pulsestyle_onevent showcancelled use""".split()
)

# How long the ports of a module may be in one line.
LINE = 90


class Delay(NamedTuple):
    """The delays of a gate in time units."""

    rise: int
    fall: int
    off: Optional[int] = None

    def __str__(self) -> str:
        if self.off is not None:
            return f"#({self.rise},{self.fall},{self.off})"
        return f"#{self.rise}" if self.rise == self.fall else f"#({self.rise},{self.fall})"


def word(name: str) -> str:
    """A name as a text writes it."""
    return name if re.fullmatch(r"[A-Za-z_][\w$]*", name) and name not in KEYWORDS else f"\\{name} "


class Writer:
    """Writes the modules of a design, each behind those that have instances of it."""

    def __init__(self, scopes: Scopes, delays: Dict[int, Delay], unit: Unit, top: str) -> None:
        self.scopes, self.delays, self.unit = scopes, delays, unit
        self.top = re.sub(r"[^\x21-\x26\x28-\x7e]|[.\\]", "_", top)
        self.ports: Dict[Tuple[str, ...], Dict[int, Net]] = {}
        self.driven: Dict[Tuple[str, ...], Set[int]] = {}
        self.modules: Dict[str, str] = {}
        self.texts: List[str] = []
        self.taken = Taken()
        self.taken.fresh(self.top)
        self.pass_ports(scopes.root)

    def text(self) -> str:
        top = f"module {word(self.top)}{self.module(self.scopes.root)}"
        whole = "\n".join([top, *reversed(self.texts)])
        return f"`timescale {self.unit}/{self.unit}\n\n{whole}"

    def pass_ports(self, scope: Scope) -> None:
        """Finds the nets that come into each scope from around it, in order of their use, and those driven in it."""
        for _, gate in scope.gates:
            for at, bit in enumerate((*gate.inputs, gate.output)):
                if isinstance(bit, int):
                    self.pass_port(scope.path, self.scopes.nets[bit], at == len(gate.inputs))
        for inner in scope.inner.values():
            self.pass_ports(inner)

    def pass_port(self, path: Tuple[str, ...], net: Net, is_driven: bool) -> None:
        for depth in range(len(path), len(net.home), -1):
            at, key = path[:depth], id(net)
            self.ports.setdefault(at, {}).setdefault(key, net)
            if is_driven:
                self.driven.setdefault(at, set()).add(key)

    def module(self, scope: Scope) -> str:
        """The text of the module of a scope, behind its name."""
        ports = self.in_order(scope)
        local = {id(it): it.name for it in scope.nets}
        for net in ports:
            local[id(net)] = scope.fresh(net.local_name(scope.path))
        driven = self.driven.get(scope.path, set())
        header = [f"{'output' if id(it) in driven else 'input'} {word(local[id(it)]).strip()}" for it in ports]
        lines = self.nets(scope, header) + self.gates(scope, local) + self.instances(scope, local)
        words = [it + " " * ("\\" in it) for it in header]
        around, between = ("\n  ", ",\n  ") if sum(map(len, words)) > LINE else ("", ", ")
        return "".join(f"{line}\n" for line in [f"({around}{between.join(words)});", *lines, "endmodule"])

    def in_order(self, scope: Scope) -> List[Net]:
        """The nets that come into a scope: in the order of the ports of what it is an instance of, the others behind them."""
        places = {name: place for place, name in enumerate(scope.kind.ports if scope.kind else ())}
        nets = self.ports.get(scope.path, {}).values()
        return sorted(nets, key=lambda it: places.get(it.local_name(scope.path), len(places)))

    def nets(self, scope: Scope, header: List[str]) -> List[str]:
        """The declarations of the nets that stand in a scope; ports of the top go to its header."""
        lines = []
        for net in scope.nets:
            if net.direction:
                kind = "" if net.kind == "wire" else f"{net.kind} "
                header.append(f"{net.direction} {kind}{word(net.name).strip()}")
            else:
                lines.append(f"  {net.kind} {word(net.name)};")
            if net.bit == "x":
                lines.append(f"  buf #1 {word(scope.fresh(net.name + '$x'))}({word(net.name)}, 1'bx);")
        return lines

    def gates(self, scope: Scope, local: Dict[int, str]) -> List[str]:
        return [
            f"  {gate.kind} {self.delays[id(gate)]} {word(name)}({self.terminals(gate, local)});"
            for name, gate in scope.gates
        ]

    def terminals(self, gate: Gate, local: Dict[int, str]) -> str:
        return ", ".join(self.terminal(it, local) for it in (gate.output, *gate.inputs))

    def terminal(self, bit: Bit, local: Dict[int, str]) -> str:
        return f"1'b{bit}" if isinstance(bit, str) else word(local[id(self.scopes.nets[bit])])

    def instances(self, scope: Scope, local: Dict[int, str]) -> List[str]:
        lines = []
        for name, inner in scope.inner.items():
            kind = self.shared(self.module(inner), inner)
            nets = ", ".join(word(local[id(it)]) for it in self.in_order(inner))
            lines.append(f"  {word(kind)} {word(name)}({nets});")
        return lines

    def shared(self, text: str, scope: Scope) -> str:
        """The name of the module with this text; it is given one where it is the first."""
        if text not in self.modules:
            name = self.taken.fresh(re.sub(r"[^\w$]", "_", scope.kind.name if scope.kind else scope.path[-1]))
            self.modules[text] = name
            self.texts.append(f"module {word(name)}{text}")
        return self.modules[text]
