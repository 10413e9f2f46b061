"""Tokens of modules that mostly fit together: declarations, gates and instances of the modules made before."""
from dataclasses import dataclass, field
from typing import Any, List, Optional, Tuple

from reading.tables import NETS

GATES = {"and": 3, "or": 3, "xor": 3, "nand": 3, "nor": 3, "xnor": 3, "buf": 1, "not": 1, "bufif1": 2, "bufif0": 2, "notif1": 2,
         "notif0": 2}  # fmt: skip
# Kinds of nets; those that each net may be connected to stand first, and ports have them mostly.
KINDS = ["wire", "wire", "wire", *NETS]
JOINED = 5
NAMES = ["a", "b", "c", "d", "e", "f", "n1", "n2", "\\+", "\\a[0]", "_x", "y$", "\\1", "\\$2", "\\wire", "\\n[2]", "q"]
# Names that no net may have, and the longest ones.
BAD_NAMES = ["\\a.b", "\\a'b", "\\$end", "\\.", "x" * 1024, "\\" + "x" * 1024, "x" * 1025, "\\" + "y" * 1025]


def spell(name):
    """A name as it stands in a text: an escaped one ends with white space."""
    return f"{name} " if name.startswith("\\") else name


@dataclass
class Signal:
    """A net that a module has declared."""

    name: str
    bounds: Optional[Tuple[int, int]] = None
    kind: str = ""
    direction: str = ""

    def width(self):
        return 1 if self.bounds is None else abs(self.bounds[0] - self.bounds[1]) + 1

    def range(self):
        return [] if self.bounds is None else ["[", str(self.bounds[0]), ":", str(self.bounds[1]), "]"]

    def words(self):
        return [*([self.kind] if self.kind else []), *self.range()]


@dataclass
class Made:
    """A module that was made: its name, ports and tokens."""

    name: str
    ports: List[Signal] = field(default_factory=list)
    tokens: List[str] = field(default_factory=list)


class Maker:
    """Makes a module. `slips` is how likely each choice is a wrong one, `delay` whether gates may have none of their own."""

    def __init__(self, rng: Any, slips: float, delay: bool):
        self.rng, self.slips, self.delay = rng, slips, delay
        self.signals: List[Signal] = []
        self.gate_names: List[str] = []

    def slip(self):
        return self.rng.random() < self.slips

    def often(self, share):
        return self.rng.random() < share

    def pick(self, choices):
        return self.rng.choice(choices)

    # Names.

    def name(self):
        """A name of a net that is not declared yet, or rarely any."""
        free = [it for it in NAMES if it not in {signal.name for signal in self.signals}]
        if self.slip():
            return self.pick(NAMES + BAD_NAMES)
        return self.pick(free or NAMES)

    def gate_name(self):
        number = len(self.gate_names)
        choices = [f"g{number}", f"\\g{number}", f"g{number}", f"\\g${number}", f"\\${number + 3}"]
        if self.slip():
            choices = [*self.gate_names, "g1$1", "\\$1", "\\g0$2", "a"]
        name = self.pick(choices)
        self.gate_names.append(name)
        return name

    def signal(self, direction):
        bounds = None
        if self.often(0.25):
            low = self.pick([0, 0, 0, 1, 2, 7])
            bounds = (low, low + self.rng.randrange(4))
            bounds = bounds if self.often(0.4) else bounds[::-1]
        kinds = KINDS if not direction or self.often(0.15) else KINDS[:JOINED]
        kind = self.pick(kinds) if self.often(0.25) else ""
        made = Signal(self.name(), bounds, kind, direction)
        self.signals.append(made)
        return made

    # Terminals.

    def of_width(self, width, drives):
        """A signal of this width, whole or a bit of it; an undeclared name or a constant where it may be one."""
        fitting = [it for it in self.signals if it.width() == width and not (drives and it.direction == "input")]
        bits = [it for it in self.signals if it.bounds and width == 1 and not (drives and it.direction == "input")]
        if self.slip():
            fitting, bits = self.signals, [it for it in self.signals if it.bounds]
        if width == 1 and not drives and self.often(0.1):
            return [self.pick(["1'b0", "1'b1", "1'bx", "1'BZ", "1'bX"])]
        if bits and self.often(0.5):
            return self.bit(self.pick(bits))
        if fitting:
            return [spell(self.pick(fitting).name)]
        return self.undeclared() if width == 1 else None

    def undeclared(self):
        made = Signal(self.name())
        self.signals.append(made)
        return [spell(made.name)]

    def bit(self, signal):
        low, high = sorted(signal.bounds)
        index = self.rng.randint(low, high) if not self.slip() else self.pick([low - 1, high + 1, 0, 65535, 65536])
        return [spell(signal.name), "[", str(max(index, 0)), "]"]

    def scalar(self, drives):
        """A terminal of a gate."""
        if self.slip() and self.signals:
            return [spell(self.pick(self.signals).name)]
        if self.slip():
            return ["1'b0"]
        fitting = [it for it in self.signals if not (drives and it.direction == "input")]
        if not fitting or self.often(0.05):
            return self.undeclared()
        signal = self.pick(fitting)
        if not drives and self.often(0.07):
            return [self.pick(["1'b0", "1'b1", "1'bx", "1'bz"])]
        return self.bit(signal) if signal.bounds else [spell(signal.name)]

    # Items.

    def delays(self, kind):
        if self.often(0.35 if self.delay else self.slips):
            return []
        one, two = (self.pick([1, 1, 2, 3, 4, 5, 7, 10]) for _ in "rf")
        if self.slip():
            two = self.pick([0, 1000000, 1000001, 4294967296, 12])
        text = self.pick([str(one), str(one), f"0{one}", f"{one}_"])
        off = [",", str(two), ",", str(self.pick([1, 2, 3, 6, 9]))]
        if self.often(0.4) if GATES[kind] == 2 else self.slip():
            return ["#", "(", text, *off, ")"]
        return self.pick([["#", text], ["#", "(", text, ")"], ["#", "(", text, *off[:2], ")"]])

    def gate(self):
        kind = self.pick(list(GATES))
        tokens = [kind, *self.delays(kind)]
        for number in range(self.pick([1, 1, 1, 2, 3])):
            tokens += [","] if number else []
            tokens += [spell(self.gate_name())] if self.often(0.6) else []
            tokens += self.gate_terminals(kind)
        return [*tokens, ";"]

    def gate_terminals(self, kind):
        inputs = self.rng.randint(1, GATES[kind]) if GATES[kind] == 3 else GATES[kind]
        outputs = self.pick([1, 1, 2, 3]) if kind in ("buf", "not") else 1
        if self.slip():
            inputs = self.pick([0, 1, 2, 3, 64, 65])
        terminals = [self.scalar(place < outputs) for place in range(outputs + inputs)]
        return ["(", *self.listed(terminals), ")"]

    def listed(self, items):
        return [token for number, it in enumerate(items) for token in ([","] if number else []) + it]

    def instance(self, lower):
        of = self.pick(lower)
        tokens = [spell(self.pick(["k", "m", "top", "mm", "\\a.b"]) if self.slip() else of.name)]
        for number in range(self.pick([1, 1, 2])):
            tokens += [","] if number else []
            tokens += [spell(self.gate_name()), "(", *self.connections(of), ")"]
        return [*tokens, ";"]

    def connections(self, of):
        given = [(port, self.connection(port)) for port in of.ports]
        if self.slip():
            self.rng.shuffle(given)
        if self.often(0.5):
            named = [[".", spell(port.name), "(", *it, ")"] for port, it in given if it or self.often(0.5)]
            self.rng.shuffle(named)
            if self.slip() and named:
                named.append(self.pick(named))
            if self.slip():
                named.append([".", spell(self.pick(NAMES)), "(", ")"])
            return self.listed(named)
        if self.often(0.2):
            given = given[: self.rng.randrange(len(given) + 1)]
        return self.listed([it for _, it in given] + ([self.scalar(False)] if self.slip() else []))

    def connection(self, port):
        if self.often(0.12):
            return []
        width = self.pick([1, 2, 3]) if self.slip() else port.width()
        return self.of_width(width, port.direction == "output") or []

    def declaration(self):
        made = self.signal("")
        made.kind = made.kind or "wire"
        return [*made.words(), spell(made.name), ";"]

    # Modules.

    def module(self, name, lower):
        directions = [self.pick(["input", "input", "output"]) for _ in range(self.pick([0, 1, 2, 3, 3, 4, 5]))]
        made = Made(name, [self.signal(it) for it in directions])
        form = self.pick(["inline", "inline", "older"])
        body = self.items(lower)
        if form == "inline":
            head = self.inline(made.ports)
        else:
            head = ["(", *self.listed([[spell(it.name)] for it in made.ports]), ")"]
            body = self.directions(made.ports) + body
        made.tokens = ["module", spell(name), *(head if made.ports or self.often(0.3) else []), ";"]
        made.tokens += [token for item in self.moved(body) for token in item] + ["endmodule"]
        return made

    def items(self, lower):
        body = [self.declaration() for _ in range(self.pick([0, 0, 1, 2]))]
        for _ in range(self.pick([0, 1, 2, 3, 4, 6])):
            body.append(self.instance(lower) if lower and self.often(0.4) else self.gate())
        return body

    def moved(self, body):
        """Two items may change places, so that a name is used before it is declared."""
        if len(body) > 1 and self.slip():
            one, other = self.rng.sample(range(len(body)), 2)
            body[one], body[other] = body[other], body[one]
        return body

    def inline(self, ports):
        tokens, last = ["("], None
        for number, port in enumerate(ports):
            tokens += [","] if number else []
            said = [port.direction, *port.words()]
            tokens += [*([] if said == last and self.often(0.6) else said), spell(port.name)]
            last = said
        return [*tokens, ")"]

    def directions(self, ports):
        """The direction items of a module of the older form, with declarations of nets before or behind some of them."""
        body = []
        for port in ports:
            net = ["wire", *port.range(), spell(port.name), ";"]
            if port.kind:
                net[0] = port.kind
            item = [port.direction, *port.range(), spell(port.name), ";"]
            way = self.rng.randrange(4)
            if way == 0:
                body += [item, net]
            elif way == 1:
                body += [net, item]
            else:
                body.append([port.direction, *port.words(), spell(port.name), ";"])
        if self.slip() and body:
            body.append(self.pick(body))
        if self.slip() and body:
            body.pop()
        return body
