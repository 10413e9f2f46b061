"""Cells as gates: combinational functions, and flip-flops and latches of nands.

A flip-flop is the one of six nands: while the clock is 0 the two in the middle are 1 and the last two hold; at its rise one
of them falls, and holds what it took for as long as the clock is 1."""
from typing import Dict, List, NamedTuple, Optional, Set, Tuple

from .expression import Expression, inverted

INVERTED = {"and": "nand", "or": "nor", "xor": "xnor", "nand": "and", "nor": "or", "xnor": "xor"}


# How many gates come before a rise and before a fall.
Lead = Tuple[int, int]


class ModelGate(NamedTuple):
    """A gate within a cell. Its terminals are pins, inner nets or constants; `pin` is the output that it drives, if any,
    and `lead` how many inner gates come before it on the longest way, at a rise and at a fall of its output."""

    name: str
    kind: str
    output: str
    inputs: Tuple[str, ...]
    pin: Optional[str] = None
    lead: Lead = (0, 0)


class Model(NamedTuple):
    """A cell: its pins in order, those that supply power, and its gates."""

    pins: List[str]
    power: Set[str]
    gates: List[ModelGate]


class Builder:
    """Collects the gates of one cell. Its inner nets have names of their own, which are no pin's."""

    def __init__(self, pins: List[str]) -> None:
        self.pins, self.taken = pins, set(pins)
        self.gates: List[ModelGate] = []
        # How many gates come before a rise and a fall of each inner net.
        self.depth: Dict[str, Lead] = {}

    def fresh(self, wanted: str) -> str:
        name = wanted
        while name in self.taken:
            name += "_"
        self.taken.add(name)
        return name

    def add(self, kind: str, output: str, inputs: List[str], pin: Optional[str] = None) -> str:
        lead = self.lead(kind, inputs)
        self.depth[output] = (lead[0] + 1, lead[1] + 1)
        self.gates.append(ModelGate(f"g{len(self.gates) + 1}", kind, output, tuple(inputs), pin, lead))
        return output

    def lead(self, kind: str, inputs: List[str]) -> Lead:
        """How many inner gates come before a gate of this kind."""
        rises, falls = zip(*(self.depth.get(it, (0, 0)) for it in inputs))
        if kind == "buf":
            return rises[0], falls[0]
        if kind == "not":
            return falls[0], rises[0]
        longest = max(*rises, *falls)
        return longest, longest

    def inner(self, of: Expression) -> str:
        """The net of an expression: a pin, a constant, or the output of an inner gate."""
        if isinstance(of, str):
            return of
        kind, inputs = self.kind_of(of)
        return self.add(kind, self.fresh("n"), inputs)

    def kind_of(self, of: Expression) -> Tuple[str, List[str]]:
        """The kind of the gate that gives an expression, and its inputs."""
        if isinstance(of, str):
            return "buf", [of]
        operation, parts = of
        if operation != "not":
            return operation, [self.inner(it) for it in parts]
        if isinstance(parts[0], str):
            return "not", [parts[0]]
        kind, inputs = self.kind_of(parts[0])
        return INVERTED[kind], inputs

    def output(self, pin: str, function: Expression, three_state: Optional[Expression] = None) -> None:
        """The gate that drives an output; `three_state` says when it lets go."""
        if three_state is None:
            kind, inputs = self.kind_of(function)
            self.add(kind, pin, inputs, pin)
            return
        is_high, control = isinstance(three_state, tuple) and three_state[0] == "not", three_state
        is_inverted = isinstance(function, tuple) and function[0] == "not"
        kind = ("notif" if is_inverted else "bufif") + ("1" if is_high else "0")
        data = self.inner(inverted(function) if is_inverted else function)
        self.add(kind, pin, [data, self.inner(inverted(control) if is_high else control)], pin)

    def flip_flop(self, names: Tuple[str, str], clock: str, data: str, clear: List[str], preset: List[str]) -> None:
        """Takes the data at the rise of the clock. `clear` and `preset` are nets that act while they are 0."""
        q, qn = names
        t, s, r, n = (self.fresh(it) for it in ("t", "s", "r", "d"))
        self.add("nand", t, [s, n, *preset])
        self.add("nand", s, [t, clock, *clear])
        self.add("nand", r, [s, clock, n])
        self.add("nand", n, [r, data, *clear])
        self.hold(names, s, r, clear, preset)
        # One of the two in the middle falls, the output beside it rises, and then the other one falls.
        self.depth[q] = self.depth[qn] = (2, 3)

    def latch(self, names: Tuple[str, str], enable: str, data: str, clear: List[str], preset: List[str]) -> None:
        """Takes the data while `enable` is 1."""
        q, qn = names
        s, r = self.fresh("s"), self.fresh("r")
        self.add("nand", s, [data, enable, *clear])
        self.add("nand", r, [s, enable])
        self.hold(names, s, r, clear, preset)
        # Where the data falls, s rises, r falls, qn rises and q falls.
        self.depth[q], self.depth[qn] = (2, 4), (3, 3)

    def hold(self, names: Tuple[str, str], s: str, r: str, clear: List[str], preset: List[str]) -> None:
        q, qn = names
        self.add("nand", q, [s, qn, *preset])
        self.add("nand", qn, [r, q, *clear])

    def stronger(self, clear: str, preset: str, both: str) -> Tuple[str, str]:
        """Nets that clear and preset while they are 0, of which only one acts where both do: with `both` 0 it is clear,
        with 1 preset; else both act, and both outputs are 1. Where both end at once neither acts after it."""
        if both == "0":
            return clear, self.add("or", self.fresh("p"), [preset, self.add("not", self.fresh("cn"), [clear])])
        if both == "1":
            return self.add("or", self.fresh("c"), [clear, self.add("not", self.fresh("pn"), [preset])]), preset
        return clear, preset

    def model(self, power: Set[str]) -> Model:
        """The finished cell. Its only gate is `g`; the gate of the output Y is `g_Y` where there are several outputs."""
        outputs = [it for it in self.gates if it.pin]
        gates = [it._replace(name=self.name_of(it, len(outputs))) for it in self.gates]
        return Model(self.pins, power, gates)

    def name_of(self, gate: ModelGate, outputs: int) -> str:
        if gate.pin is None:
            return gate.name
        return "g" if outputs == 1 else f"g_{gate.pin}"
