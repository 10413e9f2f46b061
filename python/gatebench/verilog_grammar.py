"""The grammar of design texts (docs/SPEC.md), over tokens with their places: how far a text keeps it, and what stands where."""
from dataclasses import dataclass, field
from typing import Callable, Dict, List, NamedTuple, Optional, Tuple

from .netlist_text import DIRECTIONS, GATE_KINDS, MANY_OUTPUTS, NET_KINDS
from .verilog_tokens import Token

# The kinds of gates that take a third delay.
TURN_OFF = ("bufif1", "bufif0", "notif1", "notif0")
NAMES = ("NAME", "ESCAPED")


class Terminal(NamedTuple):
    """A terminal by its first token, with the number of the bit, if it names one."""

    token: Token
    bit: Optional[Token] = None


class PlacedGate(NamedTuple):
    """A gate of a module: the word of its kind, its name if it has one, its terminals, and the `)` behind them."""

    kind: Token
    name: Optional[Token]
    terminals: List[Terminal]
    end: Token

    @property
    def outputs(self) -> List[Terminal]:
        return self.terminals[:-1] if self.kind.text in MANY_OUTPUTS else self.terminals[:1]


class PlacedInstance(NamedTuple):
    """An instance: the name of its module and its own; what is connected by order, and which ports by name."""

    module: Token
    name: Token
    by_order: List[Optional[Terminal]]
    by_name: List[Token]


@dataclass
class PlacedModule:
    """A module, from the word `module` on."""

    word: Token
    name: Token
    form: str = ""
    ports: List[str] = field(default_factory=list)
    directions: Dict[str, str] = field(default_factory=dict)
    # Of each vector its bounds, and of each declaration of a net, or of a port, its name.
    ranges: Dict[str, Tuple[int, int]] = field(default_factory=dict)
    declared: List[Token] = field(default_factory=list)
    gates: List[PlacedGate] = field(default_factory=list)
    instances: List[PlacedInstance] = field(default_factory=list)


class Stuck(Exception):
    """The text can't go on with this token."""

    def __init__(self, token: Token) -> None:
        super().__init__(token.text)
        self.token = token


class Grammar:
    """Reads tokens up to the end, or to the first with which the text can't go on: `stuck`, None where there is none."""

    def __init__(self, tokens: List[Token]) -> None:
        self.tokens, self.place = tokens, 0
        self.modules: List[PlacedModule] = []
        self.stuck: Optional[Token] = None
        try:
            while self.next.kind != "END":
                if self.next.kind == "TIMESCALE":
                    self.step()
                else:
                    self.module()
        except Stuck as stuck:
            self.stuck = stuck.token

    @property
    def next(self) -> Token:
        return self.tokens[self.place]

    def step(self) -> Token:
        self.place += 1
        return self.tokens[self.place - 1]

    def at(self, *texts: str) -> bool:
        return self.next.kind in ("WORD", "MARK") and self.next.text in texts

    def take(self, *texts: str) -> Token:
        if not self.at(*texts):
            raise Stuck(self.next)
        return self.step()

    def kind(self, *kinds: str) -> Token:
        if self.next.kind not in kinds:
            raise Stuck(self.next)
        return self.step()

    def listed(self, item: Callable[[], None], end: str) -> None:
        item()
        while self.take(",", end).text == ",":
            item()

    def module(self) -> None:
        self.made = PlacedModule(self.take("module"), self.kind(*NAMES))
        self.modules.append(self.made)
        if self.take("(", ";").text == "(":
            self.header()
            self.take(";")
        while not self.at("endmodule"):
            self.item()
        if any(it not in self.made.directions for it in self.made.ports):
            raise Stuck(self.next)
        self.step()

    def header(self) -> None:
        if self.at(")"):
            self.step()
            return
        self.made.form = "inline" if self.at(*DIRECTIONS) else "older"
        self.said: Tuple[str, Optional[Tuple[int, int]]] = ("", None)
        self.listed(self.port, ")")

    def port(self) -> None:
        if self.made.form == "inline" and self.at(*DIRECTIONS):
            direction = self.step().text
            self.net_kind()
            self.said = direction, self.range()
        token = self.kind(*NAMES)
        self.made.ports.append(token.name)
        self.declare(token, *self.said)

    def declare(self, token: Token, direction: str, bounds: Optional[Tuple[int, int]]) -> None:
        self.made.declared.append(token)
        if direction:
            self.made.directions[token.name] = direction
        if bounds:
            self.made.ranges.setdefault(token.name, bounds)

    def net_kind(self) -> None:
        if self.at(*NET_KINDS):
            self.step()

    def range(self) -> Optional[Tuple[int, int]]:
        if not self.at("["):
            return None
        self.step()
        left = self.kind("NUMBER").number
        self.take(":")
        right = self.kind("NUMBER").number
        self.take("]")
        return left, right

    def item(self) -> None:
        if self.at(*DIRECTIONS) and self.made.form != "inline":
            self.declarations(self.step().text)
        elif self.at(*NET_KINDS):
            self.declarations("")
        elif self.at(*GATE_KINDS):
            self.gates()
        else:
            module = self.kind(*NAMES)
            self.listed(lambda: self.instance(module), ";")

    def declarations(self, direction: str) -> None:
        self.net_kind()
        bounds = self.range()

        def declaration() -> None:
            if direction and self.next.kind in NAMES and self.next.name not in self.made.ports:
                raise Stuck(self.next)
            self.declare(self.kind(*NAMES), direction, bounds)

        self.listed(declaration, ";")

    def gates(self) -> None:
        kind = self.step()
        if self.at("#"):
            self.step()
            self.delays(3 if kind.text in TURN_OFF else 2)
        self.listed(lambda: self.gate(kind), ";")

    def delays(self, most: int) -> None:
        if not self.at("("):
            self.kind("NUMBER")
            return
        self.step()
        self.kind("NUMBER")
        for _ in range(most - 1):
            if self.at(","):
                self.step()
                self.kind("NUMBER")
        self.take(")")

    def gate(self, kind: Token) -> None:
        name = self.step() if self.next.kind in NAMES else None
        self.take("(")
        terminals = [self.terminal()]
        while self.at(","):
            self.step()
            terminals.append(self.terminal())
        self.made.gates.append(PlacedGate(kind, name, terminals, self.take(")")))

    def terminal(self) -> Terminal:
        token = self.kind("CONST", *NAMES)
        if token.kind == "CONST" or not self.at("["):
            return Terminal(token)
        self.step()
        index = self.kind("NUMBER")
        self.take("]")
        return Terminal(token, index)

    def instance(self, module: Token) -> None:
        made = PlacedInstance(module, self.kind(*NAMES), [], [])
        self.made.instances.append(made)
        self.take("(")
        if self.at("."):
            self.listed(lambda: made.by_name.append(self.named_connection()), ")")
        elif self.at(")"):
            self.step()
        else:
            self.listed(lambda: made.by_order.append(self.connection(",", ")")), ")")

    def connection(self, *ends: str) -> Optional[Terminal]:
        return None if self.at(*ends) else self.terminal()

    def named_connection(self) -> Token:
        self.take(".")
        port = self.kind(*NAMES)
        self.take("(")
        self.connection(")")
        self.take(")")
        return port
