"""What a text says of each module: its nets, its gates and its instances of modules."""
from dataclasses import dataclass, field
from typing import Any, Dict, List, Optional, Tuple

Range = Tuple[int, int]


@dataclass
class Terminal:
    """What stands at a place of an instance: a value, or a net's name with an index or without one."""

    name: str = ""
    index: Optional[int] = None
    value: str = ""


@dataclass
class Net:
    """A net of a module, or one that its header has named. One that came by its use is declared as a `wire`."""

    range: Optional[Range] = None
    kind: str = ""
    direction: str = ""
    implicit: bool = False

    def is_declared(self):
        return bool(self.kind or self.direction or self.implicit)

    def flat(self, name):
        """The names of the nets that it is."""
        return [name if bit is None else f"{name}[{bit}]" for bit in self.bits()]

    def bits(self):
        """The indices of its bits from the left, or one None."""
        if self.range is None:
            return [None]
        left, right = self.range
        step = 1 if left <= right else -1
        return range(left, right + step, step)


@dataclass
class Gate:
    name: str
    kind: str
    delays: Tuple[int, ...]
    output: Terminal
    inputs: List[Terminal]


@dataclass
class Instance:
    """An instance of a module: what is connected, by order or by the names of ports."""

    module: str
    name: str
    place: int
    by_order: List[Optional[Terminal]] = field(default_factory=list)
    by_name: List[Tuple[str, Optional[Terminal]]] = field(default_factory=list)


@dataclass
class Module:
    """A module of a text. `nets` are in their order, the ports first."""

    name: str
    place: int
    form: str = ""
    ports: List[str] = field(default_factory=list)
    nets: Dict[str, Net] = field(default_factory=dict)
    gates: List[Gate] = field(default_factory=list)
    instances: List[Instance] = field(default_factory=list)
    taken: set = field(default_factory=set)
    flat: set = field(default_factory=set)
    unnamed: int = 0


@dataclass
class Text:
    """All that a text says: its modules by name in their order, and its time unit."""

    modules: Dict[str, Module] = field(default_factory=dict)
    unit: Any = None
