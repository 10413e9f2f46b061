"""A design, as a text spells it and a session edits it. Names are keys, in their order; nothing in it changes in place."""
from dataclasses import dataclass, field
from typing import Dict, Tuple


@dataclass(frozen=True)
class Net:
    """A net; an input has points, a value at each moment."""

    kind: str
    is_input: bool = False
    points: Dict[int, str] = field(default_factory=dict)


@dataclass(frozen=True)
class Gate:
    """A gate: each input is a net's name or a constant, and a constant has an apostrophe, which no name has."""

    kind: str
    delays: Tuple[int, ...]
    output: str
    inputs: Tuple[str, ...]


@dataclass(frozen=True)
class Design:
    name: str
    unit: Tuple[str, str]
    nets: Dict[str, Net]
    gates: Dict[str, Gate]
    horizon: int = 0
