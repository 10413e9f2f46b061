"""What made a change, and what it led to: the answers to the questions `why` and `reach` (docs/SPEC.md, Questions of tools)."""
from typing import Dict, List, NamedTuple, Optional, Sequence, Tuple

from .netlist import Gate
from .values import value_of

GATES, STIMULUS, BEGINNING = "gates", "stimulus", "beginning"


class Turn(NamedTuple):
    """The gate `gate` was evaluated at the moment `since`, and so drives another value from the change on. `nets` are those which it
    reads and that changed at `since`, in its order, with their values from then on; there are none where it reads constants alone."""

    gate: str
    since: int
    nets: Dict[str, str]


class Origin(NamedTuple):
    """What made a change: `by` is "gates", with a turn for each gate that drives the net and turned then; "stimulus", a point of an
    input; or "beginning", the value at 0 of a net that has no point there."""

    by: str
    turns: Tuple[Turn, ...] = ()


class Effect(NamedTuple):
    """The gate `gate` reads the net that changed, and so drives another value from the moment `time` on, at which its net `net` changes
    to `value`."""

    gate: str
    time: int
    net: str
    value: str


def origin_of(lines: Sequence[str]) -> Optional[Origin]:
    """What the answer to `why` says; None where the net does not change."""
    if lines in (("none",), (STIMULUS,), (BEGINNING,)):
        return None if lines == ("none",) else Origin(lines[0])
    return Origin(GATES, tuple(map(turn_of, lines)))


def turn_of(line: str) -> Turn:
    """The turn that a line `G U IN V ..` shows. ValueError where it is no such line."""
    gate, since, *nets = line.split(" ")
    return Turn(gate, int(since), {net: value_of(value) for net, value in zip(nets[::2], nets[1::2])})


def effects_of(lines: Sequence[str]) -> List[Effect]:
    """What the answer to `reach` says; nothing where the net does not change."""
    return [] if lines == ("none",) else list(map(effect_of, lines))


def effect_of(line: str) -> Effect:
    """The effect that a line `G U OUT V` shows. ValueError where it is no such line."""
    gate, time, net, value = line.split(" ")
    return Effect(gate, int(time), net, value_of(value))


def nets_read(gates: Sequence[Gate]) -> List[str]:
    """The nets that gates read, each once, constants left out."""
    return list(dict.fromkeys(net for gate in gates for net in gate.inputs if "'" not in net))
