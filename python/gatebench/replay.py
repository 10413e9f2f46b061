"""What made a change and what it led to, of a program that does not say it: the events of gates, worked out from the waves of the nets
that they read (docs/SPEC.md, Gates, Delays and Events)."""
from typing import Collection, Dict, Iterator, List, Mapping, NamedTuple, Optional, Sequence

from .netlist import Gate
from .origins import BEGINNING, GATES, STIMULUS, Effect, Origin, Turn, nets_read
from .values import Change
from .wave import Wave

# Each of these kinds is another one, inverted.
INVERTED = {"nand": "and", "nor": "or", "xnor": "xor", "not": "buf", "notif1": "bufif1", "notif0": "bufif0"}
OTHER = {"0": "1", "1": "0"}
# The value of an input that decides by itself, and the one of a control that lets the data through.
DECIDES = {"and": "0", "or": "1"}
OPENS = {"bufif1": "1", "bufif0": "0"}


class Event(NamedTuple):
    """A gate drives `value` from the moment `time` on. The event came to be pending at `since`, when `nets` changed."""

    since: int
    time: int
    value: str
    nets: Dict[str, str]


def output_of(kind: str, inputs: Sequence[str]) -> str:
    """The value that a gate gives; an input that is z acts as x."""
    values = ["x" if it == "z" else it for it in inputs]
    if kind in INVERTED:
        value = output_of(INVERTED[kind], values)
        return OTHER.get(value, value)
    if kind in DECIDES:
        return DECIDES[kind] if DECIDES[kind] in values else "x" if "x" in values else OTHER[DECIDES[kind]]
    if kind in OPENS:
        data, control = values
        return "x" if control == "x" else data if control == OPENS[kind] else "z"
    return values[0] if kind == "buf" else "x" if "x" in values else "01"[values.count("1") % 2]


def delay_to(value: str, gate: Gate) -> int:
    """How long a change of a gate to a value takes."""
    least = min(gate.rise, gate.fall)
    off = least if gate.off is None else gate.off
    return {"1": gate.rise, "0": gate.fall, "z": off, "x": min(least, off)}[value]


def changes_of(nets: Sequence[str], waves: Mapping[str, Wave]) -> Dict[int, Dict[str, str]]:
    """Of each moment at which one of these nets changes those that do, with their values; in order of time, the first moment is 0."""
    found: Dict[int, Dict[str, str]] = {0: {}}
    for net in nets:
        for time, value in waves[net].changes:
            found.setdefault(time, {})[net] = value
    return {time: found[time] for time in sorted(found)}


def events(gate: Gate, waves: Mapping[str, Wave]) -> Iterator[Event]:
    """The events of a gate that become current, by the waves of the nets that it reads. Evaluated at another moment than one of their
    changes its driver stays as it is."""
    current, pending, known = "x", None, {it: it[-1] for it in gate.inputs}  # type: str, Optional[Event], Dict[str, str]
    for time, changes in changes_of(nets_read([gate]), waves).items():
        if pending and pending.time <= time:
            yield pending
            current, pending = pending.value, None
        known.update(changes)
        value = output_of(gate.kind, [known[it] for it in gate.inputs])
        if pending is None or pending.value != value:
            pending = None if value == current else Event(time, time + delay_to(value, gate), value, changes)
    if pending:
        yield pending


def origin(net: str, time: int, drivers: Sequence[Gate], points: Collection[int], waves: Mapping[str, Wave]) -> Optional[Origin]:
    """What made the change of a net: by the gates that drive it, the moments of its stimulus points, and the waves of the net and of
    those that the gates read. None where it does not change."""
    if change_at(waves[net], time) is None:
        return None
    if time in points:
        return Origin(STIMULUS)
    if time == 0:
        return Origin(BEGINNING)
    turns = (Turn(gate.name, it.since, it.nets) for gate in drivers for it in events(gate, waves) if it.time == time)
    return Origin(GATES, tuple(turns))


def effects(net: str, time: int, readers: Sequence[Gate], waves: Mapping[str, Wave]) -> List[Effect]:
    """What the change of a net led to: by the gates that read it, and the waves of the net and of those that the gates read and drive."""
    if change_at(waves[net], time) is None:
        return []
    found = ((gate, change_at(waves[gate.output], it.time)) for gate in readers for it in events(gate, waves) if it.since == time)
    return [Effect(gate.name, change.time, gate.output, change.value) for gate, change in found if change]


def change_at(wave: Wave, time: int) -> Optional[Change]:
    """The change of a wave at a moment, None where there is none."""
    return next(iter(wave.between(time, time)), None)
