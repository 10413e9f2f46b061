"""What a page knows of the design beside its waves: gates, stimulus points, the horizon, and which edits undo an edit."""
from bisect import bisect_left
from typing import Dict, List, NamedTuple, Optional, Sequence, Set, Tuple

from ..edits import fall_word
from ..lines import line_of
from ..netlist import Gate, Netlist
from ..netlist_edits import Editing
from ..structure import Structure
from .affected import affected, touched

Lines = List[str]

# Edits of a gate that is there.
OF_GATES = ("drop", "delay", "type", "wire")
# The kind of an input that was added.
INPUT_KIND = "wire"


class Movable(NamedTuple):
    """The stimulus points of some nets at one moment, and the moments to which they can be moved with none behind another."""

    points: List[Tuple[str, str]]
    least: int
    most: int


class Model:
    """The design after the edits that were carried out; `nets` and `horizon` are for who opens it to set."""

    def __init__(self, netlist: Netlist) -> None:
        self.editing, self.outputs = Editing(netlist), netlist.outputs
        self.nets: List[str] = []
        # Of nets whose kind is known; of a text it is not.
        self.kinds: Dict[str, str] = {}
        self.horizon = 0
        self.points: Dict[str, Dict[int, str]] = {}
        # The nets that the edits since the last look are about; None where all nets may have changed.
        self.touched: Optional[Set[str]] = set()

    def ask(self, session: Structure) -> None:
        """Takes the gates, the inputs and the kinds of nets as the program lists them."""
        self.editing.inputs, self.kinds = session.inputs(), session.kinds()
        self.editing.gates = {it.name: it for it in session.gates()}

    @property
    def gates(self) -> Dict[str, Gate]:
        return self.editing.gates

    @property
    def inputs(self) -> List[str]:
        return self.editing.inputs

    def drivers(self, net: str) -> List[Gate]:
        return [it for it in self.gates.values() if it.output == net]

    def readers(self, net: str) -> List[Gate]:
        return [it for it in self.gates.values() if net in it.inputs]

    def take(self, words: List[str]) -> None:
        """An edit that the program has carried out, by its words."""
        verb, name = words[0], words[1]
        about = touched(words, self.gates)
        self.touched = None if about is None or self.touched is None else self.touched | about
        # Of a text that could not be read the gates are not known.
        if verb not in OF_GATES or name in self.gates:
            self.editing.take(words)
        if verb == "stim":
            self.points.setdefault(name, {})[int(words[2])] = words[3]
        elif verb == "unstim":
            del self.points[name][int(words[2])]
        elif verb in ("net", "input"):
            self.nets.append(name)
            self.kinds[name] = words[2] if verb == "net" else INPUT_KIND
        elif verb == "kind":
            self.kinds[name] = words[2]
        elif verb == "dropnet":
            self.points.pop(name, None)
            self.kinds.pop(name, None)
            self.nets = [it for it in self.nets if it != name]
        elif verb == "horizon":
            self.horizon = int(name)

    def take_all(self, lines: Sequence[str]) -> Optional[Lines]:
        """Edits that the program has carried out; those that undo them, None where one of them can't be undone."""
        undo: Optional[Lines] = []
        for words in (it.split() for it in lines):
            back = self.undo_of(words)
            undo = None if undo is None or back is None else [*back, *undo]
            self.take(words)
        return undo

    def affected(self) -> Optional[Set[str]]:
        """The nets that the edits since the last look may have changed, by the gates as they are known; None for all."""
        nets, self.touched = self.touched, set()
        return None if nets is None else affected(nets, self.gates.values())

    def undo_of(self, words: List[str]) -> Optional[Lines]:
        """The edits that undo one which is carried out now; None where too little is known of what was."""
        verb, name = words[0], words[1]
        if verb in ("stim", "unstim"):
            time = int(words[2])
            old = self.points.get(name, {}).get(time)
            return [line_of("unstim", name, time) if old is None else line_of("stim", name, time, old)]
        if verb in ("net", "input"):
            return [line_of("dropnet", name)]
        if verb == "gate":
            return [line_of("drop", name)]
        if verb == "horizon":
            return [line_of("horizon", self.horizon)]
        if verb in ("kind", "dropnet"):
            kind = self.kinds.get(name)
            return None if kind is None else [line_of("kind", name, kind)] if verb == "kind" else self.net_again(name, kind)
        gate = self.gates.get(name)
        return undo_of_gate(verb, gate) if gate else None

    def net_again(self, net: str, kind: str) -> Lines:
        """The edits that add a net which is there, with the points that it has."""
        if net not in self.inputs:
            return [line_of("net", net, kind)]
        kinds = [line_of("kind", net, kind)] if kind != INPUT_KIND else []
        points = [line_of("stim", net, time, value) for time, value in sorted(self.points.get(net, {}).items())]
        return [line_of("input", net), *kinds, *points]

    def movable(self, nets: Sequence[str], time: int) -> Movable:
        """The points of nets at a moment, and how far they can go."""
        found, least, most = [], 0, self.horizon
        for net in nets:
            points = self.points.get(net, {})
            if time in points:
                times = sorted(points)
                place = bisect_left(times, time)
                found.append((net, points[time]))
                least = max([least, *(it + 1 for it in times[place - 1 : place])])
                most = min([most, *(it - 1 for it in times[place + 1 : place + 2])])
        return Movable(found, least, most)


def undo_of_gate(verb: str, gate: Gate) -> Optional[Lines]:
    """The edit that undoes one of a gate, which is still as it was."""
    if verb == "delay":
        return [gate.delayed(gate.rise, gate.fall, gate.off)]
    if verb == "wire":
        return [gate.wired(gate.inputs)]
    if verb == "type":
        # A kind without a turn-off delay is refused to a gate that has one, so there is none to be given back.
        return [line_of("type", gate.name, gate.kind)]
    if verb == "drop":
        return [line_of("gate", gate.name, gate.kind, gate.rise, fall_word(gate.fall, gate.off), gate.output, *gate.inputs)]
    return None
