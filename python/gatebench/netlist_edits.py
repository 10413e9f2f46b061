"""The netlist of a session after command lines that the program has answered, and the inputs that have stimulus."""
from typing import Dict, Iterable, List, NamedTuple, Optional, Sequence, Set

from .asked import TOOLS
from .causes import without_fault
from .netlist import Gate, Netlist, fall_of, gate_of, netlist_of
from .netlist_text import Unread
from .replies import Reply
from .structure import Structure


class Edited(NamedTuple):
    """A netlist, and the inputs to which commands have given points."""

    netlist: Netlist
    driven: Set[str]


def edited_in(session: Structure, text: str, delay: Optional[int], lines: Sequence[str], replies: Sequence[Reply]) -> Edited:
    """The netlist of a session over a text after these lines: the outputs by the text, all else as the program lists it, or else by
    the text and the edits. ValueError where the text has to be read and can't be."""
    if not session.knows(TOOLS):
        return edited(netlist_of(text, delay), lines, replies)
    try:
        name, _, outputs, _ = netlist_of(text, delay)
    except Unread:
        name, outputs = "", []
    driven = {words[1] for words in carried_out(lines, replies) if words[0] == "stim"}
    return Edited(Netlist(name, session.inputs(), outputs, session.gates()), driven)


def edited(netlist: Netlist, lines: Sequence[str], replies: Sequence[Reply]) -> Edited:
    """The netlist after the edits among these lines that were carried out."""
    editing = Editing(netlist)
    for words in carried_out(lines, replies):
        editing.take(words)
    return Edited(netlist._replace(inputs=editing.inputs, gates=list(editing.gates.values())), editing.driven)


def carried_out(lines: Sequence[str], replies: Sequence[Reply]) -> Iterable[List[str]]:
    """The words of the edits that changed something: outside of batches, or in one whose commit was no refusal."""
    kept: Optional[List[List[str]]] = None
    for line, reply in zip(lines, replies):
        words = without_fault(line)
        if not reply.is_ok:
            # A commit that is refused ends its batch too.
            kept = None if words == ["commit"] else kept
        elif words == ["begin"]:
            kept = []
        elif words in (["commit"], ["abort"]):
            yield from (kept or []) if words == ["commit"] else []
            kept = None
        elif kept is not None:
            kept.append(words)
        else:
            yield words


class Editing:
    """The gates and the inputs of a netlist, as edits change them."""

    def __init__(self, netlist: Netlist) -> None:
        self.inputs = list(netlist.inputs)
        self.gates: Dict[str, Gate] = {it.name: it for it in netlist.gates}
        self.driven: Set[str] = set()

    def take(self, words: List[str]) -> None:
        """Carries out an edit by its words. Those that change neither gates nor inputs are passed over."""
        verb, name, *rest = words if len(words) > 1 else ["", ""]
        if verb == "input":
            self.inputs.append(name)
        elif verb == "dropnet" and name in self.inputs:
            self.inputs.remove(name)
        elif verb == "stim":
            self.driven.add(name)
        elif verb == "drop":
            del self.gates[name]
        elif verb in ("gate", "delay", "type", "wire"):
            self.gates[name] = self.changed(verb, name, rest)

    def changed(self, verb: str, name: str, rest: List[str]) -> Gate:
        if verb == "gate":
            return gate_of(" ".join([name, *rest]))
        gate = self.gates[name]
        if verb == "delay":
            fall, off = fall_of(rest[1])
            return gate._replace(rise=int(rest[0]), fall=fall, off=off)
        if verb == "type":
            return gate._replace(kind=rest[0])
        return gate._replace(output=rest[0], inputs=tuple(rest[1:]))
