"""Which nets an edit may change: those that it is about, and those that gates drive which read such a net."""
from typing import Dict, Iterable, List, Mapping, Optional, Set

from ..netlist import Gate

# Edits of the net that stands behind the word.
OF_A_NET = ("net", "input", "dropnet", "kind", "stim", "unstim")
# Where an edit has the net that a gate drives from then on.
OUTPUTS = {"gate": 5, "wire": 2}


def touched(words: List[str], gates: Mapping[str, Gate]) -> Optional[Set[str]]:
    """The nets that an edit is about, by its words, of a design with these gates before it; None where all may change."""
    verb, name = words[0], words[1]
    if verb in OF_A_NET:
        return {name}
    if verb == "horizon":
        return None
    outputs = {words[OUTPUTS[verb]]} if verb in OUTPUTS else set()
    return outputs | {gate.output for gate in [gates.get(name)] if gate}


def affected(nets: Iterable[str], gates: Iterable[Gate]) -> Set[str]:
    """These nets, and all that follow from them."""
    driven: Dict[str, List[str]] = {}
    for gate in gates:
        for net in gate.inputs:
            driven.setdefault(net, []).append(gate.output)
    found = set(nets)
    ahead = list(found)
    while ahead:
        for net in driven.get(ahead.pop(), ()):
            if net not in found:
                found.add(net)
                ahead.append(net)
    return found
