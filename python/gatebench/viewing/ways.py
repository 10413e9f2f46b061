"""What made an edge, back to the stimulus, and what it led to: as the program says it, or else by the gates as the page knows them."""
import time
from typing import Dict, Iterable, List, NamedTuple, Optional

from .. import replay
from ..asked import REACH, WHY
from ..origins import GATES, Effect, Origin, nets_read
from ..wave import Wave
from .edited_session import EditedSession

# How far a way back goes at once: in changes, and in seconds.
MOST, PATIENCE = 500, 0.5

# Of a program that does not say what a change led to: how many gates may read the net.
MOST_READERS = 100


class WayChange(NamedTuple):
    """A change that made one which stands before it, by the gate `gate`. The way goes on from those that are `followed`."""

    time: int
    net: str
    value: str
    gate: str
    followed: bool


class Way(NamedTuple):
    """The changes on the way back from one, and what ends it: `by` of its origin, "constants", or nothing where it goes on."""

    changes: List[WayChange]
    end: str


def way_back(current: EditedSession, net: str, moment: int) -> Way:
    """The way back from the change of a net to the stimulus: from each change by the first net that made the first gate turn."""
    changes: List[WayChange] = []
    until = time.monotonic() + PATIENCE
    while True:
        origin = origin_at(current, net, moment)
        if origin is None or origin.by != GATES:
            return Way(changes, origin.by if origin else "")
        made = [WayChange(turn.since, name, value, turn.gate, False) for turn in origin.turns for name, value in turn.nets.items()]
        if not made:
            return Way(changes, "constants" if origin.turns else "")
        changes += [made[0]._replace(followed=True), *made[1:]]
        net, moment = made[0].net, made[0].time
        if len(changes) >= MOST or time.monotonic() > until:
            return Way(changes, "")


def origin_at(current: EditedSession, net: str, moment: int) -> Optional[Origin]:
    """What made the change of a net at a moment, None where it does not change then."""
    if current.session.knows(WHY):
        return current.session.why(net, moment)
    model = current.model
    drivers = model.drivers(net)
    return replay.origin(net, moment, drivers, model.points.get(net, ()), waves(current, [net, *nets_read(drivers)]))


def effects_at(current: EditedSession, net: str, moment: int) -> Optional[List[Effect]]:
    """What the change of a net at a moment led to; None where too many gates would have to be looked at."""
    if current.session.knows(REACH):
        return current.session.reach(net, moment)
    readers = current.model.readers(net)
    if len(readers) > MOST_READERS:
        return None
    return replay.effects(net, moment, readers, waves(current, [net, *nets_read(readers), *(it.output for it in readers)]))


def waves(current: EditedSession, nets: Iterable[str]) -> Dict[str, Wave]:
    return {it: current.now.wave(it) for it in nets}
