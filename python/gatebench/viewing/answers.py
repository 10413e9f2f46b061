"""What the page asks, as values that JSON can write."""
from typing import Any, Callable, Dict, List, NamedTuple, Optional, Sequence

from ..asked import PARTS
from ..causes import without_fault
from ..edits import EDITS
from ..errors import GatebenchError, Refused
from ..limits import MOST_PARTS
from ..netlist import Gate
from ..questions import changes_beside
from . import saved
from .cuts import Cuts
from .edited_session import EditedSession
from .rows import rows_of
from .tracks import Row, Tracks
from .view import View
from .ways import effects_at, origin_at, way_back
from .windows import differing, spans_of

Said = Dict[str, Any]

# How many lines a list of the page has; it says how many more there are.
SHOWN = 500


NOT_HERE = ("begin", "commit", "abort", "quit")


class NotHere(GatebenchError):
    """A command that the page does not take."""


class Window(NamedTuple):
    """From when to when, both included, and how many parts at most."""

    start: int
    end: int
    parts: int


def design(view: View) -> Said:
    """What changes with the nets alone."""
    current = view.current
    return {
        "name": view.opening.design,
        "unit": view.unit,
        "rows": [it._asdict() for it in rows_of(current.model.nets)],
        "inputs": current.model.inputs,
        "outputs": current.model.outputs,
        "unread": view.unread,
    }


def state(view: View) -> Said:
    """What changes with each step."""
    current = view.current
    broken = view.broken()
    return {
        "horizon": current.model.horizon,
        "nets": f"{view.loads}.{current.net_lists}",
        "version": version(view),
        "undo": ", ".join(current.done[-1].edits) if current.done else None,
        "redo": ", ".join(current.undone[-1].edits) if current.undone else None,
        "before": current.before is not None,
        "held": list(current.held),
        "log": ["; ".join(it) if isinstance(it, list) else it for it in current.log[-SHOWN:]],
        "rules": [{"net": it.nets[0], "said": it.said} for it in view.rules],
        "broken": [it._asdict() for it in broken[:SHOWN]],
        "broken_count": len(broken),
    }


def version(view: View) -> str:
    """What is another with each step."""
    return f"{view.loads}.{view.current.commits}"


def changes(view: View) -> Said:
    found = view.current.changes()
    return {"count": len(found), "changes": [it._asdict() for it in found[:SHOWN]]}


def windows(view: View, rows: Sequence[Sequence[str]], window: Window, other: str) -> Said:
    """The rows, given by their nets, in a window, with those of another version where it has them."""
    now, past = view.current.now, view.version(other)
    known = set(view.current.model.nets)
    shown = [bits if all(it in known for it in bits) else [] for bits in rows]
    cuts = Cuts(window.start, min(window.end, now.horizon), min(window.parts, MOST_PARTS))
    in_parts = {tuple(bits) for bits in shown if is_summed_up(view.current, past, bits, cuts)}
    # One block for all of a kind.
    summed = now.cut((net for bits in in_parts for net in bits), cuts)
    tracks = now.between((net for bits in shown if tuple(bits) not in in_parts for net in bits), cuts.start, cuts.end)

    def drawn(bits: Sequence[str]) -> Optional[Said]:
        if not bits:
            return None
        same: Said = {"other": [], "shades": []} if past else {}
        if tuple(bits) in in_parts:
            return {"now": cuts.spans([summed[it] for it in bits]), **same}
        track = now.row_between(bits, tracks)
        if past and not is_same(view.current, past, bits):
            return row(track, now.horizon, past, bits, window)
        return {"now": spans_of(track, cuts.start, cuts.end, window.parts), **same}

    return {"rows": [drawn(bits) for bits in shown]}


def is_summed_up(current: EditedSession, past: Optional[Tracks], bits: Sequence[str], cuts: Cuts) -> bool:
    """Whether the program's parts are enough for a row: it differs from no other version, and is not known as a whole."""
    if not bits or cuts.start > cuts.end or current.now.is_whole(bits) or not current.session.knows(PARTS):
        return False
    return not past or is_same(current, past, bits)


def is_same(current: EditedSession, past: Tracks, bits: Sequence[str]) -> bool:
    """Whether it is known that a row is the same in another version."""
    differing = current.may_differ(past)
    return differing is not None and differing.isdisjoint(bits)


def row(track: Row, horizon: int, past: Tracks, bits: Sequence[str], window: Window) -> Said:
    """A row beside another version."""
    start, end, parts = window
    found: Said = {"now": spans_of(track, start, min(end, horizon), parts)}
    last = min(end, past.horizon)
    if last < start:
        return found
    try:
        ghost = past.row_between(bits, past.between(bits, start, last))
    except Refused:
        # The other version has no such net.
        return found
    shades = differing(track, ghost, start, min(last, horizon), parts)
    return {**found, "other": spans_of(ghost, start, last, parts) if shades else [], "shades": shades}


def gate(of: Gate) -> Said:
    return of._asdict()


def net(view: View, name: str) -> Said:
    """The gates that drive a net, and those that read it."""
    model = view.current.model
    return {"net": name, "drivers": list(map(gate, model.drivers(name))), "readers": list(map(gate, model.readers(name)[:SHOWN]))}


def origins(view: View, bits: Sequence[str], time: int) -> Said:
    """What made the change of a row at a moment, back to the stimulus, and what it led to: of the first of its nets that changes then."""
    current = view.current
    name = next((it for it in bits if origin_at(current, it, time)), None)
    if name is None:
        return {"net": None}
    way = way_back(current, name, time)
    led = effects_at(current, name, time)
    effects = None if led is None else {"count": len(led), "changes": [it._asdict() for it in led[:SHOWN]]}
    return {**net(view, name), "time": time, "way": [it._asdict() for it in way.changes], "end": way.end, "effects": effects}


def edge(view: View, bits: Sequence[str], time: int, step: int) -> Said:
    """The next change of a row behind a moment, or with -1 the one before it."""
    if time > view.current.now.horizon:
        # The program answers no question behind the horizon.
        return {"time": None if step > 0 else view.current.now.row(bits).times[-1]}
    changes = changes_beside(view.current.session, "next" if step > 0 else "prev", bits, time).values()
    times = [it.time for it in changes if it]
    return {"time": (min if step > 0 else max)(times) if times else None}


def command(view: View, line: str) -> List[str]:
    """Carries out a line that a person has written; gives the lines of its answer."""
    current = view.current
    verb, *names = without_fault(line)
    if verb in ("hold", "free") and len(names) == 1:
        (current.hold if verb == "hold" else current.free)(names[0])
    elif verb in EDITS:
        current.edit([" ".join([verb, *names])])
    elif verb in NOT_HERE:
        raise NotHere(f"{verb} is not for the page: each step is a batch of its own, and ctrl-C in the terminal ends it")
    else:
        [reply] = current.session.ask([line])
        current.session.see_ok(line, reply)
        return list(reply.lines)
    return []


SAVED: Dict[str, Callable[[View, List[str], str], str]] = {"expectations": saved.expectations, "python": saved.python}
