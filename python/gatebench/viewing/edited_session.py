"""A session whose edits are steps that can be undone, with the version before the last step beside it."""
from typing import Callable, Dict, List, NamedTuple, Optional, Sequence, Set, Tuple, Union

from ..asked import DIFF, TOOLS
from ..causes import without_fault
from ..difference import Differences, changed, diff
from ..edits import EDITS
from ..errors import GatebenchError, Refused
from ..lines import checked_line
from ..netlist_edits import carried_out
from ..script import BadStep, Step
from ..session import HARMLESS, Held, Session
from ..started import started
from .model import Model
from .tracks import Tracks, horizon_of

# The names under which the version before the last step is held, in turn.
BEFORE_NAMES = ("view~1", "view~2")

# Edits that make or take nets.
OF_NETS = ("net", "input", "dropnet")

# What was carried out: the edits of a commit, or the line of one command.
Entry = Union[List[str], str]


class CantUndo(GatebenchError):
    """There is no step to undo or redo, or one that no edits undo."""


class Done(NamedTuple):
    """A step: its edits, and those that undo it, None where none do. Steps of one drag have its name."""

    edits: List[str]
    undo: Optional[List[str]]
    drag: Optional[str] = None


class EditedSession:
    """`now` has the waves of the present version, `before` those of the one before the last step, `held` those of the held
    versions. `log` is what was carried out behind the steps of a file. `net_lists` counts how
    often the nets changed, and `commits` how often waves did."""

    def __init__(self, session: Session, model: Model, held: Sequence[str]) -> None:
        self.session, self.model = session, model
        model.touched = set()
        self.net_lists = self.commits = 0
        self.now = Tracks(session, model.horizon)
        self.before: Optional[Tracks] = None
        self.held = {name: held_tracks(session, name, model.nets) for name in held}
        self.log: List[Entry] = []
        self.done: List[Done] = []
        self.undone: List[Done] = []
        self._held_before: Optional[Held] = None
        self._differing: Dict[Tracks, Optional[Set[str]]] = {}

    def edit(self, lines: Sequence[str], drag: Optional[str] = None) -> None:
        """Carries out edits as one step. Those of a drag take the place of its step before. Refused where one is refused; then
        all is as it was."""
        edits = [checked_line(it) for it in lines]
        last = self.done[-1] if self.done else None
        if drag and last and last.drag == drag and last.undo is not None:
            undo = self._replace(last.undo, edits)
        else:
            undo = self._commit(edits)
        self.done.append(Done(edits, undo, drag))
        self.log.append(edits)
        self.undone = []

    def undo(self) -> None:
        """Undoes the last step."""
        if not self.done:
            raise CantUndo("there is nothing to undo")
        step = self.done[-1]
        if step.undo is None:
            raise CantUndo(f"no edits undo {', '.join(step.edits)}")
        self._commit(step.undo)
        self.log.append(step.undo)
        self.undone.append(self.done.pop())

    def redo(self) -> None:
        """Carries out the step once more that was undone last."""
        if not self.undone:
            raise CantUndo("there is nothing to redo")
        step = self.undone[-1]
        undo = self._commit(step.edits)
        self.log.append(step.edits)
        self.done.append(Done(self.undone.pop().edits, undo))

    def hold(self, name: str) -> None:
        """Holds the present version under a name."""
        self.held[name] = self.now.of(self.session.hold(name))
        self.log.append(f"hold {name}")

    def free(self, name: str) -> None:
        self.session.free(name)
        self.held.pop(name, None)
        self.log.append(f"free {name}")

    def changes(self) -> Differences:
        """The nets that the last step has changed, in order of time."""
        return diff(self.before.version, self.session) if self.before else Differences()

    def may_differ(self, other: Tracks) -> Optional[Set[str]]:
        """The nets whose waves may be others than in another version, None for all: what the program says, or else, of the version
        before the last step, what follows from its edits."""
        if other not in self._differing:
            self._differing[other] = changed(other.version, self.session)
        return self._differing[other]

    def again(self, log: Sequence[Entry]) -> List[str]:
        """Carries out the log of another session; gives what of it is refused here."""
        return [refusal for it in log for refusal in self._again(it)]

    def _again(self, entry: Entry) -> List[str]:
        try:
            if isinstance(entry, list):
                self.edit(entry)
            else:
                verb, name = entry.split()
                (self.hold if verb == "hold" else self.free)(name)
        except Refused as refused:
            return [str(refused)]
        return []

    def _replace(self, back: List[str], edits: List[str]) -> Optional[List[str]]:
        """Carries out edits in the place of the last step, in one commit. The version before stays the one before both."""
        self.session.edits([*back, *edits])
        if self.before:
            self.before.learn(self.now, self._differing.get(self.before))
        self.model.take_all(back)
        self.done.pop()
        self.log.pop()
        return self._taken(edits)

    def _commit(self, edits: List[str]) -> Optional[List[str]]:
        """Carries out edits; the version that was present is the one before from then on."""
        old = self._held_before
        held = self.session.hold(BEFORE_NAMES[old is not None and old.name == BEFORE_NAMES[0]])
        try:
            self.session.edits(edits)
        except Refused:
            held.free()
            raise
        if old is not None:
            old.free()
        self.before, self._held_before = self.now.of(held), held
        return self._taken(edits)

    def _taken(self, edits: List[str]) -> Optional[List[str]]:
        """What else changes with edits that were carried out; gives those that undo them."""
        undo = self.model.take_all(edits)
        if any(it.split()[0] in OF_NETS for it in edits):
            self.net_lists += 1
        self.now = self._tracks(self.model.affected())
        self.commits += 1
        return undo

    def _tracks(self, affected: Optional[Set[str]]) -> Tracks:
        """The tracks of the present version, with those of the one before that are the same. `affected` has the nets that the edits
        between them may have changed."""
        self._differing = {}
        if self.before is None or self.before.horizon != self.model.horizon:
            return Tracks(self.session, self.model.horizon)
        if self.session.knows(TOOLS) and not self.session.knows(DIFF):
            self._differing[self.before] = affected
        differing = self.may_differ(self.before)
        if differing is None:
            return Tracks(self.session, self.model.horizon)
        return self.before.of(self.session, differing)


def held_tracks(session: Session, name: str, nets: Sequence[str]) -> Tracks:
    held = session.at(name)
    return Tracks(held, horizon_of(held, nets))


def begin(open_session: Callable[[], Session], steps: Sequence[Step]) -> Tuple[Session, List[str]]:
    """A session in which the commands of a file were carried out, and the edits among them; what it expects is not looked at. BadStep
    where one is refused."""
    commands = [it for it in steps if not it.is_expectation]
    session, replies = started(open_session, commands)
    if session.ask([HARMLESS])[0].is_ok:
        session.kill()
        raise BadStep(commands[-1].number, "the commands leave a batch open")
    return session, [" ".join(it) for it in carried_out([it.line for it in commands], replies) if it[0] in EDITS]


def held_in(steps: Sequence[Step]) -> List[str]:
    """The versions that steps hold at their end, where none of them was refused."""
    held: Dict[str, None] = {}
    for verb, *names in (without_fault(it.line) for it in steps):
        if verb == "hold":
            held[names[0]] = None
        elif verb == "free":
            held.pop(names[0], None)
    return list(held)
