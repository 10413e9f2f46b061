"""What a page shows: a design whose file may change, with rules for its waves."""
import os
from typing import List, Optional, Sequence, Tuple

from ..asked import TOOLS
from ..errors import GatebenchError
from ..netlist import Netlist, read_netlist
from ..script import Opening, Step
from ..session import HARMLESS, Session
from .edited_session import EditedSession, begin, held_in
from .model import Model
from .rows import rows_of
from .rules import Broken, NoPulse, Rule, broken, rules_of
from .tracks import Tracks, horizon_of

# Edits that change what the nets do, and not which there are.
OF_RUNS = ("stim", "unstim", "horizon", "delay")

Stamp = Optional[Tuple[int, int, int]]


class View:
    """`current` is the design as it is now; `loads` counts how often it was read."""

    def __init__(self, opening: Opening, steps: Sequence[Step], program: Optional[str], timeout: float) -> None:
        self.opening, self.steps, self.loads = opening, list(steps), 0
        self._program, self._timeout = program, timeout
        self.rules: List[Rule] = []
        # Why the gates can't be told, empty where they can.
        self.unread = ""
        self._stamp: Stamp = None
        self.current = self._opened()

    def _opened(self) -> EditedSession:
        """The design as its file is now, with the steps carried out. What it has read is not read again, even if it was
        refused."""
        self._stamp = stamp_of(self.opening.design)
        session, edits = begin(lambda: self._session(self.opening.horizon), self.steps)
        try:
            model = Model(self._netlist())
            model.take_all(edits)
            if session.knows(TOOLS):
                model.ask(session)
                self.unread = ""
            self.unit, model.nets = self._names(edits)
            model.horizon = horizon_of(session, model.nets)
            opened = EditedSession(session, model, held_in(self.steps))
        except BaseException:
            session.kill()
            raise
        self.loads += 1
        return opened

    def _session(self, horizon: Optional[int]) -> Session:
        design, delay = self.opening.design, self.opening.delay
        return Session(design, horizon=horizon, delay=delay, program=self._program, timeout=self._timeout)

    def _names(self, edits: Sequence[str]) -> Tuple[str, List[str]]:
        """The time unit and the nets of the design after edits. They stand in a dump: it is that of a run which ends at 0, so
        that it is short."""
        with self._session(0) as session:
            session.edits([it for it in edits if it.split()[0] not in OF_RUNS])
            dump = session.dump()
        return dump.unit, list(dump.waves)

    def _netlist(self) -> Netlist:
        self.unread = ""
        try:
            return read_netlist(self.opening.design, self.opening.delay)
        except ValueError as error:
            self.unread = str(error)
            return Netlist("", [], [], [])

    def is_stale(self) -> bool:
        """Whether the file of the design is another than the one that was read."""
        return stamp_of(self.opening.design) not in (self._stamp, None)

    def reload(self) -> List[str]:
        """Reads the design again and carries out the log once more; gives what of it is refused now.

        The version before is then the old design, if its program still answers. DesignRefused where the new one is refused; then all is as it was."""
        opened = self._opened()
        refused = opened.again(self.current.log)
        opened.before, opened.done = self.current.now if is_answering(self.current.session) else None, []
        self.current = opened
        return refused

    def version(self, name: str) -> Optional[Tracks]:
        """A version by its name: `before` is the one before the last step. None where there is none."""
        return self.current.before if name == "before" else self.current.held.get(name)

    def add_rule(self, kind: str, bits: Sequence[str], words: str) -> None:
        """Makes a rule for a row, given by its nets. A net has one least width of its pulses. BadRule where the words say none."""
        made = rules_of(kind, bits, words, self.bits_of_row)
        fewer = {it.net for it in made if isinstance(it, NoPulse)}
        kept = [it for it in self.rules if it not in made and not (isinstance(it, NoPulse) and it.net in fewer)]
        self.rules = [*kept, *made]

    def bits_of_row(self, name: str) -> List[str]:
        """The nets of a row, or the one bit that has this name; none where there is neither."""
        nets = self.current.model.nets
        return next((it.bits for it in rows_of(nets) if it.name == name), [name] if name in nets else [])

    def broken(self) -> List[Broken]:
        """Where rules are broken, in order of time. A rule of a net that is not there is passed over."""
        nets = set(self.current.model.nets)
        rules = [it for it in self.rules if nets.issuperset(it.nets)]
        return sorted(found for it in rules for found in broken(it, self.current.now.wave))


def is_answering(session: Session) -> bool:
    """Whether the program of a session has not ended."""
    try:
        session.ask([HARMLESS])
    except GatebenchError:
        return False
    return True


def stamp_of(path: str) -> Stamp:
    """What changes when a file is written, None where there is none."""
    try:
        found = os.stat(path)
    except OSError:
        return None
    return found.st_mtime_ns, found.st_size, found.st_ino
