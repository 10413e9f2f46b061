"""A session of a program that knows what made a change, what it led to, and what differs between two versions: where the one that is
tested does not, these questions are answered in its place, from those about gates and waves (docs/SPEC.md, Questions of tools)."""
from typing import Callable, Dict, List, Sequence

from gatebench import Effect, Origin, Session, Turn
from gatebench.asked import DIFF, PROBES, REACH, WHY
from gatebench.difference import read
from gatebench.origins import GATES
from gatebench.questions import Questions, worked_out_effects, worked_out_origin
from gatebench.replies import Reply


class AskedSession(Session):
    """`asked` are the lines that were asked."""

    def ask(self, lines: Sequence[str]) -> List[Reply]:
        self.asked = [*getattr(self, "asked", []), *lines]
        return super().ask(lines)


class NewerSession(AskedSession):
    def ask(self, lines: Sequence[str]) -> List[Reply]:
        return [reply for line in lines for reply in self._answered(line)]

    def _answered(self, line: str) -> List[Reply]:
        [reply] = super().ask([line])
        words = line.split()
        prefix = words[:2] if words[0] == "at" else []
        verb, *words = words[len(prefix) :]
        if reply.code != 16 or verb not in ANSWERS:
            return [reply]
        if line == PROBES[verb]:
            return [Reply((), "no 1 UnknownNet")]
        return [Reply(tuple(ANSWERS[verb](self, self.at(prefix[1]) if prefix else self, words)), "ok 0")]


def why(session: Session, version: Questions, words: List[str]) -> List[str]:
    found = worked_out_origin(version, words[0], int(words[1]))
    return ["none"] if found is None else lines_of(found)


def lines_of(origin: Origin) -> List[str]:
    return list(map(line_of_turn, origin.turns)) if origin.by == GATES else [origin.by]


def line_of_turn(turn: Turn) -> str:
    return " ".join([turn.gate, str(turn.since), *(word for pair in turn.nets.items() for word in pair)])


def reach(session: Session, version: Questions, words: List[str]) -> List[str]:
    found = worked_out_effects(version, words[0], int(words[1]))
    return list(map(line_of_effect, found)) if worked_out_origin(version, words[0], int(words[1])) else ["none"]


def line_of_effect(effect: Effect) -> str:
    return f"{effect.gate} {effect.time} {effect.net} {effect.value}"


def differences(session: Session, version: Questions, words: List[str]) -> List[str]:
    found = sorted(read(session.at(words[0]), version).items(), key=lambda it: it[1])
    return [f"{net} {time}" for net, time in found]


ANSWERS: Dict[str, Callable[[Session, Questions, List[str]], List[str]]] = {WHY: why, REACH: reach, DIFF: differences}
