"""What answers questions, and which of the questions of tools it knows."""
from abc import ABC, abstractmethod
from typing import Dict, FrozenSet, List, Optional, Sequence

from .causes import BAD_COMMAND, FAULT_PREFIX, FORMS, inner_words
from .command_word import command_word
from .errors import QuestionMissing, Refused
from .near import near
from .netlist_text import GATE_KINDS, NET_KINDS
from .replies import Reply

UNKNOWN_NET, UNKNOWN_GATE, TIME_TOO_LARGE, OUT_OF_MEMORY, WORKER_LOST = 1, 2, 11, 14, 15
# Causes that lie with no word, and may be gone when the line comes again.
NO_WORD = (OUT_OF_MEMORY, WORKER_LOST)

# The questions about nets, gates, points and windows, those of a window in parts, of what made a change and what it led to, of what
# differs, and of the word at fault. Of each a line that changes nothing and that a program which knows it refuses for its name: no
# name has an apostrophe.
TOOLS, PARTS, WHY, REACH, DIFF, FAULT = "nets", "window .. PARTS", "why", "reach", "diff", FAULT_PREFIX
PROBES: Dict[str, str] = {
    TOOLS: "drivers '", PARTS: "window ' 0 0 1", WHY: "why ' 0", REACH: "reach ' 0", DIFF: "diff '", FAULT: f"{FAULT_PREFIX} value ' 0",
}  # fmt: skip

# Of a code that says that there is no such name, the question which lists the names that there are.
LISTS: Dict[int, str] = {UNKNOWN_NET: "nets", UNKNOWN_GATE: "gates"}

# Of the edits that name a kind, behind a name, the kinds that there are.
KINDS: Dict[str, Sequence[str]] = {"net": NET_KINDS, "kind": NET_KINDS, "gate": GATE_KINDS, "type": GATE_KINDS}


class Asked(ABC):
    """A version of a design that questions are asked of."""

    _known: Optional[FrozenSet[str]] = None

    @abstractmethod
    def ask(self, lines: Sequence[str]) -> List[Reply]:
        """The replies to questions, asked of one version, by their lines."""

    def knows(self, questions: str) -> bool:
        """Whether the program knows these questions, one of the names in PROBES. It is asked once."""
        if self._known is None:
            replies = self.ask(list(PROBES.values()))
            self._known = frozenset(name for name, it in zip(PROBES, replies) if it.code != BAD_COMMAND)
        return questions in self._known

    def see_known(self, questions: str) -> None:
        """QuestionMissing where the program does not know these questions."""
        if not self.knows(questions):
            raise QuestionMissing(questions)

    def answers(self, lines: Sequence[str]) -> List[Sequence[str]]:
        """The lines of the answer to each question, asked in one block. Refused where one is refused."""
        replies = self.ask(lines)
        for line, reply in zip(lines, replies):
            self.see_ok(line, reply)
        return [it.lines for it in replies]

    def answer(self, line: str) -> Sequence[str]:
        """The lines of the answer to a question."""
        [lines] = self.answers([line])
        return lines

    def see_ok(self, line: str, reply: Reply) -> None:
        """Refused where a line was refused."""
        if not reply.is_ok:
            raise self.refused(line, reply)

    def refused(self, line: str, reply: Reply) -> Refused:
        """What to raise for a line that was refused by itself."""
        word = self.word_at_fault(line, reply)
        return Refused(reply.code, reply.name, line, word, self.names_like(line, reply.code, word))

    def word_at_fault(self, line: str, reply: Reply) -> Optional[str]:
        """The word for which a line was refused: the one that the program says, which refuses the line once more for it; of a program that
        does not say it the one that the line and the code leave, None where that may be several."""
        if reply.word is None and reply.code not in NO_WORD and self.knows(FAULT):
            [again] = self.ask([f"{FAULT_PREFIX} {line}"])
            if (again.code, again.word is None) == (reply.code, False):
                return again.word
        return reply.word or command_word(line, reply.code)

    def names_like(self, line: str, code: int, word: Optional[str]) -> List[str]:
        """Names like a word for which a line was refused with a code that says that no net, no gate, no command or no kind has this name;
        none where the program does not list names."""
        if code == BAD_COMMAND and word is not None:
            known = words_for(line, word)
            return near(word, known) if word not in known else []
        if code not in LISTS or word is None or not self.knows(TOOLS):
            return []
        return near(word, [it.partition(" ")[0] for it in self.answer(LISTS[code])])


def words_for(line: str, word: str) -> Sequence[str]:
    """The words of the language that may stand where a line has a word which it may not have: commands, or kinds."""
    first, _, third = [*inner_words(line)[1], "", "", ""][:3]
    if word == first:
        return list(FORMS)
    return KINDS.get(first, ()) if word == third else ()
