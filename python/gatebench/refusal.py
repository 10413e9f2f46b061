"""Which edit of a refused batch is at fault.

The program answers the commit of a batch with the cause of the first edit that is refused, and not with its place. The
place is found by halving: a beginning of the batch is tried once more, with an edit behind it that is refused for
certain, and for another cause. So no trial is carried out, and its answer says whether the edit at fault is in it."""
from typing import Callable, List, Sequence

from .asked import NO_WORD
from .errors import BatchRefused, Refused
from .replies import Reply

# No name holds an apostrophe, so these are refused in each design: with another code than the batch was.
PROBES = ("drop '", "dropnet '")
PROBE_CODES = (2, 1)

Exchange = Callable[[Sequence[str]], List[Reply]]


def probe_beside(code: int) -> int:
    """Which of the two probes is refused with another code than this one."""
    return 0 if code != PROBE_CODES[0] else 1


def trial(exchange: Exchange, edits: Sequence[str], probe: int) -> Reply:
    """What the commit of these edits and a probe behind them is answered."""
    return exchange(["begin", *edits, PROBES[probe], "commit"])[-1]


def place_at_fault(exchange: Exchange, edits: Sequence[str], refusal: Reply) -> int:
    """The place, from 0, of the first edit for which the commit of these edits was refused.

    Refused where a trial has neither cause, as where it runs out of memory."""
    probe = probe_beside(refusal.code)
    good, bad = 0, len(edits)
    while bad - good > 1:
        middle = (good + bad) // 2
        answer = trial(exchange, edits[:middle], probe)
        if answer.code == refusal.code:
            bad = middle
        elif answer.code == PROBE_CODES[probe]:
            good = middle
        else:
            raise Refused(refusal.code, refusal.name, "commit", refusal.word)
    return good


# Causes that lie with no edit.
NO_EDIT = NO_WORD


def commit_refused(exchange: Exchange, edits: Sequence[str], refusal: Reply) -> Refused:
    """What to raise for a commit of these edits that was refused."""
    if refusal.code in NO_EDIT or not edits:
        return Refused(refusal.code, refusal.name, "commit")
    place = place_at_fault(exchange, edits, refusal)
    return BatchRefused(refusal.code, refusal.name, edits[place], place, refusal.word)
