"""Sessions in which the commands of a file were carried out."""
from typing import Callable, Iterator, List, Optional, Sequence, Tuple

from .causes import without_fault
from .edits import EDITS, MAX_BATCH
from .replies import Reply
from .script import Step, carry_out
from .session import COMMIT, Session


def started(open_session: Callable[[], Session], steps: Sequence[Step]) -> Tuple[Session, List[Reply]]:
    """A session in which steps were carried out, and their replies. BadStep at the first one that is not as it has to be.

    Edits that follow one another are one commit, and so one run in place of thousands. Where something of that is not as it has to be
    another session carries out each line by itself, and says which it is."""
    session = open_session()
    try:
        replies = carry_out_together(session, steps)
        if replies is None:
            session.kill()
            session = open_session()
            replies = carry_out(session, steps)
    except BaseException:
        session.kill()
        raise
    return session, replies


def carry_out_together(session: Session, steps: Sequence[Step]) -> Optional[List[Reply]]:
    """The replies to steps, with edits that follow one another in batches; None where one of these, or a step, is not as it has to be."""
    lines = list(in_batches(steps))
    replies = list(zip(lines, session.ask([line for line, _ in lines])))
    are_met = all(step.is_met(reply) if step else reply.is_ok for (_, step), reply in replies)
    return [reply for (_, step), reply in replies if step] if are_met else None


def in_batches(steps: Sequence[Step]) -> Iterator[Tuple[str, Optional[Step]]]:
    """The lines of steps, each with its step, and round the edits that follow one another lines that make them batches, with none."""
    is_open, count = False, 0
    for step in steps:
        words = without_fault(step.line)
        joins = not (is_open or step.is_expectation) and is_edit(words)
        if count and (not joins or count == MAX_BATCH):
            yield COMMIT, None
            count = 0
        if joins and not count:
            yield "begin", None
        count += joins
        is_open = words == ["begin"] or is_open and words not in ([COMMIT], ["abort"])
        yield step.line, step
    if count:
        yield COMMIT, None


def is_edit(words: Sequence[str]) -> bool:
    """Whether words are an edit; `gate` with one word behind it is a question."""
    return words[0] in EDITS and not (words[0] == "gate" and len(words) == 2)
