"""What is drawn of a row: values, each with the moment from which on."""
from typing import List, Tuple

# The value of a part in which a row changes more than once.
MANY = "*"

Span = Tuple[int, str]


def add_many(spans: List[Span], begin: int, behind: Span) -> None:
    """Adds a part with several changes; parts that touch become one."""
    if len(spans) > 1 and spans[-1][0] == begin and spans[-2][1] == MANY:
        spans.pop()
    else:
        spans.append((begin, MANY))
    spans.append(behind)
