"""Cuts a case down to the least pieces that still show a difference."""
import re
from itertools import product

# How often a difference is looked for again while it is cut down.
TRIES = 3000
# By what a text is cut, one after the other: lines, items, what stands between commas and brackets, and pieces.
SPLITS = [re.compile(it, re.DOTALL) for it in (
    rb"[^\n]*\n|[^\n]+", rb"[^;]*;|[^;]+", rb"[^,()]*,|[^,()]+|[()]", rb"\s+|[\w$']+|.",
)]  # fmt: skip


def without(pieces, keeps):
    """The pieces that are left when no further one can be left out: `keeps` says whether some pieces still show it."""
    size = max(1, len(pieces) // 2)
    while True:
        place, left = 0, len(pieces)
        while place < len(pieces):
            fewer = pieces[:place] + pieces[place + size :]
            if keeps(fewer):
                pieces = fewer
            else:
                place += size
        if size == 1 and len(pieces) == left:
            return pieces
        size = max(1, size // 2)


def pairs(words):
    return [words[place : place + 2] for place in range(0, len(words), 2)]


def cut(case, differs):
    """The least case found that `differs`: fewer options, commands, lines and pieces of the text, pieces of commands."""

    left = TRIES

    def reduce(parts, made):
        def keeps(fewer):
            nonlocal left
            left -= 1
            return left >= 0 and differs(made(fewer))

        return without(parts, keeps)

    for _ in range(2):
        options = reduce(pairs(case.words), lambda fewer: case._replace(words=tuple(it for pair in fewer for it in pair)))
        case = case._replace(words=tuple(it for pair in options for it in pair))
        for name, split in product(("commands", "text"), SPLITS):
            pieces = split.findall(getattr(case, name))
            parts = reduce(pieces, lambda fewer, name=name: case._replace(**{name: b"".join(fewer)}))
            case = case._replace(**{name: b"".join(parts)})
    return case
