"""The rows that a page offers: nets, and the vectors that nets are the bits of."""
import re
from typing import Dict, Iterable, List, NamedTuple


class Row(NamedTuple):
    """A row by its name, which has the scopes before its dots, and its nets from the left."""

    name: str
    bits: List[str]


def rows_of(nets: Iterable[str]) -> List[Row]:
    """The rows of nets, in their order. The bits of a vector are one row; a bit that stands alone is a net like others."""
    found: Dict[str, List[str]] = {}
    for net in nets:
        bit = re.fullmatch(r"(.+)\[\d+\]", net)
        found.setdefault(bit[1] if bit else net, []).append(net)
    rows: List[Row] = []
    for name, bits in found.items():
        if len(bits) > 1 and name not in bits:
            rows.append(Row(name, bits))
        else:
            rows += [Row(it, [it]) for it in bits]
    return rows
