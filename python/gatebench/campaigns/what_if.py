"""What-ifs: edits of a design that other edits undo."""
from typing import NamedTuple, Tuple


class WhatIf(NamedTuple):
    """The edits `edits`, which `undo` undoes. `name` says what they make; `module` is the instance it is counted to."""

    name: str
    module: str
    edits: Tuple[str, ...]
    undo: Tuple[str, ...]
