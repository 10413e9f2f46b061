"""How far a long task is, on a terminal alone."""
import sys
from importlib import import_module
from typing import Any, Protocol, cast


class Line:
    """A line on a terminal that says how many of something are done, and nothing elsewhere."""

    def __init__(self, total: int, what: str, done: int = 0) -> None:
        self._total, self._what, self._done = total, what, done
        self._is_seen = sys.stderr.isatty()

    def update(self, count: int = 1) -> None:
        """So many more are done."""
        self._done += count
        self.close()
        if self._is_seen:
            print(f"{self._done} of {self._total} {self._what}", end="", file=sys.stderr, flush=True)

    def close(self) -> None:
        """Takes the line away, so that another one can stand in its place."""
        if self._is_seen:
            print("\r\033[K", end="", file=sys.stderr, flush=True)


class Shown(Protocol):
    """What a long task tells how far it is."""

    def update(self, count: int) -> Any: ...

    def close(self) -> None: ...


def bar(total: int, what: str, done: int) -> Shown:
    """A bar with the time that is left where tqdm is installed, else a line."""
    try:
        tqdm = import_module("tqdm").tqdm
    except ImportError:
        return Line(total, what, done)
    shown: Any = tqdm(total=total, initial=done, unit=f" {what}", disable=not sys.stderr.isatty(), leave=False)
    return cast(Shown, shown)
