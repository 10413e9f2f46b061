"""A case: a design text, the words of the command line and the commands; and what the reading answers to it."""
from functools import lru_cache
from importlib import import_module
from typing import NamedTuple, Optional, Tuple

from generate.sessions import TooLong, guard

USUAL_HORIZON = 1000
READING = "reading"


class Answer(NamedTuple):
    """How a run ends: its status, or a word where it does not end by itself; what it prints, and what it says."""

    status: object
    printed: bytes
    said: bytes


@lru_cache(maxsize=4)
def spelled_by(reading, text, delay):
    """The design that a text spells by a reading, or its fault."""
    spelled = import_module(f"{reading}.spelled")
    try:
        return spelled.read(text, delay)
    except spelled.Fault as fault:
        return fault


class Case(NamedTuple):
    """What the program is given. `words` are options of the command line with their values; `tool` says that it is gatetool."""

    text: bytes
    words: Tuple[str, ...] = ()
    commands: bytes = b""
    tool: bool = False

    def option(self, name, usual):
        """The value of an option."""
        return int(self.words[self.words.index(name) + 1]) if name in self.words else usual

    def horizon(self):
        return self.option("--horizon", USUAL_HORIZON)

    def found(self, reading):
        return spelled_by(reading, self.text, self.option("--delay", None))

    def design(self):
        """The design of its text, or nothing."""
        found = self.found(READING)
        return None if isinstance(found, Exception) else found

    def answer(self, reading=READING) -> Optional[Answer]:
        """What a reading answers, by the name of its package; nothing where the run would take too long."""
        found = self.found(reading)
        if isinstance(found, Exception):
            return Answer(1, b"", import_module(f"{reading}.spelled").refusal(self.text, found))
        session = import_module(f"{reading}.session")
        try:
            return Answer(0, session.Session(found, self.horizon(), guard, self.tool).replies(self.commands), b"")
        except TooLong:
            return None
