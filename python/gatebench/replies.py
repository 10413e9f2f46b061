"""The program's replies: lines of an answer, then one line `ok VERSION` or `no CODE NAME`, with the word at fault behind it where that
was asked for."""
from typing import List, NamedTuple, Optional, Tuple

from .errors import BadReply, Refused

ENDS = ("ok ", "no ")


class Reply(NamedTuple):
    """One reply: the lines of its answer, and its last line."""

    lines: Tuple[str, ...]
    end: str

    @property
    def is_ok(self) -> bool:
        return self.end.startswith("ok ")

    @property
    def code(self) -> int:
        """The code of a refusal, 0 where there is none."""
        return 0 if self.is_ok else self._number()

    @property
    def name(self) -> str:
        """The name of a refusal, empty where there is none."""
        return "" if self.is_ok else "".join(self.end.split(" ")[2:3])

    @property
    def word(self) -> Optional[str]:
        """The word at fault, where the program says one."""
        return None if self.is_ok else next(iter(self.end.split(" ")[3:]), None)

    def version(self, command: str) -> int:
        """The version that was asked or made. Refused where the command, whose line is given, was refused."""
        if not self.is_ok:
            raise Refused(self.code, self.name, command, self.word)
        return self._number()

    def one_line(self, command: str) -> str:
        """The answer of a command that has one line of it."""
        self.version(command)
        if len(self.lines) != 1:
            raise BadReply(f"{command!r} was answered with {len(self.lines)} lines")
        return self.lines[0]

    def _number(self) -> int:
        try:
            return int(self.end.split(" ")[1])
        except ValueError:
            raise BadReply(f"{self.end!r} is no end of a reply") from None


class ReplyReader:
    """Puts replies together from the pieces in which they are read."""

    def __init__(self) -> None:
        self._rest = ""
        self._lines: List[str] = []

    def feed(self, data: bytes) -> List[Reply]:
        """The replies that end in this piece."""
        text = self._rest + data.decode("ascii", "replace")
        lines = text.split("\n")
        self._rest = lines.pop()
        if not (text.startswith(ENDS) or "\nok " in text or "\nno " in text):
            # Most pieces of a dump have no end in them.
            self._lines += lines
            return []
        replies = []
        for line in lines:
            if line.startswith(ENDS):
                replies.append(Reply(tuple(self._lines), line))
                self._lines = []
            else:
                self._lines.append(line)
        return replies
