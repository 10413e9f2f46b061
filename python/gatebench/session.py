"""A session: a running program with a design, its commands as methods."""
import errno
import os
import re
import stat
import tempfile
from contextlib import contextmanager
from types import TracebackType
from typing import IO, Iterable, Iterator, List, Optional, Sequence, Type, Union

from . import html
from .asked import FAULT
from .causes import FAULT_PREFIX
from .channel import Channel
from .draw_svg import draw_svg
from .edits import Batch, Edits, batches
from .errors import BatchRefused, DesignRefused, ProgramEnded, Refused
from .fault_word import fault_word
from .limits import MOST_TEXT
from .lines import checked_line, line_of
from .names import Names, read_names
from .picture import Picture
from .program import command_words, program_path, tool_path
from .questions import Questions
from .refusal import commit_refused
from .replies import Reply
from .said_word import said_word
from .stimulus import bits_among

PathLike = Union[str, "os.PathLike[str]"]

# For how many seconds the program may neither take nor give a byte, where nothing else is said.
TIMEOUT = 600.0

# How many nets a notebook shows of a session.
SHOWN = 20

# What the program says where a file, or its input, can't be read.
READ_FAILED = "read failed\n"

# A command that changes nothing, at a session's beginning: it is answered once the design is read and run.
HARMLESS = "abort"

COMMIT = "commit"


class Session(Edits[int], Questions):
    """Runs gatebench over a design, and is a context manager that ends it.

    The design is a file, `Session("m.v")`, or a text, `Session(text="module m; endmodule")`. `horizon` is the last
    moment that is simulated, in time units; `delay` is the delay of gates that the text writes without one; `workers`
    is how many threads may follow gates at once. What is not given is the program's default. `program` is the path of the
    program (`program_path` says where it is looked for); `timeout` is for how many seconds the program may neither take
    nor give a byte before TimedOut is raised, None for ever.

    OSError, as FileNotFoundError, where the file can't be read, DesignRefused where the text is refused, ProgramEnded where
    the program ends for another reason, ProgramMissing where there is none. An edit gives the version that it makes; a
    question asks the present version; a refusal raises Refused, and leaves all as it was. A session is for one thread at a
    time."""

    def __init__(
        self,
        design: Optional[PathLike] = None,
        *,
        text: Optional[str] = None,
        horizon: Optional[int] = None,
        delay: Optional[int] = None,
        workers: Optional[int] = None,
        program: Optional[str] = None,
        timeout: Optional[float] = TIMEOUT,
    ) -> None:
        if (design is None) == (text is None):
            raise ValueError("a session is over a design file or a text, and not over both")
        self._text = None if text is None else text_file(text)
        path = os.fspath(design) if design is not None else ""
        files = [] if self._text is None else [self._text.fileno()]
        words = command_words(path or f"/dev/fd/{files[0]}", horizon, delay, workers)
        self.design = path or "the text"
        self._names: Optional[Names] = None
        try:
            self._channel = Channel(tool_path(program_path(program)), words, timeout, files)
            self.ask([HARMLESS])
        except ProgramEnded as ended:
            if path and ended.errors.endswith(READ_FAILED):
                see_readable(path)
            raise refused_design(self.design, ended, text, delay) or ended from None
        finally:
            if self._text is not None:
                self._text.close()

    def __repr__(self) -> str:
        return f"<Session of {self.design}{'' if self._channel.is_open else ', ended'}>"

    def _repr_html_(self) -> str:
        """What notebooks show: the waves of the first nets, which are the ports."""
        if not self._channel.is_open:
            return html.line(repr(self))
        names = self.nets()
        waves = list(self.waves(*names[:SHOWN]).values())
        if not waves:
            return html.line(f"{self.design}: no nets")
        text = f"{self.design}: {len(waves)} of {len(names)} nets, to {waves[0].horizon}"
        return html.line(text) + draw_svg(Picture(waves, 0, waves[0].horizon, "time unit"))

    def __enter__(self) -> "Session":
        return self

    def __exit__(
        self, kind: Optional[Type[BaseException]], error: Optional[BaseException], trace: Optional[TracebackType]
    ) -> None:
        if kind is None:
            self.close()
        else:
            self.kill()

    def close(self) -> None:
        """Ends the program, and waits for its end. ProgramEnded where it does not end with status 0."""
        self._channel.close()

    def kill(self) -> None:
        """Ends the program at once."""
        self._channel.kill()

    def ask(self, lines: Sequence[str]) -> List[Reply]:
        """Sends any command lines as one block, and gives the reply of each. A refusal is a reply like another here.

        However many lines there are, no pipe fills up. ValueError, with nothing sent, where a line is none: blank, a
        comment, or several lines."""
        return self._channel.exchange([checked_line(it) for it in lines])

    def command(self, line: str) -> int:
        """Carries out one command line, and gives the version of its reply. Refused where it is refused."""
        [reply] = self.ask([line])
        self.see_ok(line, reply)
        return reply.version(line)

    def edit(self, line: str) -> int:
        """Takes an edit by its line, and gives the version that it makes."""
        return self.command(line)

    @contextmanager
    def batch(self) -> Iterator[Batch]:
        """Collects edits, and carries them out as one commit at the end of the block.

        Questions in the block ask the version before it. BatchRefused, with the edit at fault, where an edit is refused:
        then none was carried out. Nothing is carried out either where the block raises."""
        batch = Batch(self.nets)
        yield batch
        batch.version = self._commit([checked_line(it) for it in batch.lines])

    def edits(self, lines: Iterable[str]) -> int:
        """Carries out edits as one commit, and gives its version. BatchRefused where one is refused.

        The program takes 4096 edits in a commit: where there are more, they are several, and those before the one at fault were
        carried out."""
        version = 0
        for some in batches([checked_line(it) for it in lines]):
            version = self._commit(some)
        return version

    def bits(self, name: str) -> List[str]:
        return bits_among(name, self.nets())

    def begin(self) -> int:
        """Begins a batch of the program: edits are kept from here on, and `batch()` is not for use until its end."""
        return self.command("begin")

    def commit(self) -> int:
        """Carries out the edits of the program's batch as one, and ends it. Refused, without the edit at fault, where
        one is refused: `batch()` tells which it was."""
        reply = self._commit_reply()
        self.see_ok(COMMIT, reply)
        return reply.version(COMMIT)

    def _commit_reply(self) -> Reply:
        """The reply to `commit`. A refusal ends the batch, so the word of the edit at fault is asked for with it."""
        [reply] = self.ask([f"{FAULT_PREFIX} {COMMIT}" if self.knows(FAULT) else COMMIT])
        return reply

    def abort(self) -> int:
        """Ends the program's batch; its edits are dropped."""
        return self.command("abort")

    def hold(self, name: str) -> "Held":
        """Holds the present version under a name, and gives it: it can be asked whatever is changed later."""
        self.command(line_of("hold", name))
        return self.at(name)

    def free(self, name: str) -> int:
        """Holds the version under this name no longer."""
        return self.command(line_of("free", name))

    def at(self, name: str) -> "Held":
        """The version that is held under a name. Whether there is one shows when it is asked."""
        return Held(self, name)

    def quit(self) -> int:
        """The command `quit`: gives the last version and ends the program."""
        version = self.command("quit")
        self.close()
        return version

    @property
    def names(self) -> Names:
        """What commands call the nets and gates of an imported design, by the names that its source has for them:
        `session.wave(session.names.net("u1/foo.x[3]"))`. Of another design each name is itself."""
        if self._names is None:
            self._names = read_names(self.design)
        return self._names

    def _commit(self, edits: Sequence[str]) -> int:
        self.command("begin")
        replies = self.ask(edits)
        for place, reply in enumerate(replies):
            if not reply.is_ok:
                word = self.word_at_fault(edits[place], reply)
                # It was not kept, so the batch would be carried out without it.
                self.command("abort")
                raise self._with_near(BatchRefused(reply.code, reply.name, edits[place], place, word))
        reply = self._commit_reply()
        if not reply.is_ok:
            raise self._with_near(commit_refused(self.ask, edits, reply))
        return reply.version(COMMIT)

    def _with_near(self, refused: Refused) -> Refused:
        refused.near = tuple(self.names_like(refused.command, refused.code, refused.word))
        return refused


class Held(Questions):
    """A version that a session holds under the name `name`."""

    def __init__(self, session: Session, name: str) -> None:
        self._session, self.name = session, name
        self._begin = line_of("at", name)

    @property
    def session(self) -> Session:
        return self._session

    def ask(self, lines: Sequence[str]) -> List[Reply]:
        return self._session.ask([f"{self._begin} {checked_line(it)}" for it in lines])

    def knows(self, questions: str) -> bool:
        return self._session.knows(questions)

    def refused(self, line: str, reply: Reply) -> Refused:
        whole = f"{self._begin} {line}"
        word = self._session.word_at_fault(whole, reply)
        return Refused(reply.code, reply.name, whole, word, self.names_like(line, reply.code, word))

    def free(self) -> int:
        """Gives the name back. Refused where it was given back before."""
        return self._session.free(self.name)


def see_readable(path: str) -> None:
    """OSError where a file can't be read: the program says only that a read failed, and not of which file."""
    if stat.S_ISDIR(os.stat(path).st_mode):
        raise IsADirectoryError(errno.EISDIR, os.strerror(errno.EISDIR), path)
    if not os.access(path, os.R_OK):
        raise PermissionError(errno.EACCES, os.strerror(errno.EACCES), path)


def text_file(text: str) -> IO[bytes]:
    """A file without a name that has this text. It is gone when the last one that reads it closes it."""
    file = tempfile.TemporaryFile()
    file.write(text.encode("utf-8", "surrogateescape"))
    file.flush()
    file.seek(0)
    return file


def refused_design(design: str, ended: ProgramEnded, text: Optional[str], delay: Optional[int]) -> Optional[DesignRefused]:
    """The refusal of the text that a program ended with, None where it ended for another reason. `text` is the text of a design
    that is no file."""
    found = re.search(r"^line (\d+): (\d+) (\w+)$", ended.errors, re.M)
    if ended.status != 1 or not found:
        return None
    line, code, name = int(found[1]), int(found[2]), found[3]
    known = text_of(design) if text is None else text
    # Of some faults the program's word is the bracket behind it.
    at = fault_word(known, line, name, delay) or said_word(ended.errors, known, line)
    shown = known.split("\n")[(at.line if at else line) - 1 :][:1]
    return DesignRefused(design, line, code, name, "".join(shown), at)


def text_of(path: str) -> str:
    """The text of a file, empty where it can't be read or is no file: a pipe was read before."""
    try:
        if not stat.S_ISREG(os.stat(path).st_mode):
            return ""
        with open(path, encoding="utf-8", errors="surrogateescape", newline="") as file:
            # The program takes no longer text.
            return file.read(MOST_TEXT)
    except OSError:
        return ""
