"""The running program: lines of commands go in, replies come out."""
import os
import select
import subprocess
import tempfile
import weakref
from typing import IO, Any, List, Optional, Sequence

from .errors import BadReply, Closed, GatebenchError, NoReply, ProgramEnded, ProgramMissing, TimedOut
from .replies import Reply, ReplyReader

PIECE = 1 << 16
# How long the program has to end, once a pipe of it has closed, and to say more once it takes no more. In seconds.
GRACE = 5.0


class Channel:
    """Writes while it reads, so neither pipe can fill up while both sides wait.

    `program` is the path of the program, and `words` are those that it is given, the name by which it goes first. `timeout`
    is for how many seconds the program may neither take nor give a byte; None waits for ever. After an exception of
    `exchange` the program has ended, and each further exchange raises the same again. A channel that nobody has any more
    ends its program."""

    def __init__(self, program: str, words: Sequence[str], timeout: Optional[float], pass_fds: Sequence[int] = ()) -> None:
        self._timeout = timeout
        self._errors = tempfile.TemporaryFile()
        self._reader = ReplyReader()
        self._failure: Optional[GatebenchError] = None
        try:
            self._process = subprocess.Popen(
                list(words),
                executable=program,
                stdin=subprocess.PIPE,
                stdout=subprocess.PIPE,
                stderr=self._errors,
                bufsize=0,
                pass_fds=pass_fds,
            )
        except OSError as error:
            self._errors.close()
            raise ProgramMissing(f"{program} can't be started: {error.strerror}") from None
        assert self._process.stdin is not None and self._process.stdout is not None
        self._stdin, self._stdout = self._process.stdin, self._process.stdout
        self._end = weakref.finalize(self, end, self._process, (self._stdin, self._stdout, self._errors))
        os.set_blocking(self._stdin.fileno(), False)

    @property
    def is_open(self) -> bool:
        return self._failure is None

    def exchange(self, lines: Sequence[str]) -> List[Reply]:
        """Sends lines, each of which has one reply, in one block, and gives their replies in order."""
        if self._failure is not None:
            raise self._failure
        try:
            return self._exchange("".join(f"{line}\n" for line in lines).encode("utf-8", "surrogateescape"), len(lines))
        except GatebenchError as failure:
            self._fail(failure)
            raise
        except BaseException:
            # Replies would be taken for those of other commands.
            self._fail(Closed("an exchange was interrupted"))
            raise

    def close(self) -> None:
        """Ends the input, and waits for the program to end. ProgramEnded where its status is not 0."""
        if self._failure is not None:
            return
        try:
            self._stdin.close()
            self._see_end()
            status = self._process.wait(self._timeout)
        except subprocess.TimeoutExpired as error:
            failure = TimedOut(error.timeout)
            self._fail(failure)
            raise failure from None
        except GatebenchError as failure:
            self._fail(failure)
            raise
        except BaseException:
            self.kill()
            raise
        ended = ProgramEnded(status, self._said())
        self._fail(Closed("the session was closed"))
        if status:
            raise ended

    def kill(self) -> None:
        """Ends the program at once."""
        if self._failure is None:
            self._fail(Closed("the session was closed"))

    def _exchange(self, data: bytes, count: int) -> List[Reply]:
        replies: List[Reply] = []
        try:
            self._talk(memoryview(data), count, replies)
        except NoReply as failure:
            failure.replies = replies
            raise
        if len(replies) > count:
            raise BadReply(f"{count} commands had {len(replies)} replies")
        return replies

    def _talk(self, left: memoryview, count: int, replies: List[Reply]) -> None:
        """Writes what is left and takes the replies as they come, until there are as many as the count."""
        idle = self._timeout
        while len(replies) < count or left:
            is_readable, is_writable = self._wait(bool(left), idle)
            if is_readable:
                piece = os.read(self._stdout.fileno(), PIECE)
                if not piece:
                    raise self._ended()
                replies += self._reader.feed(piece)
            if is_writable:
                try:
                    left = left[os.write(self._stdin.fileno(), left[:PIECE]) :]
                except BrokenPipeError:
                    # It reads no more: what it had to say may still come, and then its end.
                    left, idle = left[:0], GRACE if idle is None else min(idle, GRACE)

    def _wait(self, wants_to_write: bool, seconds: Optional[float]) -> "tuple[bool, bool]":
        """Whether there is something to read and whether something can be written, as soon as one of them is so."""
        poll = select.poll()
        poll.register(self._stdout.fileno(), select.POLLIN)
        if wants_to_write:
            poll.register(self._stdin.fileno(), select.POLLOUT)
        ready = {fd for fd, _ in poll.poll(None if seconds is None else seconds * 1000)}
        if not ready:
            raise TimedOut(seconds or 0.0)
        return self._stdout.fileno() in ready, wants_to_write and self._stdin.fileno() in ready

    def _see_end(self) -> None:
        """Waits until the program closes its output. All that it had to say was read before."""
        self._wait(False, self._timeout)
        if os.read(self._stdout.fileno(), PIECE):
            raise BadReply("the program wrote more than replies")

    def _ended(self) -> ProgramEnded:
        self._stdin.close()
        try:
            self._process.wait(GRACE)
        except subprocess.TimeoutExpired:
            self._process.kill()
            self._process.wait()
        return ProgramEnded(self._process.returncode, self._said())

    def _said(self) -> str:
        self._errors.seek(0)
        return self._errors.read(PIECE).decode("utf-8", "replace")

    def _fail(self, failure: GatebenchError) -> None:
        self._failure = failure
        self._end()


def end(process: "subprocess.Popen[bytes]", files: Sequence[IO[Any]]) -> None:
    """Ends a program, and closes the files that lead to it."""
    process.kill()
    process.wait()
    for it in files:
        it.close()
