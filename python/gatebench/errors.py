"""What can go wrong, each as an exception of its own. All of them are a GatebenchError."""
from typing import TYPE_CHECKING, Any, Dict, List, Optional, Sequence, Tuple, Type

from .causes import form_for, of_command, of_text
from .command_word import command_word
from .near import there_is

if TYPE_CHECKING:
    from .fault_word import FaultWord
    from .replies import Reply


class GatebenchError(Exception):
    """Anything that this package says of the program gatebench or of its answers. It can be pickled, so that it comes
    through from another process as it was raised."""

    def __reduce__(self) -> Tuple[Any, ...]:
        return same_error, (type(self), self.args, self.__dict__)


def same_error(kind: Type[GatebenchError], args: Tuple[Any, ...], state: Dict[str, Any]) -> GatebenchError:
    """An error of this kind that says and has the same; `args` are those of its message, and not of its kind."""
    error = kind.__new__(kind, *args)
    error.args = args
    error.__dict__.update(state)
    return error


class Refused(GatebenchError):
    """The program refused a command: it answered `no CODE NAME`, and nothing changed.

    `code` is the number and `name` the word of the refusal, as docs/commands.md lists them; `command` is the line, and `word` the
    word of it that is at fault, None where that is not known. Where no net or gate has this name, or no command or kind, `near` are
    names like it. Its text says what the code means, and what words a command has."""

    def __init__(self, code: int, name: str, command: str, word: Optional[str] = None, near: Sequence[str] = ()) -> None:
        super().__init__(code, name, command)
        self.code, self.name, self.command, self.word = code, name, command, word or command_word(command, code)
        self.near = tuple(near)

    def __str__(self) -> str:
        return f"no {self.code} {self.name}: {self.command}{self.means()}"

    def means(self) -> str:
        """What stands behind the line in its text."""
        means = of_command(self.code, self.name) + form_for(self.code, self.command)
        return f": {quoted(cut(self.word))}{means}{there_is(self.near)}" if self.word and means else means


class BatchRefused(Refused):
    """A batch was refused for one of its edits, and none of its edits was carried out.

    `place` is the place of the edit at fault in the batch, from 0, and `command` is its line."""

    def __init__(self, code: int, name: str, command: str, place: int, word: Optional[str] = None) -> None:
        super().__init__(code, name, command, word)
        self.place = place

    def __str__(self) -> str:
        return f"no {self.code} {self.name}: {self.command} (edit {self.place + 1} of the batch){self.means()}"


class DesignRefused(GatebenchError):
    """The program refused the design text at its line `line`, with `code` and `name` as docs/does-not-load.md lists them.

    `word` is the word at fault, at the column `column` of the line `word_line`; the three are None where the text leaves open
    which word it is. Of a module or a port that is not there `near` are names that may be meant. `text` is what stands on the word's line, or on the program's. Its own text says what helps."""

    def __init__(self, design: str, line: int, code: int, name: str, text: str = "", at: "Optional[FaultWord]" = None) -> None:
        place, word = (f"{at.line}:{at.column}", cut(at.word)) if at else (str(line), "")
        self.near = at.near if at else ()
        what = f"{design}:{place}: {code} {name}{f' at {quoted(word)}' if word else ''}{of_text(code, name, word)}{there_is(self.near)}"
        super().__init__("\n".join([what, *marked(text, at)]))
        self.design, self.line, self.code, self.name, self.text = design, line, code, name, text.strip()[:SHOWN]
        self.word, self.word_line, self.column = at[:3] if at else (None, None, None)


# How much is shown of a word or of a line at fault, and of what stands before the word.
SHOWN, SHOWN_BEFORE = 80, 30


def cut(text: str) -> str:
    return text if len(text) <= SHOWN else f"{text[: SHOWN - 2]}.."


def quoted(word: str) -> str:
    return f"`` {word} ``" if "`" in word else f"`{word}`"


def marked(text: str, at: "Optional[FaultWord]") -> List[str]:
    """A line of a text, and below it marks under the word at fault. Of a long one what stands round the word."""
    margin = len(text) - len(text.lstrip())
    column = at.column - 1 if at else margin
    begin = max(margin, column - SHOWN_BEFORE) if len(text) - margin > SHOWN else margin
    shown = "".join(it if it.isprintable() else " " for it in text[begin : begin + SHOWN].rstrip())
    marks = "^" * min(len(at.word), len(shown) - column + begin) if at else ""
    return [f"  {it}" for it in (shown, " " * (column - begin) + marks) if it.strip()]


class ProgramMissing(GatebenchError):
    """There is no program to run, or it can't be started."""


class QuestionMissing(GatebenchError):
    """The program does not know a question: it is older than this package, or it was started by a script under another name than
    gatetool (docs/tool-questions.md)."""

    def __init__(self, question: str) -> None:
        super().__init__(f"the program does not know the question {question}: build it anew, and start it as itself or as gatetool")
        self.question = question


class NoReply(GatebenchError):
    """The program did not answer all commands of a block. `replies` has the replies that it did give."""

    def __init__(self, message: str) -> None:
        super().__init__(message)
        self.replies: "List[Reply]" = []


class ProgramEnded(NoReply):
    """The program ended before it had answered, or its pipes closed.

    `status` is its exit status, negative for the signal that ended it; `errors` is what it said on standard error."""

    def __init__(self, status: Optional[int], errors: str) -> None:
        said = f": {errors.strip()}" if errors.strip() else ", and said nothing"
        super().__init__(f"the program ended with status {status}{said}")
        self.status, self.errors = status, errors


class TimedOut(NoReply):
    """The program neither took nor gave a byte for `seconds` seconds. It was ended."""

    def __init__(self, seconds: float) -> None:
        super().__init__(f"the program did not answer for {seconds:g} seconds")
        self.seconds = seconds


class Closed(GatebenchError):
    """The session was closed before."""


class BadReply(GatebenchError):
    """What the program wrote is no reply of the language."""
