"""Command lines from their words."""
from typing import Union

Word = Union[str, int]

# What parts words or lines: a word that holds one would be read as several.
BREAKS = " \t\r\n"


def word_of(given: Word) -> str:
    """A word of a command. ValueError where the program would not read it as one word.

    Whether it is a good name, kind or number is the program's to say."""
    text = str(given)
    if not text or any(it in BREAKS for it in text):
        raise ValueError(f"{text!r} is not one word")
    return text


def line_of(*words: Word) -> str:
    """The line of a command."""
    return " ".join(map(word_of, words))


def checked_line(line: str) -> str:
    """A line that somebody else wrote. ValueError where it is not one command: it then has no reply, or several."""
    if "\n" in line:
        raise ValueError(f"{line!r} is more than one line")
    if is_skipped(line):
        raise ValueError(f"{line!r} is no command: it has no reply")
    return line


def is_skipped(line: str) -> bool:
    """Whether the program skips a line, and gives no reply to it."""
    words = line.replace("\t", " ").rstrip("\r").strip(" ")
    return not words or words.startswith("#")
