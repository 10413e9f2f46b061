"""The tokens of a design text."""
import re
from typing import Any, NamedTuple

from .tables import LEFT_OUT, MAX_NUMBER, USED_WORDS

# White space: bytes, comments and attributes. A comment or attribute that does not end is none.
WHITE = re.compile(rb"(?:[\t\n\f\r ]|//[^\n]*|/\*(?s:.)*?\*/|\(\*(?s:.)*?\*\))+")
TIMESCALE_PART = (rb"100|10|1", rb"s|ms|us|ns|ps|fs", rb"/", rb"100|10|1", rb"s|ms|us|ns|ps|fs")
TIMESCALE_PARTS = [re.compile(part) for part in TIMESCALE_PART]
TOKEN = re.compile(rb"(1'[bB][01xXzZ])|([0-9][0-9_]*)|([A-Za-z_][A-Za-z0-9_$]*)|\\([!-~]+)|([!-~])")
UNENDED = (b"/*", b"(*")
MARKS = "(),;.#[]:"


class Token(NamedTuple):
    """A token: what it is, what it says, and where it begins.

    NAME and ESCAPED have a name, WORD and LEFT_OUT a word, NUMBER a number, CONST a value, TIMESCALE the first N and unit,
    MARK and OTHER a byte. TEXT is a byte that stands nowhere, UNENDED a comment, an attribute or a name that isn't one,
    and END the end."""

    kind: str
    says: Any
    place: int


def behind_white(text, place):
    found = WHITE.match(text, place)
    return found.end() if found else place


def timescale(text, place):
    """Where the TIMESCALE that begins here ends, with its first N and unit; or nothing."""
    word = b"`timescale"
    if not text.startswith(word, place):
        return None
    end, parts = place + len(word), []
    for number, part in enumerate(TIMESCALE_PARTS):
        begin = behind_white(text, end)
        found = part.match(text, begin)
        if not found or (number == 0 and begin == end):
            return None
        parts.append(found[0].decode())
        end = found.end()
    return end, (parts[0], parts[1])


def number_of(digits, most):
    """The number that these digits spell, or `most` if it is above that."""
    digits = digits.lstrip("0") or "0"
    return most if len(digits) > len(str(most)) else min(int(digits), most)


def named(word, place):
    if word in USED_WORDS:
        return Token("WORD", word, place)
    return Token("LEFT_OUT" if word in LEFT_OUT else "NAME", word, place)


def matched(text, place):
    """The token that begins here, which is no end, and where it ends."""
    found = TOKEN.match(text, place)
    if not found:
        return Token("TEXT", text[place], place), place + 1
    constant, number, word, escaped, other = (part and part.decode() for part in found.groups())
    if constant:
        token = Token("CONST", constant[-1].lower(), place)
    elif number:
        token = Token("NUMBER", number_of(number.replace("_", ""), MAX_NUMBER), place)
    elif word:
        token = named(word, place)
    elif escaped:
        token = Token("ESCAPED", escaped, place)
    else:
        token = Token("UNENDED" if other == "\\" else "MARK" if other in MARKS else "OTHER", other, place)
    return token, found.end()


def tokens(text):
    """The tokens one by one, the last one again and again."""
    place = 0
    while True:
        place = behind_white(text, place)
        scale = timescale(text, place)
        if place == len(text):
            yield Token("END", "", place)
        elif text[place : place + 2] in UNENDED:
            yield Token("UNENDED", "", place)
            place += 2
        elif scale:
            yield Token("TIMESCALE", scale[1], place)
            place = scale[0]
        else:
            token, place = matched(text, place)
            yield token
