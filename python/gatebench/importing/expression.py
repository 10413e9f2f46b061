"""The functions of Liberty cells: `!` and `'` invert, then `^`, then `*` `&` and nothing, then `+` `|`."""
import re
from typing import List, Tuple, Union

# A pin or a constant by its name, or an operation over expressions.
Expression = Union[str, Tuple[str, Tuple["Expression", ...]]]

TOKEN = re.compile(r"\s*([A-Za-z_][\w\[\].]*|\\\S+|[01]\b|[01]|[!'^*&+|()])")
CONSTANTS = {"0": "0", "1": "1"}


class BadFunction(ValueError):
    """A text is no function."""


class Reader:
    def __init__(self, text: str) -> None:
        self.text, self.tokens, self.at = text, tokens_of(text), 0

    def peek(self) -> str:
        return self.tokens[self.at] if self.at < len(self.tokens) else ""

    def all(self) -> Expression:
        found = self.either()
        if self.peek():
            raise BadFunction(self.text)
        return found

    def either(self) -> Expression:
        parts = [self.both()]
        while self.peek() in ("+", "|"):
            self.at += 1
            parts.append(self.both())
        return joined("or", parts)

    def both(self) -> Expression:
        parts = [self.differ()]
        while self.peek() in ("*", "&") or self.begins_term():
            self.at += self.peek() in ("*", "&")
            parts.append(self.differ())
        return joined("and", parts)

    def begins_term(self) -> bool:
        return bool(self.peek()) and self.peek() not in ("+", "|", ")", "^", "'", "*", "&")

    def differ(self) -> Expression:
        parts = [self.term()]
        while self.peek() == "^":
            self.at += 1
            parts.append(self.term())
        return joined("xor", parts)

    def term(self) -> Expression:
        word = self.peek()
        self.at += 1
        if word == "!":
            return inverted(self.term())
        if word == "(":
            found = self.either()
            if self.peek() != ")":
                raise BadFunction(self.text)
            self.at += 1
        elif re.match(r"[\w\\]", word):
            found = word
        else:
            raise BadFunction(self.text)
        while self.peek() == "'":
            self.at += 1
            found = inverted(found)
        return found


def tokens_of(text: str) -> List[str]:
    found, at = [], 0
    text = text.rstrip()
    while at < len(text):
        token = TOKEN.match(text, at)
        if token is None:
            raise BadFunction(text)
        found.append(token[1])
        at = token.end()
    return found


def joined(operation: str, parts: List[Expression]) -> Expression:
    """An operation over parts, those of parts that are the same operation being its own."""
    if len(parts) == 1:
        return parts[0]
    flat: List[Expression] = []
    for part in parts:
        flat += part[1] if isinstance(part, tuple) and part[0] == operation else (part,)
    return (operation, tuple(flat))


def inverted(of: Expression) -> Expression:
    if isinstance(of, tuple) and of[0] == "not":
        return of[1][0]
    if isinstance(of, str) and of in ("0", "1"):
        return "1" if of == "0" else "0"
    return ("not", (of,))


def expression_of(text: str) -> Expression:
    """Reads a function. BadFunction where it is none."""
    return Reader(text).all()


def pins_of(of: Expression) -> List[str]:
    """The names in an expression, in order."""
    if isinstance(of, str):
        return [] if of in CONSTANTS else [of]
    return [pin for part in of[1] for pin in pins_of(part)]
