"""The groups of a Liberty text: their attributes and the groups within them."""
import re
from typing import Dict, Iterator, List, NamedTuple, Optional, Tuple

from .fault import Fault, ImportRefused

TOKEN = re.compile(r'\s+|\\\r?\n|/\*.*?\*/|//[^\n]*|("(?:[^"\\]|\\.)*"|[^\s"(){}:;,\\]+|[(){}:;,])', re.S)


class Group(NamedTuple):
    """A group: its kind, its names, its attributes with their words, the groups within it, and its line."""

    kind: str
    names: List[str]
    attributes: Dict[str, List[str]]
    groups: List["Group"]
    line: int

    def all(self, kind: str) -> List["Group"]:
        return [it for it in self.groups if it.kind == kind]

    def text(self, name: str, default: str = "") -> str:
        """The words of an attribute in one."""
        return " ".join(self.attributes[name]) if name in self.attributes else default

    def number(self, name: str) -> Optional[float]:
        try:
            return float(self.text(name))
        except ValueError:
            return None


Token = Tuple[str, int]


def tokens_of(text: str) -> Iterator[Token]:
    line, at = 1, 0
    while at < len(text):
        found = TOKEN.match(text, at)
        if found is None:
            at += 1
            continue
        if found[1]:
            word = found[1]
            yield (re.sub(r"\\\r?\n", " ", word[1:-1]) if word[0] == '"' else word, line)
        line += found[0].count("\n")
        at = found.end()


class Parser:
    """Reads groups. The grammar is `kind (names) { .. }`, `name (words);` and `name : words;`."""

    def __init__(self, path: str, text: str) -> None:
        self.path, self.tokens, self.at = path, list(tokens_of(text)), 0

    def peek(self, ahead: int = 0) -> str:
        place = self.at + ahead
        return self.tokens[place][0] if place < len(self.tokens) else ""

    def take(self) -> Token:
        if self.at >= len(self.tokens):
            raise self.refused("it ends within a group", "end each group by }")
        self.at += 1
        return self.tokens[self.at - 1]

    def refused(self, why: str, cure: str) -> ImportRefused:
        word, line = self.tokens[min(self.at, len(self.tokens) - 1)] if self.tokens else ("the file", 0)
        return ImportRefused([Fault(self.path, line, word, why, cure)])

    def group(self) -> Group:
        kind, line = self.take()
        names = self.list()
        if self.peek() != "{":
            raise self.refused("no group begins here", "give a Liberty file")
        self.take()
        made = Group(kind, names, {}, [], line)
        while self.peek() != "}":
            self.member(made)
        self.take()
        return made

    def list(self) -> List[str]:
        """The words between two parentheses."""
        if self.take()[0] != "(":
            self.at -= 1
            raise self.refused("a ( was expected", "give a Liberty file")
        found: List[str] = []
        while self.peek() != ")":
            word = self.take()[0]
            if word != ",":
                found.append(word)
        self.take()
        return found

    def member(self, of: Group) -> None:
        """An attribute or a group within a group."""
        if self.peek() == ";":
            self.take()
        elif self.peek(1) == ":":
            name, line = self.take()
            self.take()
            of.attributes[name] = self.value(line)
        elif self.peek(1) == "(":
            self.list_or_group(of)
        else:
            raise self.refused("a : or a ( was expected behind it", "give a Liberty file")

    def value(self, line: int) -> List[str]:
        """The words behind a colon: to a semicolon, or to the end of the line where there is none."""
        words: List[str] = []
        while self.peek() not in (";", "}", "") and self.tokens[self.at][1] == line:
            words.append(self.take()[0])
        return words

    def list_or_group(self, of: Group) -> None:
        start = self.at
        name, _ = self.take()
        words = self.list()
        if self.peek() == "{":
            self.at = start
            of.groups.append(self.group())
        else:
            of.attributes[name] = of.attributes.get(name, []) + words if name == "values" else words


def library_of(path: str, text: str) -> Group:
    """The group `library` of a file. ImportRefused where there is none."""
    parser = Parser(path, text)
    if parser.peek() != "library":
        raise parser.refused("it does not begin with `library`", "give a Liberty file (.lib), or a Verilog file (.v)")
    return parser.group()
