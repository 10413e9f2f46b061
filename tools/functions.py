"""Finds the functions of a source file, so that a change can be laid at the door of one of them."""
import re

NOISE = re.compile(r"""//[^\n]*|/\*.*?\*/|b?"(?:\\.|[^"\\])*"|(?<![A-Za-z0-9_'])b?'(?:\\.|[^'\\\n])'""", re.S)
HEAD = re.compile(r"\bfn\s+([A-Za-z_][A-Za-z0-9_]*)")
CLAUSE = re.compile(r"\b(?:requires|ensures|ghost)\b")
CYCLE = re.compile(r"#\[cycle\b")
ITEM_END = re.compile(r"[;}]\s")
IMPL = re.compile(r"^[ \t]*(?:unsafe\s+)?impl\b([^{]*)\{", re.M)


def blanked(text):
    """The text with its comments, strings and characters made blank, each place kept."""
    return NOISE.sub(lambda it: re.sub(r"[^\n]", " ", it[0]), text)


def closing(text, at):
    """The place of the brace that closes the one at this place."""
    depth = 0
    for place in range(at, len(text)):
        depth += {"{": 1, "}": -1}.get(text[place], 0)
        if depth == 0:
            return place
    return len(text)


class Function:
    """A function with a body: the type that it is written for, if there is one, and its name; where the body stands, and
    whether what it does can be judged apart from others."""

    def __init__(self, of, name, begin, end, is_apart):
        self.path = (of, name) if of else (name,)
        self.begin, self.end, self.is_apart = begin, end, is_apart


def body_of(text, at):
    """Where the body of the function stands whose head ends here, or None where it has none. Its clauses come before it."""
    while True:
        brace, end = text.find("{", at), text.find(";", at)
        if brace < 0 or 0 <= end < brace and not CLAUSE.search(text[at:end]):
            return None
        close = closing(text, brace)
        if not CLAUSE.search(text[at:brace]):
            return brace, close
        at = close + 1


def without_generics(text):
    """A text without what stands in angle brackets."""
    before = None
    while text != before:
        before, text = text, re.sub(r"<[^<>]*>", "", text.replace("->", "  "))
    return text


def impls(text):
    """Where each block of methods stands, and what the prover calls the type that they are for: of a trait's methods, the
    type's name and the trait's behind it."""
    found = []
    for head in IMPL.finditer(text):
        words = re.sub(r"\bwhere\b.*", "", without_generics(head[1]), flags=re.S)
        of_trait, _, of_type = words.rpartition(" for ")
        last = [re.findall(r"[A-Za-z_][A-Za-z0-9_]*", it)[-1:] for it in (of_type, of_trait)]
        found.append((head.end() - 1, closing(text, head.end() - 1), "".join(it for part in last for it in part)))
    return found


def functions(source):
    """The functions of a source text that have a body."""
    text, found = blanked(source), []
    blocks = impls(text)
    for head in HEAD.finditer(text):
        body = body_of(text, head.end())
        if body:
            before = text[: head.start()]
            item = max((it.end() for it in ITEM_END.finditer(before)), default=0)
            lead = text[item : head.start()]
            # Functions of a cycle of calls share one proof, and what a const function gives may stand in a type.
            is_apart = not CYCLE.search(lead) and not re.search(r"\bconst\s", lead)
            of = next((name for begin, end, name in reversed(blocks) if begin < head.start() < end), None)
            found.append(Function(of, head[1], *body, is_apart))
    return found


def enclosing(found, begin, end):
    """The innermost function whose body holds this span, or None."""
    around = [it for it in found if it.begin < begin and end <= it.end]
    return max(around, key=lambda it: it.begin, default=None)
