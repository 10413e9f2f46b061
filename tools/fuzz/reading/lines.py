"""The words of lines: of each command how its words are read, one by one from the left."""
from . import edits, questions
from .edits import check
from .tables import CONSTANTS, GATES, MAX_PARTS, MAX_WORD, NETS, VALUES
from .tokens import number_of

# Forms: each reads a word or refuses it.


def readable(holds, word=None):
    """Refuses a line that can't be read, with the first word with which no line goes on as the words before it began."""
    check(holds, "BadCommand", word)
    return word


def name(word):
    return word


def number(word):
    readable(word.isdigit(), word)
    return number_of(word, MAX_WORD)


def part_count(word):
    readable(1 <= number(word) <= MAX_PARTS, word)
    return number(word)


def one_of(words):
    return lambda word: readable(word in words, word)


def terminal(word):
    return readable("'" not in word or word in CONSTANTS, word)


def falls(word):
    """A fall delay, and a turn-off delay behind a mark."""
    fall, mark, off = word.partition("/")
    parts = [fall, *([off] if mark else [])]
    readable(all(it.isdigit() for it in parts), word)
    return [number(it) for it in parts]


net_kind, gate_kind, of_value, no_word = one_of(NETS), one_of(GATES), one_of(tuple(VALUES)), one_of(())

# Of each edit and question the forms of its words. What stands in square brackets reads all others, and what stands in round
# ones one more, if there is one.
EDITS = {
    "net": (edits.net, name, net_kind),
    "input": (edits.input, name),
    "dropnet": (edits.dropnet, name),
    "kind": (edits.kind, name, net_kind),
    "gate": (edits.gate, name, gate_kind, number, falls, name, [terminal]),
    "drop": (edits.drop, name),
    "delay": (edits.delay, name, number, falls),
    "type": (edits.type, name, gate_kind),
    "wire": (edits.wire, name, name, [terminal]),
    "stim": (edits.stim, name, number, of_value),
    "unstim": (edits.unstim, name, number),
    "horizon": (edits.horizon, number),
}
QUESTIONS = {
    "value": (questions.value, name, number),
    "wave": (questions.wave, name),
    "next": (questions.next, name, number),
    "prev": (questions.prev, name, number),
    "seek": (questions.seek, name, number, of_value),
    "vcd": (questions.vcd,),
}
TOOL_QUESTIONS = {
    "nets": (questions.nets,),
    "inputs": (questions.inputs,),
    "gates": (questions.gates,),
    "gate": (questions.gate, name),
    "drivers": (questions.drivers, name),
    "readers": (questions.readers, name),
    "points": (questions.points, name),
    "window": (questions.window, name, number, number, (part_count,)),
    "why": (questions.why, name, number),
    "reach": (questions.reach, name, number),
}
# The word of a line whose refusals name the word at fault.
FAULT = "fault"


def is_plain(word):
    """Whether none of its bytes stands outside those of words."""
    return all(33 <= ord(it) <= 126 for it in word)


class Line:
    """The words of a line that are not read yet."""

    def __init__(self, words):
        self.left = words

    def read(self, form):
        """What the next word says."""
        readable(self.left)
        word = self.left.pop(0)
        readable(is_plain(word))
        return form(word)

    def read_all(self, forms):
        """What all of the words say."""
        said = []
        for form in forms:
            if isinstance(form, list):
                said.append(tuple(self.read(form[0]) for _ in range(len(self.left))))
            elif isinstance(form, tuple):
                said += [self.read(form[0])] if self.left else []
            else:
                said.append(self.read(form))
        if self.left:
            self.read(no_word)
        return said


def verb_of(words):
    """Reads the first word of a command, which is one of these. None is at fault where a line that names the word at fault stands
    in another one."""

    def form(word):
        readable(word in words, None if word == FAULT else word)
        return word

    return form
