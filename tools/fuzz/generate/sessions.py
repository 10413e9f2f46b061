"""Sessions over a design: edits of every kind, batches, held snapshots and questions, and lines that are none."""
from reading.lines import EDITS, FAULT
from reading.session import Session

from .layout import BYTES
from .words import Words

# The last moment of the run of a design in which a gate's output comes back to its input.
LOOP_HORIZON = 150
ENDS = ["\r", " ", "\t", " \r", "  x", "\r\r"]
ODD_LINES = ["", " ", "\t", "#", "# quit", " # \x80\xff", "quit now", "begin 1", "commit x", "vcd 1", "at", "at s",
             "at s at s wave a", "at s quit", "hold", "hold a b", "free", "frob", "Wave a", "\r", "\rvcd", "wave", "stim a 0",
             "\xe9", "\x00", "wire g", "wire g0 a", "gate", "at s drop g0", "next a", "net a", "kind a", "\x7f", "#" * 4097,
             " " * 4097]  # fmt: skip


class TooLong(Exception):
    """The run of a design would take too long, here and in the program."""


def is_looped(design):
    """Whether a gate's output comes back to an input of its own."""
    left = {name: set() for name in design.nets}
    for gate in design.gates.values():
        for name in set(gate.inputs) & set(left):
            left[name].add(gate.output)
    while left:
        ends = [name for name, to in left.items() if not to & set(left)]
        if not ends:
            return True
        left = {name: to for name, to in left.items() if name not in ends}
    return False


def guard(design):
    """Refuses to go on with a design whose run would take too long."""
    if design.horizon > LOOP_HORIZON and is_looped(design):
        raise TooLong()


class Lines:
    """Makes lines for a session, which is told of each. `quits` are the lines that end it; `shares` say how many lines are edits,
    questions, lines about held snapshots, and lines about batches, each with those before it."""

    tools, quits, shares = False, [b"quit"], (0.58, 0.8, 0.9)

    def __init__(self, rng, design, horizon):
        self.rng, self.session = rng, Session(design, horizon, guard, self.tools)
        self.words = Words(rng, self.session, max(3, min(horizon, 60)))
        verbs = "net", "input", "dropnet", "kind", "gate", "drop", "delay", "type", "wire", "stim", "unstim", "horizon"
        self.verbs = {verb: getattr(self, verb) for verb in verbs}
        self.edits = [*self.verbs, "gate", "gate", "wire", *["stim"] * 9]

    # The words behind the verb of an edit.

    def net(self):
        return [self.words.new(), self.words.net_kind()]

    def input(self):
        return [self.words.new()]

    def dropnet(self):
        return [self.words.net()]

    def kind(self):
        return [self.words.net(), self.words.net_kind()]

    def gate(self):
        kind = self.words.gate_kind()
        return [self.words.new(), kind, *self.words.delays(kind), self.words.output(), *self.words.inputs(kind)]

    def drop(self):
        return [self.words.gate()]

    def delay(self):
        name = self.words.gate()
        return [name, *self.words.delays(self.kind_of(name))]

    def type(self):
        return [self.words.gate(), self.words.gate_kind()]

    def wire(self):
        name = self.words.gate()
        return [name, self.words.output(), *self.words.inputs(self.kind_of(name))]

    def kind_of(self, name):
        """The kind of a gate that is there, or any."""
        there = self.words.design().gates.get(name)
        return there.kind if there else "and"

    def stim(self):
        return [self.words.input(), self.words.time(), self.words.value()]

    def unstim(self):
        points = [(name, str(time)) for name, net in self.words.design().nets.items() for time in net.points]
        return self.rng.choice(points) if points and self.words.often(0.8) else [self.words.input(), self.words.time()]

    def horizon(self):
        return [self.words.horizon()]

    # Lines.

    def edit(self):
        verb = self.rng.choice(self.edits)
        return [verb, *self.verbs[verb]()]

    def question(self):
        verb = self.rng.choice([*self.session.questions, "wave", "wave", "wave"])
        if verb == "vcd":
            return [verb]
        if verb == "wave":
            return [verb, self.words.net()]
        return [verb, self.words.net(), self.words.time(), *([self.words.value()] if verb == "seek" else [])]

    def held(self):
        held = list(self.session.holds)
        if not held or self.words.often(0.2):
            return ["hold", self.words.of(["s", "old", "$", "u.s", *held])]
        return ["free" if self.words.often(0.15) else "at", self.words.of(held), *self.question()]

    def batch(self):
        verb = "begin" if self.session.batch is None else self.rng.choice(["commit", "commit", "commit", "abort"])
        return [verb if self.words.often(0.9) else self.rng.choice(["begin", "commit", "abort"])]

    def odd_line(self):
        return self.rng.choice(ODD_LINES)

    def said(self, words):
        """The words of a line as they stand in it."""
        return words

    def line(self):
        """A line without its end."""
        share = self.rng.random()
        if share < 0.03:
            return self.odd_line().encode("latin-1")
        edits, questions, held = self.shares
        made = self.edit if share < edits else self.question if share < questions else self.held if share < held else self.batch
        line = self.rng.choice([" "] * 12 + ["  ", "\t"]).join(self.said(made())).encode("latin-1")
        if self.words.often(0.02):
            line += self.rng.choice(ENDS).encode()
        return self.mangled(line) if self.words.often(0.03) else line

    def first(self):
        """The lines that it begins with."""
        return []

    def some(self):
        """One line, or several that belong together."""
        return [self.line()]

    def mangled(self, line):
        place = self.rng.randrange(len(line) + 1)
        if self.words.often(0.2):
            return line.ljust(self.rng.choice([4095, 4096, 4097])) + self.rng.choice([b"", b"\r"])
        byte = self.rng.choice([it for it in BYTES if it != 10])
        return self.rng.choice([line[:place] + line[place + 1 :], line[:place] + bytes([byte]) + line[place:], line[:place]])

    def told(self, line):
        """The line, or another one where the run would take too long; the session has gone on by it."""
        words = [it.decode("latin-1") for it in line.split()]
        verb = next(iter(words[1:] if self.tools and words[:1] == [FAULT] else words), "")
        if not verb or verb == "at" or verb in self.session.questions and verb not in EDITS:
            return line
        try:
            self.session.reply(line)
        except TooLong:
            return b"abort" if verb == "commit" else b"# too long"
        return line


def session(lines, count):
    """The commands of a session of about so many lines."""
    made = [lines.told(line) for line in lines.first()]
    made += [lines.told(line) for _ in range(count) for line in lines.some()]
    if lines.words.often(0.2):
        made.insert(lines.rng.randrange(len(made) + 1), lines.rng.choice(lines.quits))
    return b"\n".join(made) + lines.rng.choice([b"", b"\n", b"\n"])


def show_all(rng, design, horizon):
    """Commands that show all of a design that a text spells: points, dumps, and the name and kind of each gate."""
    made = ["vcd", "begin"]
    for name, net in design.nets.items():
        times = rng.sample(range(horizon + 1), min(3, horizon + 1)) if net.is_input else []
        made += [f"stim {name} {time} {rng.choice('0101xz')}" for time in times]
    made += ["commit", "vcd", *(f"type {name} {gate.kind}" for name, gate in design.gates.items())]
    return "\n".join([*made, ""]).encode()
