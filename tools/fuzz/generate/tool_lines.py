"""Lines of sessions of gatetool: its questions, mostly at moments at which something happens, and lines behind `fault`."""
from collections import Counter

from reading.tables import MAX_TIME

from .sessions import Lines
from .words import NEW_NAMES, UNREADABLE

HOLDS = ["s", "old", "$", "u.s"]
# How often each question is asked.
WEIGHTS = {"why": 9, "reach": 9, "diff": 5, "window": 6, "wave": 3}
ALONE = ("vcd", "nets", "inputs", "gates")
OF_A_NET = ("wave", "drivers", "readers")
ODD_LINES = ["fault", "fault fault", "fault fault vcd", "fault at", "fault at s", "fault at s fault", "fault at s fault vcd", "at s fault vcd",
             "fault quit x", "fault # x", "fault #", "fault \x80", "fault frob\x80", "fault frob \x80", "fault \x80 frob", "Fault vcd", " fault\tvcd ",
             "fault vcd fault", "fault net fault wire", "fault net n fault", "fault at fault vcd", "fault hold fault", "fault free fault",
             "why", "why a", "reach a", "reach a 0 0", "diff", "diff a b", "at s diff", "at s diff s old", "at s begin", "fault begin 1",
             "fault commit", "fault abort", "fault begin", "fault commit now", "fault gate g", "fault gate g and", "fault at s gate g and",
             "fault stim a x", "fault stim a -1 2", "fault vcd \x7f", "fault value a 0 \xff 1", "fault delay g 1/2", "fault at s frob \xff"]  # fmt: skip
# What may stand where another word belongs.
ODD_WORDS = ["fault", "at", "X", "1'b2", "1'b0", "1/2", "1/", "/2", "/", "1/2/3", "0/1", "#", "'", "00", "007", "0", "1000001", "a", "wire", "and", "x",
             "18446744073709551616", "1099511627777", "\x7f", "a\xff", "\x80", *UNREADABLE]  # fmt: skip


def joined(lines):
    return [" ".join(words).encode("latin-1") for words in lines]


class ToolLines(Lines):
    """Makes lines for a session of gatetool."""

    tools, quits, shares = True, [b"quit", b"fault quit"], (0.4, 0.75, 0.9)

    # Questions.

    def question(self):
        verbs = list(self.session.questions)
        verb = self.rng.choices(verbs, [WEIGHTS.get(it, 1) for it in verbs])[0]
        if verb in ALONE:
            return [verb]
        if verb in OF_A_NET:
            return [verb, self.words.net()]
        if verb in ("why", "reach"):
            return self.cause(verb)
        if verb == "window":
            return [verb, self.words.net(), *self.moments(), *self.words.parts()]
        if verb in ("points", "gate", "diff"):
            return [verb, {"points": self.words.input, "gate": self.words.gate, "diff": self.hold_name}[verb]()]
        return [verb, self.words.net(), self.words.time(), *([self.words.value()] if verb == "seek" else [])]

    def moments(self):
        """Two moments, mostly in order."""
        found = ["0" if self.words.often(0.4) else self.words.time(), self.words.time()]
        return found if self.words.often(0.2) else sorted(found, key=lambda it: (len(it), it))

    def hold_name(self):
        return self.words.of(list(self.session.holds) or HOLDS)

    def turns(self):
        """Each gate that turns in the present run, with the moment and that of the evaluation before."""
        return [(self.words.design().gates[name], *it) for name, of in self.session.snapshot.run().turns.items() for it in of.items()]

    def cause(self, verb):
        """What made a change, or what it led to: mostly of one that has a cause, or close by; often where several gates turn."""
        turns = self.turns()
        if not turns or self.words.often(0.25):
            return [verb, self.words.net(), self.words.time()]
        if self.words.often(0.4):
            count = Counter((gate.output, time) for gate, time, _ in turns)
            turns = [it for it in turns if count[it[0].output, it[1]] > 1] or turns
        gate, time, since = self.rng.choice(turns)
        read = [it for it in gate.inputs if "'" not in it]
        net, moment = (gate.output, time) if verb == "why" or not read else (self.rng.choice(read), since)
        return [verb, net, str(max(0, moment + self.rng.choice([0] * 8 + [-1, 1])))]

    # Several lines that belong together.

    def some(self):
        """One line, or several lines."""
        if self.words.often(0.92):
            return [self.line()]
        scenes = (self.again, self.horizons, self.in_step, self.pulses, self.refused_within, self.cut_off, self.moments_on_end)
        return joined(self.rng.choice(scenes)())

    def first(self):
        return joined(self.stimulus()) if self.words.often(0.8) else []

    def stimulus(self):
        """Points of the inputs, several of them at the same moments."""
        moments = [0, *(self.rng.randrange(self.words.span) for _ in range(self.rng.choice([2, 4, 6])))]
        inputs = [name for name, net in self.words.design().nets.items() if net.is_input]
        points = [["stim", name, str(time), self.rng.choice("00011101xz")] for name in inputs for time in moments if self.words.often(0.7)]
        return [["begin"], *points, ["commit"]]

    def answers(self):
        """Questions about what the lines before them did."""
        return [self.named(self.question()) for _ in range(self.rng.choice([1, 2, 4]))]

    def batched(self, edits):
        """Edits one by one, or as one commit."""
        return [["begin"], *edits, self.named(["commit"])] if self.words.often(0.4) else edits

    def held_before(self, lines):
        """The version before these lines is held, and asked what differs, in both ways."""
        name = self.rng.choice(HOLDS)
        asked = [["diff", name], ["hold", "k1"], ["at", name, "diff", "k1"], ["at", "k1", "diff", name], ["free", "k1"]]
        return [["free", name], ["hold", name], *lines, *(self.named(it) for it in asked)]

    def again(self):
        """A net is dropped and added again under its name."""
        name = self.rng.choice([*self.words.design().nets, *NEW_NAMES])
        new = self.rng.choice([["input", name], ["net", name, self.words.net_kind()]])
        first = [self.rng.choice([["input", name], ["net", name, "wire"]]), ["stim", name, self.words.time(), self.words.value()]]
        return [*first, *self.held_before(self.batched([["dropnet", name], new])), ["stim", name, self.words.time(), self.words.value()]]

    def horizons(self):
        return self.held_before([["horizon", self.words.horizon()], self.edit(), self.edit(), ["horizon", self.words.horizon()]])

    def in_step(self):
        """Another gate drives the net of one that is there, at the same moments."""
        if not self.words.design().gates:
            return [self.edit()]
        name, gate = self.rng.choice(list(self.words.design().gates.items()))
        rise, *falls = map(str, gate.delays)
        kinds = [gate.kind, gate.kind, {"and": "nand", "buf": "not", "or": "nor", "bufif1": "notif1", "xor": "xnor"}.get(gate.kind, gate.kind)]
        new = [["gate", self.words.new(), self.rng.choice(kinds), rise, "/".join(falls), gate.output, *gate.inputs]]
        return self.held_before(new + ([["kind", gate.output, self.words.net_kind()]] if self.words.often(0.3) else [])) + self.answers()

    def pulses(self):
        """Points of an input so close that pulses are swallowed."""
        name, time, made = self.words.input(), self.rng.randrange(self.words.span), []
        for _ in range(self.rng.choice([2, 3, 5])):
            made.append(["stim", name, str(time), self.words.value()])
            time += self.rng.choice([1, 1, 2, 3])
        return self.batched(made) + self.answers()

    def refused_within(self):
        """A batch with an edit that is refused in its middle, for the most part."""
        made = [self.named(self.slipped(self.edit()) if self.words.often(0.2) else self.edit()) for _ in range(self.rng.choice([1, 2, 4]))]
        wrong = [["stim", "nosuch", "0", "1"], ["unstim", self.words.input(), str(MAX_TIME)], ["delay", self.words.gate(), "0", "1000001"],
                 ["type", self.words.gate(), self.words.gate_kind()], ["net", self.words.net(), "wire"], ["horizon", str(MAX_TIME + 1)],
                 ["wire", self.words.gate(), self.words.input(), self.words.net()], ["dropnet", self.words.net()]]  # fmt: skip
        made.insert(self.rng.randrange(len(made) + 1), self.named(self.rng.choice(wrong)))
        return [["begin"], *made, ["fault", "commit"] if self.words.often(0.8) else ["commit"], ["diff", self.hold_name()]]

    def cut_off(self):
        """The horizon is set close to a moment at which a gate turns."""
        turns = self.turns()
        if not turns:
            return [self.edit()]
        gate, time, since = self.rng.choice(turns)
        asked = [["why", gate.output, str(time)], *(["reach", it, str(since)] for it in gate.inputs if "'" not in it)]
        return self.held_before([["horizon", str(time + self.rng.choice([-1, 0, 1]))], *(self.named(it) for it in asked)])

    def moments_on_end(self):
        """What made a net's changes and what they led to, at one moment after the other."""
        name, begin = self.words.net(), self.rng.randrange(self.words.span)
        return [[verb, name, str(begin + it)] for it in range(12) for verb in ("why", "reach")]

    # Lines behind `fault`.

    def named(self, words):
        """The line, or the same with its word at fault."""
        return ["fault", *words] if self.words.often(0.4) else words

    def slipped(self, words):
        """The line with a word missing, too many or another one."""
        place, odd = self.rng.randrange(len(words) + 1), self.rng.choice(ODD_WORDS)
        return self.rng.choice([words[:place], [*words, odd], [*words[:place], odd, *words[place:]], [*words[:place], odd, *words[place + 1 :]]])

    def said(self, words):
        if self.words.often(0.05):
            return ["fault", *self.slipped(words)]
        return self.named(words)

    def odd_line(self):
        return self.rng.choice(ODD_LINES) if self.words.often(0.6) else super().odd_line()
