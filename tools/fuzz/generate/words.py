"""Words of commands over a design: mostly ones that fit it."""
from reading.tables import GATES, MAX_DELAY, MAX_PARTS, MAX_TIME, MAX_WORD, NETS, TURN_OFF

CONSTANTS = ["1'b0", "1'b1", "1'bx", "1'bz"]
NEW_NAMES = ["a", "b", "p", "q", "r", "u.t", "u.s", "u.v.t", "w[0]", "w[1]", "g0", "g1", "h", "k1"]
ODD_NAMES = [".", "a..b", "$end", "u.$end", "a'b", "x'", "\\a", "#", "z" * 1024, "z" * 1025, "none", "1'b0", "1'bX", "$end.x"]
# Numbers near the limits of times and delays.
LIMITS = [str(it + off) for it in (MAX_DELAY, MAX_TIME, MAX_WORD) for off in (-1, 0, 1)]
EDGES = [*LIMITS, "0", "00", "4294967296", "99999999999999999999999", "0000000000000000000000000000005"]
PARTS = ["1", "1", "2", "3", "4", "7", "10", "64", "0010", "1000", str(MAX_PARTS), str(MAX_PARTS + 1), "0", str(MAX_WORD + 2)]
UNREADABLE = ["-1", "+1", "1.5", "x", "1_0", "0x1"]
HORIZONS = ["5", "20", "40", "60", "1000", "100000", str(MAX_TIME)]


class Words:
    """Picks words for the design that `session` has, in runs of about so many moments."""

    def __init__(self, rng, session, span):
        self.rng, self.session, self.span = rng, session, span

    def design(self):
        return self.session.snapshot.design

    def pick(self, choices):
        return self.rng.choice(choices)

    def often(self, share):
        return self.rng.random() < share

    def of(self, there):
        """One of these names, mostly."""
        if there and self.often(0.97):
            return self.pick(list(there))
        return self.pick(NEW_NAMES) if self.often(0.8) else self.pick(ODD_NAMES)

    def net(self):
        return self.of(self.design().nets)

    def gate(self):
        return self.of(self.design().gates)

    def input(self):
        return self.of([name for name, net in self.design().nets.items() if net.is_input])

    def output(self):
        driven = [name for name, net in self.design().nets.items() if not net.is_input]
        return self.of(driven) if self.often(0.96) else self.net()

    def new(self):
        return self.of(NEW_NAMES)

    def time(self):
        if self.often(0.04):
            return self.pick(EDGES)
        points = [time for net in self.design().nets.values() for time in net.points]
        if points and self.often(0.4):
            return str(self.pick(points) + self.rng.randrange(5))
        return str(self.rng.randint(0, self.span + 2)) if self.often(0.98) else self.pick(UNREADABLE)

    def parts(self):
        """How many parts of a window, if it is cut at all."""
        if self.often(0.3):
            return []
        return [self.pick(PARTS) if self.often(0.98) else self.pick(UNREADABLE)]

    def horizon(self):
        return self.time() if self.often(0.6) else self.pick(HORIZONS)

    def delays(self, kind):
        """Delays of a gate of this kind."""
        rise, fall, off = (self.pick("1112234589") if self.often(0.95) else self.pick(EDGES + UNREADABLE) for _ in "rfz")
        if self.often(0.5 if kind in TURN_OFF else 0.06):
            fall = f"{fall}/{off}" if self.often(0.97) else self.pick([f"{fall}/", f"/{off}", "1/2/3"])
        return [rise, fall]

    def value(self):
        return self.pick("01xz") if self.often(0.98) else self.pick(["X", "1'b0", "2", "Z"])

    def gate_kind(self):
        return self.pick(list(GATES)) if self.often(0.97) else self.pick(["wire", "AND", "nmos", "trireg"])

    def net_kind(self):
        return self.pick(list(NETS)) if self.often(0.97) else self.pick(["and", "reg", "supply0", "Wire"])

    def inputs(self, kind):
        """Inputs of a gate of this kind."""
        least, most, _ = GATES.get(kind, (1, 3, None))
        count = self.rng.randint(least, min(most, 4))
        if self.often(0.04):
            count = self.pick([0, 1, 2, 3, 64, 65])
        return [self.pick(CONSTANTS) if self.often(0.1) else self.net() for _ in range(count)]
