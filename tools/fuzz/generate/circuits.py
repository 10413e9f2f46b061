"""Texts of circuits in which much happens: gates read inputs and one another, and some drive the same net."""
from reading.tables import NETS, TURN_OFF

from .modules import GATES

INPUTS = ["a", "b", "c", "d"]
KINDS = ["wire"] * 12 + list(NETS)


class Maker:
    """Makes the items of one module. Names of nets and inputs grow as gates drive new ones."""

    def __init__(self, rng, delay):
        self.rng, self.delay = rng, delay
        self.inputs = INPUTS[: rng.choice([1, 2, 2, 3, 4])]
        self.driven = []

    def delays(self, kind):
        rise, fall, off = (self.rng.choice("111223457") for _ in "rfz")
        if self.delay and self.rng.random() < 0.2:
            return ""
        if kind in TURN_OFF and self.rng.random() < 0.5:
            return f" #({rise}, {fall}, {off})"
        return f" #({rise}, {fall})" if self.rng.random() < 0.6 else f" #{rise}"

    def output(self):
        if self.driven and self.rng.random() < 0.3:
            return self.rng.choice(self.driven)
        self.driven.append(f"n{len(self.driven)}")
        return self.driven[-1]

    def read(self, later):
        """A net that a gate reads; rarely one that is not driven before, or a constant."""
        chance = self.rng.random()
        if chance < 0.05:
            return self.rng.choice(["1'b0", "1'b1", "1'bx", "1'bz"])
        if chance < 0.12:
            return self.rng.choice(later)
        return self.rng.choice(self.inputs + self.driven[-3:] if chance < 0.8 else self.inputs)

    def gate(self, number, later):
        kind = self.rng.choice([*GATES, "and", "or", "buf", "not", "xor"])
        inputs = [self.read(later) for _ in range(self.rng.randint(1, 3) if GATES[kind] == 3 else GATES[kind])]
        return f"  {kind}{self.delays(kind)} g{number}({', '.join([self.output(), *inputs])});"


def text(rng, delay):
    """A circuit of up to a dozen gates."""
    maker, count = Maker(rng, delay), rng.choice([1, 2, 3, 4, 6, 9, 12])
    later = [f"n{number}" for number in range(count)]
    gates = [maker.gate(number, later) for number in range(count)]
    nets = [f"  {kind} {name};" for name in later if (kind := rng.choice(KINDS)) != "wire" or rng.random() < 0.1]
    return "\n".join([f"module m({', '.join(f'input {it}' for it in maker.inputs)});", *nets, *gates, "endmodule", ""]).encode()
