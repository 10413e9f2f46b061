"""Circuits that the scripts time: random logic, array multipliers, rings, latches and synthesized sequential circuits, with
their stimulus, as design texts and as benches for Icarus Verilog. A source of chance with one seed gives one circuit."""


class Circuit:
    """Inputs, nets and gates with delays of 1 to 10, and stimulus by moment."""

    def __init__(self, dice):
        self.dice, self.inputs, self.nets, self.gates, self.points = dice, [], [], [], []

    def input(self, name):
        self.inputs.append(name)
        return name

    def gate(self, kind, *reads, delays=None):
        """Adds a gate behind a net of its own, which it gives. Without delays it gets random ones."""
        net = f"n{len(self.nets)}"
        self.nets.append(net)
        rise, fall = delays or (self.dice.randint(1, 10), self.dice.randint(1, 10))
        self.gates.append((kind, rise, fall, net, reads))
        return net

    def text(self):
        lines = [f"module m({','.join(self.inputs)});", f"input {','.join(self.inputs)};"]
        lines += [f"wire {','.join(self.nets[k:k + 50])};" for k in range(0, len(self.nets), 50)]
        for k, (kind, rise, fall, net, reads) in enumerate(self.gates):
            lines.append(f"{kind} #({rise},{fall}) g{k}({net},{','.join(reads)});")
        return "\n".join(lines) + "\nendmodule\n"

    def drive(self, times, gap, names=None):
        """New random values for all inputs, or for these, so many times."""
        for k in range(times):
            for name in self.inputs if names is None else names:
                self.points.append((name, k * gap, self.dice.randint(0, 1)))


def random_logic(dice, gates):
    circuit = Circuit(dice)
    nets = [circuit.input(f"a{k}") for k in range(gates // 16)]
    kinds = ["and", "nand", "or", "nor", "xor", "xnor", "not"]
    for _ in range(gates):
        kind = dice.choice(kinds)
        count = 1 if kind == "not" else dice.randint(2, 4)
        reads = [dice.choice(nets[-64:]) if dice.random() < 0.5 else dice.choice(nets) for _ in range(count)]
        nets.append(circuit.gate(kind, *reads))
    return circuit


def multiplier(dice, gates):
    size = max(2, round((gates / 6) ** 0.5))
    circuit = Circuit(dice)
    a = [circuit.input(f"a{k}") for k in range(size)]
    b = [circuit.input(f"b{k}") for k in range(size)]
    row = [circuit.gate("and", x, b[0]) for x in a]
    for y in b[1:]:
        partial, carry, below = [circuit.gate("and", x, y) for x in a], None, []
        for x, z in zip(partial, row[1:] + [None]):
            words = [word for word in (x, z, carry) if word]
            if len(words) == 1:
                below.append(words[0])
                carry = None
            elif len(words) == 2:
                below.append(circuit.gate("xor", *words))
                carry = circuit.gate("and", *words)
            else:
                half = circuit.gate("xor", x, z)
                below.append(circuit.gate("xor", half, carry))
                carry = circuit.gate("or", circuit.gate("and", x, z), circuit.gate("and", half, carry))
        row = below + ([carry] if carry else [])
    return circuit


def rings(dice, gates):
    circuit = Circuit(dice)
    start = circuit.input("en")
    for _ in range(gates // 11):
        first = f"n{len(circuit.nets)}"
        last = f"n{len(circuit.nets) + 10}"
        circuit.gate("nand", start, last)
        for k in range(10):
            circuit.gate("not", f"n{len(circuit.nets) - 1}")
        assert circuit.nets[-11] == first
    return circuit


def latches(dice, gates):
    """Ranks of transparent latches of four nands, each behind the xor of two nets of the rank before. The enables of the ranks
    are open in turns."""
    circuit, phases, width = Circuit(dice), 4, max(4, round((gates / 20) ** 0.5))
    enables = [circuit.input(f"e{k}") for k in range(phases)]
    below = [circuit.input(f"d{k}") for k in range(width)]
    rank = 0
    while len(circuit.gates) + 5 * width <= gates:
        enable, here = enables[rank % phases], []
        for _ in range(width):
            data = circuit.gate("xor", dice.choice(below), dice.choice(below))
            set_ = circuit.gate("nand", data, enable)
            clear = circuit.gate("nand", set_, enable)
            held = f"n{len(circuit.nets)}"
            circuit.gate("nand", set_, f"n{len(circuit.nets) + 1}")
            circuit.gate("nand", clear, held)
            here.append(held)
        below, rank = here, rank + 1
    return circuit


def drive_latches(circuit, times, gap):
    """New data each time, and behind that the ranks open one after the other."""
    enables = [name for name in circuit.inputs if name[0] == "e"]
    circuit.drive(times, gap, [name for name in circuit.inputs if name[0] == "d"])
    step = gap // (len(enables) + 1)
    for k in range(times):
        for place, name in enumerate(enables):
            opened = k * gap + (place + 1) * step
            circuit.points += ([(name, 0, 0)] if k == 0 else []) + [(name, opened, 1), (name, opened + step // 2, 0)]


# The cells of docs/examples/cells.v as they are drawn: those of one gate, with its delays, and how many inputs it has.
CELLS = [("nand", 2, (2, 2))] * 7 + [("nor", 2, (3, 2))] * 5 + [("xor", 2, (4, 4))] * 5 + [("not", 1, (1, 1))] * 2 + [("buf", 1, (2, 2))]
LEVELS = 14


def register(circuit, data, clock, reset):
    """A flip-flop of six nands (DFFR of docs/examples/cells.v): it takes its data at the rise of the clock."""
    t, s, r, n, q, qn = (f"n{len(circuit.nets) + k}" for k in range(6))
    for reads in ((s, n), (t, clock, reset), (s, clock, n), (r, data, reset), (s, qn), (r, q, reset)):
        circuit.gate("nand", *reads, delays=(2, 2))
    return q


def synthesized(dice, gates):
    """One big loop: registers, and levels of cells over them and the inputs, whose last level the registers take at the clock.
    A tenth of the gates' number of cells is registers, as synthesis of a controller makes them, in the middle of the design."""
    circuit = Circuit(dice)
    clock, reset = circuit.input("clk"), circuit.input("rst")
    inputs = [circuit.input(f"a{k}") for k in range(max(4, gates // 200))]
    registers = max(2, gates // 25)
    width = max(4, (gates - 6 * registers) // LEVELS)
    # The registers stand behind half of the levels: what they read and give is named before it is there.
    before = LEVELS // 2 * width
    held = [f"n{before + 6 * k + 4}" for k in range(registers)]
    known, level = held + inputs, held + inputs
    for number in range(LEVELS):
        if number == LEVELS // 2:
            last = len(circuit.nets) + 6 * registers + (LEVELS - LEVELS // 2 - 1) * width
            for k in range(registers):
                q = register(circuit, f"n{last + dice.randrange(width)}", clock, reset)
                assert q == held[k]
        here = []
        for _ in range(width):
            kind, count, delays = dice.choice(CELLS)
            reads = [dice.choice(level) if dice.random() < 0.8 else dice.choice(known) for _ in range(count)]
            here.append(circuit.gate(kind, *reads, delays=delays))
        known, level = known + here, here
    return circuit


def drive_synthesized(circuit, times, gap):
    """So many clocks, the first two of them under reset, and new data between the clocks."""
    circuit.points += [("rst", 0, 0), ("rst", 2 * gap + gap // 4, 1)]
    for k in range(times):
        circuit.points += [("clk", k * gap, 0), ("clk", k * gap + gap // 2, 1)]
    circuit.drive(times, gap, [name for name in circuit.inputs if name[0] == "a"])


def bench_of(circuit, horizon):
    lines = ["module top;", f"reg {','.join(circuit.inputs)};", f"m m0({','.join(circuit.inputs)});", "initial begin"]
    now = 0
    for name, t, value in sorted(circuit.points, key=lambda point: point[1]):
        if t > now:
            lines.append(f"#{t - now};")
            now = t
        lines.append(f"{name} = {value};")
    lines += ["end", f"initial begin #{horizon + 1}; $finish; end" if horizon else "initial begin #1; $finish; end", "endmodule"]
    return "\n".join(lines) + "\n"
