"""Circuits that tools/speed/generate has written, so many times side by side, with edits in the first copy alone."""
import os
import subprocess
import sys

HERE = os.path.dirname(os.path.abspath(__file__))


def generate(folder, gates, points, horizon, seed):
    """Writes a circuit into a folder."""
    words = [os.path.join(HERE, "generate"), folder, "--gates", str(gates), "--points", str(points), "--horizon", str(horizon), "--seed", str(seed)]
    if subprocess.run(words, check=False).returncode:
        sys.exit(f"{os.path.basename(sys.argv[0])}: no circuit was generated")


def inputs_of(gates):
    """How many inputs such a circuit has."""
    return max(4, gates // 16)


def two_input_gates(folder):
    """The numbers of the gates with two inputs."""
    with open(os.path.join(folder, "build"), encoding="ascii") as file:
        words = [line.split() for line in file]
    return [int(word[1][1:]) for word in words if word[0] == "gate" and len(word) == 8]


class Copies:
    """A circuit, so many times side by side. The inputs of a copy are inputs of the design, called `c0_a0`, and what is in it is
    called `c0.n0`; where there is one circuit alone, both are called as in its text."""

    def __init__(self, count, inputs):
        self.count, self.inputs = count, inputs

    def text(self, folder):
        """The path of the design's text."""
        circuit = os.path.join(folder, "circuit.v")
        if self.count == 1:
            return circuit
        ports = [self.input(copy, k) for copy in range(self.count) for k in range(self.inputs)]
        lines = [f"module copies({', '.join(ports)});", f"  input {', '.join(ports)};"]
        for copy in range(self.count):
            lines.append(f"  bench c{copy}({', '.join(f'.a{k}({self.input(copy, k)})' for k in range(self.inputs))});")
        path = os.path.join(folder, "copies.v")
        with open(circuit, encoding="ascii") as module, open(path, "w", encoding="ascii") as file:
            file.write(module.read() + "\n".join(lines) + "\nendmodule\n")
        return path

    def input(self, copy, number):
        return f"a{number}" if self.count == 1 else f"c{copy}_a{number}"

    def inner(self, name):
        """A net or gate of the first copy."""
        return name if self.count == 1 else f"c0.{name}"

    def stimulus(self, folder):
        """The commands that give each copy the same stimulus."""
        with open(os.path.join(folder, "stimulus"), encoding="ascii") as file:
            points = [line.split() for line in file]
        return [f"stim {self.input(copy, int(net[1:]))} {t} {value}" for copy in range(self.count) for _, net, t, value in points]


def local_edits(gates, copies, horizon, pairs, dice):
    """Edits of a kind in the first copy, each a function that makes another one each time."""
    later = dice.randrange

    def any_input():
        return copies.input(0, later(copies.inputs))

    def wiring(gate):
        return f"wire {copies.inner(f'g{gate}')} {copies.inner(f'n{gate}')} {copies.input(0, 1)} {copies.input(0, 2)}"

    edits = {
        "point": lambda n: f"stim {any_input()} {later(horizon)} {later(2)}",
        "early point": lambda n: f"stim {any_input()} {later(1, 20)} {later(2)}",
        "delay": lambda n: f"delay {copies.inner(f'g{later(gates)}')} {later(1, 11)} {later(1, 11)}",
        "gate's kind": lambda n: f"type {copies.inner(f'g{dice.choice(pairs)}')} {dice.choice(['and', 'nand', 'or', 'nor', 'xor'])}",
        "wiring": lambda n: wiring(dice.choice(pairs)),
        "new net": lambda n: f"net new{n} wire",
    }
    turns = [edits[kind] for kind in ("delay", "gate's kind", "wiring", "point")]
    return edits | {"delay, gate's kind, wiring and point in turn": lambda n: turns[n % len(turns)](n)}
