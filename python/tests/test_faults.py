"""Stuck-at faults, beside a calculation of its own: each gate by its table, without delays."""
import os
import sys
import unittest
from typing import Callable, Dict, List, Optional, Tuple

from gatebench import Netlist, Session, netlist_of
from gatebench.campaigns import WhatIf, bench_of, faults_of, run_all
from gatebench.campaigns.judge import Verdict, Waves

from .support import EXAMPLES

sys.path.insert(0, os.path.join(EXAMPLES, "faults"))
import faults as example  # noqa: E402

TABLES: Dict[str, Callable[[List[int]], int]] = {
    "nand": lambda bits: 1 - min(bits),
    "and": min,
    "or": max,
    "xor": lambda bits: sum(bits) % 2,
}

# A line that is stuck: a net, or a net where a gate reads it.
Line = Tuple[str, Optional[str]]


def outputs(netlist: Netlist, vector: str, line: Optional[Line] = None, stuck: int = 0) -> List[int]:
    """The outputs for a vector of inputs, with a line stuck at a value."""
    nets: Dict[str, int] = {}

    def settle(net: str, value: int) -> None:
        nets[net] = stuck if line == (net, None) else value

    for net, bit in zip(netlist.inputs, vector):
        settle(net, int(bit))
    left = list(netlist.gates)
    while left:
        for gate in [it for it in left if all(net in nets for net in it.inputs)]:
            settle(gate.output, TABLES[gate.kind]([stuck if line == (net, gate.name) else nets[net] for net in gate.inputs]))
            left.remove(gate)
    return [nets[net] for net in netlist.outputs]


def detected(test: example.Test, faults: List[WhatIf]) -> List[str]:
    """The faults that change an output for some vector."""
    found, netlist = [], test.netlist()
    for fault in faults:
        where, _, value = fault.name.partition(" stuck at ")
        net, _, gate = where.partition(" at ")
        if any(outputs(netlist, it) != outputs(netlist, it, (net, gate or None), int(value)) for it in test.vectors):
            found.append(fault.name)
    return found


def seen(faults: List[WhatIf], verdicts: List[Verdict], status: str = "detected") -> List[str]:
    return [fault.name for fault, verdict in zip(faults, verdicts) if verdict.status == status]


def show(good: Waves, faulty: Waves) -> Verdict:
    """Says the waves themselves, and judges nothing."""
    return Verdict("", note=repr(faulty))


class Lists(unittest.TestCase):
    def test_the_lines_of_c17(self) -> None:
        # 5 inputs, 6 gates, and 2 branches each of N3, N11 and N16: 17 lines.
        lines = [it.name.partition(" stuck")[0] for it in example.C17.faults()]
        self.assertEqual((len(lines), len(set(lines))), (34, 17))
        self.assertEqual({it for it in lines if " at " in it}, {
            "N3 at NAND2_1", "N3 at NAND2_2", "N11 at NAND2_3", "N11 at NAND2_4", "N16 at NAND2_5", "N16 at NAND2_6",
        })  # fmt: skip

    def test_pins_that_share_nets(self) -> None:
        # n has two drivers, y is read from outside and by h, and h reads a twice.
        netlist = netlist_of(
            "module m(input a, b, output y); bufif1 #1 f(n, a, b), g(n, b, a); buf #1 k(y, n); nand #1 h(z, y, a, a); endmodule"
        )
        lines = [it.name.partition(" stuck")[0] for it in faults_of(netlist, netlist.outputs)][::2]
        self.assertEqual(lines, [
            "a", "b", "n from f", "n from g", "y", "z",
            "a at f", "a at g", "a at input 2 of h", "a at input 3 of h", "b at f", "b at g", "n at k", "y at h",
        ])  # fmt: skip
        edits = {it.name: it.edits for it in faults_of(netlist, netlist.outputs)}
        self.assertEqual(edits["a at input 3 of h stuck at 0"], ("wire h z y a 1'b0",))
        self.assertEqual(edits["a stuck at 1"], ("wire f n 1'b1 b", "wire g n b 1'b1", "wire h z y 1'b1 1'b1"))

    def test_the_output_of_each_kind_can_be_stuck(self) -> None:
        for kind in ("and", "nand", "or", "nor", "xor", "xnor", "buf", "not", "bufif1", "bufif0", "notif1", "notif0"):
            inputs = "a" if kind in ("buf", "not") else "a, b"
            text = f"module m(input a, b, output y); {kind} #1 g(y, {inputs}); endmodule"
            with Session(text=text, horizon=9) as session:
                for fault in faults_of(netlist_of(text)):
                    if fault.name.startswith("y stuck"):
                        with session.batch() as batch:
                            batch.lines += fault.edits
                        self.assertEqual(session.value("y", 9), fault.name[-1], kind)
                        with session.batch() as batch:
                            batch.lines += fault.undo

    def test_undone_faults_leave_no_trace(self) -> None:
        bench, faults = example.C17.bench(), example.C17.faults()
        with bench.open() as session:
            before = session.vcd()
            for fault in faults:
                for lines in (fault.edits, fault.undo):
                    with session.batch() as batch:
                        batch.lines += lines
            self.assertEqual(session.vcd(), before)


class Coverage(unittest.TestCase):
    def test_the_multiplier_multiplies(self) -> None:
        netlist = example.MULTIPLIER.netlist()
        for number in range(256):
            a, b = f"{number // 16:04b}", f"{number % 16:04b}"
            product = f"{int(a, 2) * int(b, 2):08b}"
            # Inputs and outputs stand in the order of the lowest bit first.
            self.assertEqual(outputs(netlist, a[::-1] + b[::-1]), [int(it) for it in product[::-1]])

    def test_a_few_vectors_miss_some_faults(self) -> None:
        test = example.C17._replace(vectors=["10010", "01111", "10101"])
        found = seen(test.faults(), test.verdicts())
        self.assertEqual(found, detected(test, test.faults()))
        self.assertTrue(0 < len(found) < 34)

    def test_one_after_another_and_each_from_scratch(self) -> None:
        bench, faults = example.C17.bench(), example.C17.faults()[::5]
        self.assertEqual(run_all(bench, faults, show), [run_all(bench, [it], show)[0] for it in faults])
        scratch = []
        for fault in faults:
            lines = [it.line for it in bench.steps] + ["begin", *fault.edits, "commit"]
            fresh = bench_of(bench.text, lines, bench.nets, horizon=bench.horizon, delay=bench.delay)
            with fresh.open() as session:
                scratch.append(Verdict("", note=repr(session.waves(*bench.nets))))
        self.assertEqual(run_all(bench, faults, show), scratch)

    def test_the_pairs_show_all_faults_of_the_multiplier_but_one(self) -> None:
        test, faults = example.MULTIPLIER, example.MULTIPLIER.faults()
        verdicts = test.verdicts()
        self.assertEqual((len(faults), seen(faults, verdicts, "undetected")), (368, ["h11 at g_v11 stuck at 1"]))
        some = faults[::12]
        self.assertEqual(detected(test, some), [it for it in seen(faults, verdicts) if it in {fault.name for fault in some}])


if __name__ == "__main__":
    unittest.main()
