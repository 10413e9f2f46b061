"""The gates of design texts, and of designs that commands have changed."""
import os
import random
import sys
import unittest
from glob import glob
from typing import Any, Tuple

from gatebench import Gate, Session, netlist_of, read_netlist
from gatebench.netlist_edits import edited
from gatebench.replies import Reply

from .support import EXAMPLES, ROOT, WithFolder

sys.path.insert(0, os.path.join(ROOT, "tools", "fuzz"))
from generate import texts  # noqa: E402
from reading import spelled  # noqa: E402

# Vectors in both directions, ports by order and by name, an escaped name, a constant, an open port, gates without a name.
TEXT = r"""
`timescale 1ns / // the unit
  1ps
(* top *) module top(input [1:0] a, input \e+ , output [0:1] y, output z);
  wire [1:0] n; // from a comment: not g(y, a);
  pair u(a, n);
  pair w(.q(y), .p(n));
  not #1 g(z, q, \e+ );
  bufif1 #(2,3,5) (y[1], n[0], 1'B1);
  nand #(4,6) (s, a[1], a[1]), k(t, s);
  leaf v(1'b0, );
endmodule
module pair(p, q); /* not g(q, p); */
  input [0:1] p; output [0:1] q;
  not #2 g0(q[0], p[0]);
  and g1(q[1], p[1]);
endmodule
module leaf(input a, output b);
  buf #1 g(b, a);
endmodule
"""


class Netlists(unittest.TestCase):
    def test_all_gates_by_their_names_in_commands(self) -> None:
        netlist = netlist_of(TEXT, 7)
        self.assertEqual((netlist.name, netlist.inputs), ("top", ["a[1]", "a[0]", "e+"]))
        self.assertEqual(netlist.outputs, ["y[0]", "y[1]", "z"])
        self.assertEqual(netlist.gates, [
            Gate("g$1", "not", 1, 1, None, "z", ("e+",)),
            Gate("g$2", "not", 1, 1, None, "q", ("e+",)),
            Gate("$1", "bufif1", 2, 3, 5, "y[1]", ("n[0]", "1'b1")),
            Gate("$2", "nand", 4, 6, None, "s", ("a[1]", "a[1]")),
            Gate("k", "nand", 4, 6, None, "t", ("s",)),
            Gate("u.g0", "not", 2, 2, None, "n[1]", ("a[1]",)),
            Gate("u.g1", "and", 7, 7, None, "n[0]", ("a[0]",)),
            Gate("w.g0", "not", 2, 2, None, "y[0]", ("n[1]",)),
            Gate("w.g1", "and", 7, 7, None, "y[1]", ("n[0]",)),
            Gate("v.g", "buf", 1, 1, None, "v.b", ("1'b0",)),
        ])  # fmt: skip
        self.assertEqual([it.module for it in netlist.gates[4:6]], ["", "u"])

    def test_the_program_has_these_gates_and_nets(self) -> None:
        """Each gate is there with its kind, output and inputs: wiring it so once more changes no wave."""
        for path in [None, *glob(os.path.join(EXAMPLES, "synthesized_*", "design.v"))]:
            netlist = netlist_of(TEXT, 7) if path is None else read_netlist(path, 7)
            with Session(path, text=TEXT if path is None else None, delay=7, horizon=50) as session:
                with session.batch() as batch:
                    for place, net in enumerate(netlist.inputs):
                        batch.stim(net, place, 1)
                dump = session.dump()
                used = {it for gate in netlist.gates for it in (gate.output, *gate.inputs) if "'" not in it}
                self.assertLessEqual(used | {*netlist.inputs, *netlist.outputs}, set(dump.waves))
                with session.batch() as batch:
                    for gate in netlist.gates:
                        batch.edit(gate.delayed(gate.rise, gate.fall, gate.off))
                        batch.edit(gate.wired(gate.inputs))
                self.assertEqual(session.dump(), dump)

    def test_another_language_is_refused(self) -> None:
        for text in ("module m; assign a = b; endmodule", "module m", "", "module m; endmodule module n; endmodule"):
            with self.assertRaises(ValueError):
                netlist_of(text)


class SecondReading(unittest.TestCase):
    def test_generated_texts_have_the_gates_that_another_reading_of_the_language_finds(self) -> None:
        found = 0
        for number in range(400):
            numbers = random.Random(number)
            delay = numbers.choice([None, 2])
            text = texts.right(numbers, delay is not None)
            try:
                design = spelled.read(text, delay)
            except spelled.Fault:
                continue
            netlist = netlist_of(text.decode("latin-1"), delay)
            wanted = [(name, it.kind, it.delays, it.output, it.inputs) for name, it in design.gates.items()]
            self.assertEqual([as_read(it) for it in netlist.gates], wanted, text)
            self.assertEqual(netlist.inputs, [name for name, it in design.nets.items() if it.is_input], text)
            found += bool(wanted)
        self.assertGreater(found, 200)


def as_read(gate: Gate) -> Tuple[Any, ...]:
    delays = (gate.rise, gate.fall) if gate.off is None else (gate.rise, gate.fall, gate.off)
    return gate.name, gate.kind, delays, gate.output, gate.inputs


class Edits(WithFolder):
    def test_edits_that_were_carried_out(self) -> None:
        netlist = netlist_of("module m(input a, b, output y); and #1 g(y, a, b); nor #2 h(z, a); endmodule")
        lines = {
            "stim a 0 1": "ok 1",
            "gate k bufif1 1 2/3 y a b": "ok 2",
            "drop nothing": "no 2 UnknownGate",
            "begin": "ok 2",
            "drop h": "ok 2",
            "type g or": "ok 2",
            "commit": "ok 3",
            "begin ": "ok 3",
            "drop g": "ok 3",
            "abort": "ok 3",
            " begin": "ok 3",
            "drop k": "ok 3",
            "drop q": "ok 3",
            "commit ": "no 2 UnknownGate",
            "input c": "ok 4",
            "delay k 4 5": "ok 5",
            "wire g y a c": "ok 6",
            "dropnet b": "ok 7",
            "value y 0": "ok 7",
            "horizon 20": "ok 8",
        }
        found = edited(netlist, list(lines), [Reply((), it) for it in lines.values()])
        self.assertEqual(found.netlist.inputs, ["a", "c"])
        self.assertEqual(found.driven, {"a"})
        self.assertEqual(found.netlist.gates, [
            Gate("g", "or", 1, 1, None, "y", ("a", "c")), Gate("k", "bufif1", 4, 5, None, "y", ("a", "b")),
        ])  # fmt: skip


if __name__ == "__main__":
    unittest.main()
