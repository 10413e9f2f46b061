"""Imports: where gates and nets of a flat netlist stand, what they are called, and the file of names."""
from typing import Dict, List, Tuple

from gatebench.importing.gates import Gates
from gatebench.importing.netlist import Bit, Cell, NetName, Netlist, Place, Port, netlist_of
from gatebench.importing.scopes import Scopes, name_of
from gatebench.importing.text import Delay, Writer
from gatebench.importing.times import Unit
from gatebench.names import Names, names_path, read_names

from .support import WithFolder


def netlist(ports: List[Port], names: Dict[str, Bit], cells: Dict[str, Tuple[str, Dict[str, Bit]]]) -> Netlist:
    made = [
        Cell(name, False, type, {pin: [bit] for pin, bit in pins.items()}, Place("m.v", 1), (1, 1))
        for name, (type, pins) in cells.items()
    ]
    return Netlist("m", ports, [NetName(*it) for it in names.items()], made, {})


def text_of(flat: Netlist) -> Tuple[str, Scopes]:
    gates = Gates(flat, {}, [])
    scopes = Scopes(flat, gates)
    delays = {id(it): Delay(1, 1) for it in gates.gates}
    return Writer(scopes, delays, Unit(1, "ns"), flat.top).text().split("\n\n", 1)[1], scopes


class Placing(WithFolder):
    def test_a_net_goes_by_its_outermost_name(self) -> None:
        flat = netlist(
            [Port("a", "input", 2), Port("y", "output", 3)],
            {"a": 2, "y": 3, "u.p": 2, "u.n": 4, "u.q": 3},
            {"u.g": ("$_NOT_", {"A": 2, "Y": 4}), "u.h": ("$_NOT_", {"A": 4, "Y": 3})},
        )
        text, scopes = text_of(flat)
        self.assertEqual(
            text,
            "module m(input a, output y);\n  u u(a, y);\nendmodule\n\n"
            "module u(input p, output q);\n  wire n;\n  not #1 g(n, p);\n  not #1 h(q, n);\nendmodule\n",
        )
        self.assertEqual(scopes.net_names, {"u.p": "a", "u.q": "y", "u.n": "u.n"})

    def test_a_dot_is_a_slash_where_no_scope_reaches_all_gates(self) -> None:
        flat = netlist(
            [Port("a", "input", 2), Port("y", "output", 3)],
            {"a": 2, "y": 3, "u.x[1]": 4},
            {"g": ("$_NOT_", {"A": 2, "Y": 4}), "h": ("$_NOT_", {"A": 4, "Y": 3})},
        )
        text, scopes = text_of(flat)
        self.assertIn("wire \\u/x[1] ;\n  not #1 g(\\u/x[1] , a);\n  not #1 h(y, \\u/x[1] );\n", text)
        self.assertEqual(scopes.net_names, {"u.x[1]": "u/x[1]"})

    def test_constants_are_pulled_nets(self) -> None:
        flat = netlist(
            [Port("a", "input", 2), Port("y", "output", "1"), Port("z", "output", "z"), Port("b", "output", 2)],
            {"a": 2, "y": "1", "z": "z", "b": 2, "u.k": "0", "w": "x"},
            {},
        )
        text, scopes = text_of(flat)
        self.assertEqual(
            text,
            "module m(input a, output tri1 y, output z);\n  wire w;\n  buf #1 w$x(w, 1'bx);\n  u u();\nendmodule\n\n"
            "module u();\n  tri0 k;\nendmodule\n",
        )
        self.assertEqual(scopes.net_names, {"b": "a", "u.k": "u.k"})

    def test_equal_instances_share_a_module(self) -> None:
        flat = netlist(
            [Port("a", "input", 2), Port("y", "output", 4)],
            {"a": 2, "n": 3, "y": 4, "u.p": 2, "u.q": 3, "v.p": 3, "v.q": 4},
            {"u.g": ("$_NOT_", {"A": 2, "Y": 3}), "v.g": ("$_NOT_", {"A": 3, "Y": 4})},
        )
        text, _ = text_of(flat)
        self.assertIn("  u u(a, n);\n  u v(n, y);\n", text)
        self.assertEqual(text.count("endmodule"), 2)

    def test_cells_of_several_gates_are_scopes(self) -> None:
        flat = netlist(
            [Port("a", "input", 2), Port("y", "output", 3)], {}, {"m1": ("$_MUX_", {"A": 2, "B": "1", "S": 2, "Y": 3})}
        )
        text, scopes = text_of(flat)
        # Where S is 0 the output is A, else B.
        self.assertIn("and #1 g2(n_, A, n);", text)
        self.assertIn("and #1 g3(n__, 1'b1, A);", text)
        self.assertIn("or #1 g(Y, n_, n__);", text)
        self.assertEqual(scopes.gate_names["m1"], "m1.g")

    def test_names_that_are_no_scopes(self) -> None:
        for typed, scope, last in (
            ("a.b.c", ("a", "b"), "c"),
            ("a..b", (), "a//b"),
            (".a", (), "/a"),
            ("a.$end", (), "a/$end_"),
            ("it's", (), "it_s"),
        ):
            name = name_of(typed)
            self.assertEqual((name.scope, name.last), (scope, last), typed)
        deep = name_of(".".join("s" * 40))
        self.assertEqual((len(deep.scope), deep.last), (30, "/".join("s" * 10)))


class Bits(WithFolder):
    def test_the_bits_of_a_vector_by_its_bounds(self) -> None:
        port = '{"direction": "input", "bits": [2, 3]}'
        names = (
            '"a": {"hide_name": 0, "bits": [2, 3]}, "b": {"hide_name": 0, "bits": [4, 5], "offset": 1, "upto": 1},'
            ' "c": {"hide_name": 0, "bits": [6, 7], "offset": -1}, "$1": {"hide_name": 1, "bits": [6]}'
        )
        text = '{"modules": {"m": {"attributes": {"top": "1"}, "ports": {"a": %s}, "cells": {}, "netnames": {%s}}}}'
        found = netlist_of(text % (port, names), text % (port, names), str)
        self.assertEqual(
            [(it.name, it.bit) for it in found.names],
            [("a[1]", 3), ("a[0]", 2), ("b[1]", 5), ("b[2]", 4), ("c[0]", 7), ("c[-1]", 6)],
        )
        self.assertEqual(found.ports, [Port("a[1]", "input", 3), Port("a[0]", "input", 2)])


class NameFile(WithFolder):
    def test_a_name_in_each_spelling(self) -> None:
        names = Names({"u1.foo.x[3]": "u1.foo/x[3]", "q": "p"}, {"u7": "u7.g"})
        for typed in ("u1.foo.x[3]", "u1/foo.x[3]", "u1/foo/x[3]", "\\u1.foo.x[3] ", "u1.\\foo.x [3]"):
            self.assertEqual(names.net(typed), "u1.foo/x[3]", typed)
        self.assertEqual((names.net("q"), names.net("\\a+b "), names.net("a/b")), ("p", "a+b", "a/b"))
        self.assertEqual((names.gate("u7"), names.gate("u8")), ("u7.g", "u8"))

    def test_the_file_beside_the_design(self) -> None:
        design = self.write("m.v", "")
        self.assertEqual(read_names(design).net("a"), "a")
        Names({"a": "b"}, {}).write(names_path(design))
        self.assertEqual(self.read("m.names.json"), '{\n "gates": {},\n "nets": {\n  "a": "b"\n }\n}\n')
        self.assertEqual(read_names(design).net("a"), "b")
