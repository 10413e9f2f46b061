"""Imports by yosys, from the files to the text and to a session. They need the program yosys."""
import os
import shutil
import subprocess
import sys
import tempfile
import unittest
from typing import Tuple
from unittest import mock

from gatebench import Session
from gatebench.importing import ImportRefused, Options, Timing, import_design, unit_of

from .support import EXAMPLES, ROOT, WithFolder
from .test_documents import blocks
from .test_import_libraries import LIBRARY


def setUpModule() -> None:
    if not shutil.which("yosys"):
        print("\ntests.test_import is skipped: there is no program yosys (apt-get install yosys)")
        raise unittest.SkipTest("no yosys")


NETLIST = """\
/* A netlist as synthesis writes it. */
module top(a, en, y, z, k, w, v);
  input [1:0] a;
  input en;
  output y, z, w;
  output [1:0] k;
  output [2:0] v;
  wire \\foo.x , VDD;
  wire [3:0] n;
  assign k = 2'h2;
  assign w = y;
  assign { n[0], n[1] } = { a[0], \\foo.x };
  assign v = { 1'hx, n[1:0] };
  nand #(2,3) g(\\foo.x , a[0], a[1]);
  \\$paramod\\sub\\W=s32'01 u1(.p({ n[0], 1'b1 }), .q(y));
  AOI21 \\u2.i (.A(n[1]), .B(n[0]), .C(1'h0), .Y(\\n[3] ), .VDD(VDD));
  wire \\n[3] ;
  TRI u3(n[0], en, z);
  DFFR \\u2.r (.CK(en), .D(\\n[3] ), .R(a[1]), .QN(n[2]));
endmodule
module \\$paramod\\sub\\W=s32'01 (input [1:0] p, output q);
  and g(q, p[0], p[1]);
endmodule
"""


class Netlists(WithFolder):
    def imported(self, **options: object) -> Tuple[str, "dict[str, str]"]:
        files = (self.write("top.v", NETLIST),)
        libraries = (self.write("made_up.lib", LIBRARY),)
        found = import_design(Options(files, libraries=libraries, **options))  # type: ignore[arg-type]
        return found.text, found.names.nets

    def test_names_of_nets(self) -> None:
        # w is y; v[0] is n[0], which is a[0]; k[1] and k[0] are constants, each a net of its own.
        text, names = self.imported()
        self.assertEqual(names["w"], "y")
        self.assertEqual(names["v[0]"], "a[0]")
        self.assertEqual(names["foo.x"], names.get("n[1]", "n[1]"))
        self.assertIn("output tri1 \\k[1] ", text)
        self.assertIn("output tri0 \\k[0] ", text)

    def test_gates_and_cells(self) -> None:
        text, _ = self.imported(delay=4)
        self.assertIn("nand #(2,3) g(", text)
        self.assertIn("and #4 g(", text)
        self.assertIn("nor #4 g(Y, n, 1'b0);", text)
        self.assertIn("notif1 #4 g(Y, A, EN);", text)

    def test_delays_of_liberty(self) -> None:
        # AOI21 at the load 2: rise 0.2 + 2 * 0.1 ns, fall 0.3 ns; an inner gate takes 1 of it.
        text, _ = self.imported(timing=Timing(2.0, 0.0), unit=unit_of("10ps"))
        self.assertIn("and #1 g1(n, A, B);\n  nor #(39,29) g(Y, n, 1'b0);", text)
        self.assertIn("notif1 #(10,20,30) g(Y, A, EN);", text)
        # What a text writes is in units of the text where it has no `timescale`.
        self.assertIn("nand #(2,3) g(", text)

    def test_delays_of_sdf(self) -> None:
        sdf = self.write(
            "top.sdf",
            """\
            (DELAYFILE (TIMESCALE 1ns) (DIVIDER /)
              (CELL (INSTANCE u3) (DELAY (ABSOLUTE (IOPATH A Y (0.5) (0.25) (0.75)))))
              (CELL (INSTANCE u2/i) (DELAY (ABSOLUTE (IOPATH A Y (0.1) (0.2)))))
              (CELL (INSTANCE u1) (DELAY (ABSOLUTE (IOPATH p q (3) (4))))))
            """,
        )
        text, _ = self.imported(sdf=(sdf,))
        self.assertIn("`timescale 1ps/1ps", text)
        self.assertIn("notif1 #(500,250,750) g(Y, A, EN);", text)
        self.assertIn("nor #(99,199) g(Y, n, 1'b0);", text)
        self.assertIn("and #(3000,4000) g(", text)

    def test_sdf_of_another_netlist(self) -> None:
        sdf = self.write("top.sdf", "(DELAYFILE\n (CELL (INSTANCE u9) (DELAY (ABSOLUTE (IOPATH A Y (1))))))")
        with self.assertRaises(ImportRefused) as caught:
            self.imported(sdf=(sdf,))
        self.assertEqual([(it.line, it.word) for it in caught.exception.faults], [(2, "u9.Y")])


class Command(WithFolder):
    def run_import(self, *words: str) -> "subprocess.CompletedProcess[str]":
        environment = {**os.environ, "PYTHONPATH": os.path.join(ROOT, "python")}
        words = (sys.executable, "-m", "gatebench", "import", *words)
        return subprocess.run(words, cwd=self.folder, env=environment, capture_output=True, text=True, timeout=60)

    def test_all_that_is_refused_at_once(self) -> None:
        self.write("cells.lib", LIBRARY)
        self.write(
            "top.v",
            """\
            module top(input a, output y, z);
              NAND2 u1(.A(a), .B(a), .Y(y), .BAD(a));
              MISSING u2(.A(a), .Y(z));
              GATED u3(.CK(a));
              nmos u4(z, a, a);
            endmodule
            """,
        )
        ran = self.run_import("top.v", "--lib", "cells.lib", "-o", "design.v")
        self.assertEqual((ran.returncode, ran.stdout), (1, ""))
        self.assertEqual(
            [line.rpartition(";")[0].rpartition(":")[0] for line in ran.stderr.splitlines()[:-1]],
            ["cells.lib:56: statetable", "top.v:2: BAD", "top.v:3: MISSING", "top.v:5: nmos"],
        )
        self.assertFalse(os.path.exists(os.path.join(self.folder, "design.v")))

    def test_all_cells_that_a_synthesis_does_not_know(self) -> None:
        self.write(
            "m.v", "module m(input a, output y, z);\n  ONE u1(.A(a), .Y(y));\n  TWO u2(.A(a), .Y(z));\nendmodule\n"
        )
        ran = self.run_import("m.v", "--synthesize")
        places = [line.split(": ")[:2] for line in ran.stderr.splitlines()[:-1]]
        self.assertEqual(places, [["m.v:2", "ONE"], ["m.v:3", "TWO"]])

    def test_a_library_with_too_few_cells_for_a_synthesis(self) -> None:
        self.write("cells.lib", 'library (l) { cell (INV) { pin (A) { direction : input; } pin (Y) { direction : output; function : "!A"; } } }')
        self.write("m.v", "module m(input a, b, output y); assign y = a & b; endmodule\n")
        ran = self.run_import("m.v", "--synthesize", "--lib", "cells.lib")
        self.assertRegex(ran.stderr, "^the design: yosys: Can't open ABC output file .*; synthesis wants more cells of the Liberty file: ")

    def test_power_pins_of_cells_that_a_synthesis_leaves_as_they_are(self) -> None:
        # RAIL stands in the library, and VSS is known by its name; a net of the design has a name of this kind too.
        with open(os.path.join(EXAMPLES, "cells.lib"), encoding="ascii") as file:
            text = file.read()
        self.write("cells.lib", text.replace("cell(NAND2) {", "cell(NAND2) {\n    pg_pin (RAIL) { pg_type : primary_power; }", 1))
        self.write("m.v", """\
            module m(input a, b, vdd, output y, output reg z);
              NAND2 u1(.A(a), .B(b), .Y(y), .RAIL(vdd), .VSS(1'b0));
              always @* z = y;
            endmodule
        """)  # fmt: skip
        ran = self.run_import("m.v", "--synthesize", "--lib", "cells.lib")
        self.assertEqual(ran.returncode, 0, ran.stderr)
        self.assertIn("  NAND2 u1(a, b, y);\n", ran.stdout)
        self.write("m.v", "module m(input a, output y, output reg z);\n  INV u1(.A(a), .Y(y), .X(a));\n  always @* z = y;\nendmodule\n")
        ran = self.run_import("m.v", "--synthesize", "--lib", "cells.lib")
        self.assertEqual((ran.returncode, "X" in ran.stderr), (1, True))

    def test_power_pins_of_cells_in_verilog(self) -> None:
        self.write("cells.v", "module INV(output Y, input A);\n  not #3 g(Y, A);\nendmodule\n")
        self.write("m.v", "module m(input a, vdd, output y, output reg z);\n  INV u1(.A(a), .Y(y), .VDD(vdd));\n  always @* z = !y;\nendmodule\n")
        for words in ((), ("--synthesize",)):
            ran = self.run_import("m.v", "--lib", "cells.v", *words)
            self.assertEqual(ran.returncode, 0, ran.stderr)
            self.assertIn("  INV u1(y, a);\n", ran.stdout)

    def test_ports_that_a_module_has_not(self) -> None:
        self.write("sub.v", "module sub #(parameter W = 0) (input a, output [W:0] y);\n  assign y = {W + 1{!a}};\nendmodule\n")
        self.write("m.v", "module m(input a, output y);\n  sub u1(.a(a), .yy(y));\n  sub #(3) u2(.b(a), .y(y));\nendmodule\n")
        for words in (("m.v", "sub.v"), ("m.v", "--lib", "sub.v")):
            ran = self.run_import(*words)
            self.assertEqual(ran.returncode, 1)
            self.assertEqual([line.partition(";")[0] for line in ran.stderr.splitlines()[:-1]], [
                "m.v:2: yy: the module sub has no port by this name", "m.v:3: b: the module sub has no port by this name",
            ])  # fmt: skip
        self.write("m.v", "module m(input a, output y);\n  sub u1(a, y, a);\nendmodule\n")
        self.assertIn("connect as many nets as the module has ports", self.run_import("m.v", "sub.v").stderr)

    def test_connections_by_order(self) -> None:
        self.write("cells.lib", LIBRARY)
        self.write("cells.v", "module INV(output Y, input A);\n  not #3 g(Y, A);\nendmodule\n")
        self.write("m.v", "module m(input a, output y);\n  INV u1(n, a);\n  NAND2 u2(n, , y);\nendmodule\n")
        ran = self.run_import("m.v", "--lib", "cells.lib", "cells.v")
        self.assertIn("  INV u1(n, a);\n  NAND2 u2(n, y);\n", ran.stdout)
        # An input that nothing is connected to is z.
        self.assertIn("module NAND2(input A, output Y);\n  nand #1 g(Y, A, 1'bz);\n", ran.stdout)

    def test_kinds_of_nets(self) -> None:
        self.write(
            "m.v",
            """\
            module m(input a, b, output tri1 y, output [1:0] w);
              trior [1:0] w;
              bufif1 g(y, a, b);
              nor h(w[0], a), i(w[0], b);
              sub s(q), t(q);
            endmodule
            module sub(output wand o);
              not (o, 1'b0);
            endmodule
            """,
        )
        ran = self.run_import("m.v")
        self.assertIn("output tri1 y, output trior \\w[1] , output trior \\w[0] );\n  wand q;\n", ran.stdout)
        self.assertIn("module sub(output o);\n", ran.stdout)

    def test_inputs_that_are_driven(self) -> None:
        self.write(
            "m.v", "module m(input a, b, c, d, output y);\n  assign y = a;\n  assign y = b;\n  not g(c, a);\nendmodule\n"
        )
        ran = self.run_import("m.v")
        found = [line.partition(";")[0] for line in ran.stderr.splitlines()[:-1]]
        self.assertEqual(
            found, ["the design: b: the input a drives this input", "the design: c: the gate g drives this input"]
        )

    def test_a_syntax_error_of_each_file(self) -> None:
        self.write("one.v", "module one;\n  wire a\nendmodule\n")
        self.write("two.v", "module two; assign = a; endmodule\n")
        ran = self.run_import("one.v", "two.v")
        places = [line.split(": ")[:2] for line in ran.stderr.splitlines()[:-1]]
        self.assertEqual(places, [["one.v:3", "endmodule"], ["two.v:1", "="]])

    def test_a_library_with_unused_cells_and_a_chosen_top(self) -> None:
        self.write(
            "cells.v", "module INV(output Y, input A); not #3 g(Y, A); endmodule\nmodule UNUSED(input A); endmodule\n"
        )
        self.write("one.v", "module one(input a, output y); INV u(.A(a), .Y(y)); endmodule\n")
        self.write("two.v", "module two(input b, output z); one u(b, z); endmodule\n")
        ran = self.run_import("one.v", "two.v", "--lib", "cells.v", "--top", "NONE")
        self.assertTrue(ran.stderr.startswith("the design: NONE: Module `NONE' not found; give the file that has it"), ran.stderr)
        ran = self.run_import("one.v", "two.v", "--lib", "cells.v")
        self.assertIn("module two(input b, output z);\n  one u(b, z);", ran.stdout)
        ran = self.run_import("one.v", "two.v", "--lib", "cells.v", "--top", "one")
        self.assertEqual(
            ran.stdout.split("\n\n")[1:],
            ["module one(input a, output y);\n  INV u(y, a);\nendmodule",
             "module INV(output Y, input A);\n  not #3 g(Y, A);\nendmodule\n"],
        )  # fmt: skip

    def test_what_a_user_may_not_know_is_said(self) -> None:
        self.write(
            "m.v",
            """            module m(input c, d, inout b, output reg q);
              initial q = 0;
              always @(posedge c) q <= d;
              nand g(y, dd, c);
            endmodule
            """,
        )
        ran = self.run_import("m.v", "-o", "design.v")
        self.assertEqual(
            ran.stderr.replace("gatebench import: ", "").splitlines(),
            [
                "m.v:4: y is declared nowhere, and taken as a net",
                "m.v:4: dd is declared nowhere, and taken as a net",
                "initial values are left out, of 1 net: x until they are set",
                "1 cell made of expressions and behaviour as they stand: --synthesize makes fewer",
                "1 port for both ways, as b: no input; a gate of a session may drive it",
                "1 net read and driven by nothing, as dd: z",
                "m: 7 gates, 11 nets, in 1ns",
            ],
        )

    def test_a_vector_at_a_gate(self) -> None:
        self.write("m.v", "module m(input [1:0] a, output y);\n  not g(y, a);\nendmodule\n")
        ran = self.run_import("m.v")
        self.assertTrue(
            ran.stderr.startswith("m.v:2: g: a gate takes one bit, and not 2 at once; name the bit\n"), ran.stderr
        )

    def test_folders_with_a_blank_in_their_names(self) -> None:
        folder = os.path.join(self.folder, "my files")
        os.mkdir(folder)
        source = self.write("my files/m.v", '`include "width.vh"\nmodule m(input [`TOP:0] a, output y);\n  assign y = &a;\nendmodule\n')
        self.write("my files/width.vh", "`define TOP 1\n")
        library = shutil.copy(os.path.join(EXAMPLES, "cells.lib"), folder)
        options = Options((source,), libraries=(library,), synthesize=True)
        with mock.patch.object(tempfile, "tempdir", folder):
            self.assertIn("module m(input \\a[1] , input \\a[0] , output y);", import_design(options).text)
            self.assertEqual(sorted(os.listdir(folder)), ["cells.lib", "m.v", "width.vh"])
            fault = self.write("my files/width.vh", "`define TOP 1\nmodule ;\n")
            with self.assertRaises(ImportRefused) as caught:
                import_design(options)
        self.assertEqual([(it.file, it.line, it.word) for it in caught.exception.faults], [(fault, 2, ";")])

    def test_without_yosys(self) -> None:
        self.write("m.v", "module m; endmodule\n")
        environment = {**os.environ, "PYTHONPATH": os.path.join(ROOT, "python"), "PATH": "", "YOSYS": ""}
        words = [sys.executable, "-m", "gatebench", "import", "m.v"]
        ran = subprocess.run(words, cwd=self.folder, env=environment, capture_output=True, text=True, timeout=60)
        self.assertEqual(ran.returncode, 1)
        self.assertIn("apt-get install yosys", ran.stderr)

    def test_the_examples_are_what_it_makes(self) -> None:
        for example in ("adder", "alu", "counter"):
            source = os.path.join(EXAMPLES, f"synthesized_{example}")
            ran = self.run_import(
                os.path.join(source, "source.v"), "--synthesize",
                "--lib", os.path.join(EXAMPLES, "cells.lib"), os.path.join(EXAMPLES, "cells.v"),
            )  # fmt: skip
            with open(os.path.join(source, "design.v"), encoding="utf-8") as file:
                self.assertEqual(ran.stdout, file.read())


class InASession(WithFolder):
    def test_what_a_user_typed(self) -> None:
        self.write("made_up.lib", LIBRARY)
        source = self.write(
            "reg.v",
            """\
            module store(input ck, d, r, output q);
              \\bank[0].cell c(.ck(ck), .\\d.in (d), .r(r), .q(q));
            endmodule
            module \\bank[0].cell (input ck, \\d.in , r, output q);
              DFFR \\ff.one (.CK(ck), .D(\\d.in ), .R(r), .Q(q));
            endmodule
            """,
        )
        made = import_design(Options((source,), libraries=(os.path.join(self.folder, "made_up.lib"),)))
        design = self.write("design.v", made.text)
        made.names.write(os.path.join(self.folder, "design.names.json"))
        with Session(design, horizon=100) as session:
            with session.batch() as batch:
                for net, time, value in (
                    ("r", 0, 0),
                    ("r", 10, 1),
                    ("d", 0, 1),
                    ("ck", 0, 0),
                    ("ck", 40, 1),
                    ("ck", 60, 0),
                ):
                    batch.stim(net, time, value)
            self.assertEqual(session.names.net("c/d.in"), "d")
            # Cleared: r is 0, so qn rises at 1, q falls at 2 and Q at 3. Set: s falls at 41, q rises at 42, Q at 43.
            q = session.wave(session.names.net("c.q"))
            self.assertEqual([tuple(it) for it in q.changes], [(0, "x"), (3, "0"), (43, "1")])
            session.delay(session.names.gate("c.ff.one"), 5, 5)
            self.assertEqual([tuple(it) for it in session.wave("q").changes], [(0, "x"), (7, "0"), (47, "1")])


class Page(WithFolder):
    def test_the_import_of_the_page(self) -> None:
        found = blocks("docs/import.md")
        netlist, library, words, text = found[1:5]
        self.write("netlist.v", netlist)
        self.write("cells.lib", library)
        environment = {**os.environ, "PYTHONPATH": os.path.join(ROOT, "python")}
        ran = subprocess.run(
            [sys.executable, *words.split()[1:]],
            cwd=self.folder,
            env=environment,
            capture_output=True,
            text=True,
            timeout=60,
        )
        self.assertEqual(ran.returncode, 0, ran.stderr)
        self.assertEqual(self.read("design.v"), text)
        # Clocked at 1000 with the inputs 0 and 1, so with a 1, and at 2000 with a 0.
        points = (("a[0]", 0, 0), ("a[0]", 1500, 1), ("a[1]", 0, 1), ("ck", 0, 0))
        with Session(os.path.join(self.folder, "design.v"), horizon=3000) as session:
            with session.batch() as batch:
                for net, time, value in (*points, ("ck", 1000, 1), ("ck", 1200, 0), ("ck", 2000, 1)):
                    batch.stim(net, time, value)
            self.assertEqual([tuple(it) for it in session.wave("q").changes], [(0, "x"), (1200, "1"), (2180, "0")])
