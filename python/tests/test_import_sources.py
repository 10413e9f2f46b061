"""Imports: Verilog made ready for yosys."""
import pickle
from fractions import Fraction
from typing import Sequence

from gatebench.importing.fault import Fault, ImportRefused
from gatebench.importing.sources import Sources
from gatebench.importing.times import Delays, Unit

from .support import WithFolder


class Ready(WithFolder):
    def sources(self, text: str, replaced: Sequence[str] = ()) -> Sources:
        found = Sources()
        found.read([self.write("m.v", text)], [], set(replaced))
        return found

    def test_gates_become_empty_modules(self) -> None:
        found = self.sources(
            """\
            `timescale 10ps/1ps
            module m(input a, b, output y, z);
              nand #(2,3) g(y, a, b), (z, {a},
                b); // not (c, d);
              buf (p, q, a);
              bufif1 #(1:2:3,4.5,6) t[1:0](z, a, b);
              always @((a) or (b)) ;
            endmodule
            """
        )
        self.assertEqual(
            found.files[0].text,
            "`timescale 10ps/1ps\n"
            "module m(input a, b, output y, z);\n"
            "  _gatebench_nand_3_fs_20000_30000_z g (y, a, b); _gatebench_nand_3_fs_20000_30000_z \\$1 (z, {a},\n"
            "    b); // not (c, d);\n"
            "  _gatebench_buf_3_fs_ \\$2 (p, q, a);\n"
            "  _gatebench_bufif1_3_fs_20000_45000_60000 t[1:0] (z, a, b);\n"
            "  always @((a) or (b)) ;\n"
            "endmodule\n",
        )
        self.assertEqual(found.unit, Unit(10, "ps"))
        gate = found.primitives["_gatebench_bufif1_3_fs_20000_45000_60000"]
        self.assertEqual(gate.delays, Delays(Fraction(20_000), Fraction(45_000), Fraction(60_000)))
        self.assertEqual(
            found.primitives["_gatebench_buf_3_fs_"].text(),
            "(* blackbox, keep *) module _gatebench_buf_3_fs_(output o0, output o1, input i0); endmodule\n",
        )

    def test_what_is_passed_over_leaves_its_lines(self) -> None:
        found = self.sources(
            "`celldefine\nmodule m;\n  specify\n    (a => b) = 2;\n  endspecify\nendmodule\n`endcelldefine\n"
            "primitive p(a, b);\n  table\n  endtable\nendprimitive\n"
        )
        self.assertEqual(found.files[0].text.split(), ["module", "m;", "endmodule"])
        self.assertEqual(found.files[0].text.count("\n"), 11)

    def test_a_better_model_takes_the_place_of_a_module(self) -> None:
        text = "module A(o, i); not (o, i); endmodule\nmodule B(o, i); not #1 (o, i); endmodule\n"
        found = self.sources(text, replaced=["A", "B"])
        self.assertNotIn("module A", found.files[0].text)
        self.assertIn("module B", found.files[0].text)

    def test_all_faults_at_once(self) -> None:
        found = self.sources(
            "module m(input a, output y);\n  trireg n;\n  not #d g(y, a);\n"
            "  not (pull0, pull1) h(y, a);\n  bufif0 (y, a);\nendmodule\n"
        )
        places = [(it.line, it.word) for it in found.faults]
        self.assertEqual(places, [(2, "trireg"), (3, "d"), (4, "pull0"), (5, "bufif0")])

    def test_a_fault_is_a_line_with_a_cure(self) -> None:
        self.assertEqual(str(Fault("m.v", 3, "w", "why", "cure")), "m.v:3: w: why; cure")
        self.assertEqual(str(Fault("m.v", 0, "w", "why", "cure")), "m.v: w: why; cure")

    def test_a_refusal_goes_to_another_process(self) -> None:
        faults = [Fault("a.v", 1, "w", "why", "cure"), Fault("b.v", 2, "w", "why", "cure")]
        found = pickle.loads(pickle.dumps(ImportRefused(faults[::-1])))
        self.assertEqual((found.faults, str(found)), (faults, "a.v:1: w: why; cure\nb.v:2: w: why; cure"))
