"""Imports: the gates and delays of Liberty cells, delays of SDF files, and units."""
from fractions import Fraction
from typing import Dict, List, Tuple

from gatebench.importing.expression import BadFunction, Expression, expression_of
from gatebench.importing.fault import ImportRefused
from gatebench.importing.liberty import Library, read_library
from gatebench.importing.liberty_timing import Timing, delays_in
from gatebench.importing.sdf import Annotations, read_sdf
from gatebench.importing.times import Delays, Unit, in_units, unit_of

from .support import WithFolder

LIBRARY = """\
/* Cells made up for this test. */
library (made_up) {
  time_unit : "1ns";
  lu_table_template (grid) {
    variable_1 : input_net_transition;
    variable_2 : total_output_net_capacitance;
    index_1 ("0.0, 1.0");
    index_2 ("1.0, 3.0");
  }
  cell (NAND2) {
    pg_pin (VDD) { pg_type : primary_power; }
    pin (A, B) { direction : input; }
    pin (Y) { direction : output; function : "(A*B)'";
      timing () { related_pin : "A";
        cell_rise (grid) { values ("0.10, 0.30", \\
          "0.20, 0.40"); }
        cell_fall (scalar) { values ("0.05"); } }
      timing () { related_pin : "B"; cell_fall (scalar) { values ("0.07"); } } }
  }
  cell (AOI21) {
    pin (A) { direction : input; } pin (B) { direction : input; } pin (C) { direction : input; }
    pin (Y) { direction : output; function : "!((A & B) | C)";
      timing () { related_pin : "A"; intrinsic_rise : 0.2; rise_resistance : 0.1; intrinsic_fall : 0.3; } }
  }
  cell (TRI) {
    pin (A) { direction : input; } pin (EN) { direction : input; }
    pin (Y) { direction : output; function : "!A"; three_state : "!EN";
      timing () { cell_rise (scalar) { values ("0.1"); } cell_fall (scalar) { values ("0.2"); } }
      timing () { timing_type : three_state_disable; cell_rise (scalar) { values ("0.3"); } } }
  }
  cell (DFFR) {
    ff (IQ, IQN) { clocked_on : "CK"; next_state : "D"; clear : "!R"; }
    pin (CK) { direction : input; } pin (D) { direction : input; } pin (R) { direction : input; }
    pin (Q) { direction : output; function : "IQ"; }
    pin (QN) { direction : output; function : "IQN"; }
  }
  cell (LATCH) {
    latch (IQ, IQN) { enable : "!G"; data_in : "D"; }
    pin (G) { direction : input; } pin (D) { direction : input; }
    pin (Q) { direction : output; function : "IQ"; }
  }
  cell (DFFSR) {
    ff (IQ, IQN) { clocked_on : "!CK"; next_state : "D"; clear : "!R"; preset : "S"; clear_preset_var1 : L; }
    pin (CK) { direction : input; } pin (D) { direction : input; }
    pin (R) { direction : input; } pin (S) { direction : input; }
    pin (Q) { direction : output; function : "IQ"; }
  }
  cell (GATER) {
    clock_gating_integrated_cell : "latch_posedge_precontrol";
    statetable ("CK", "M") { table : "-"; }
    pin (CK) { direction : input; clock_gate_clock_pin : true; }
    pin (E) { direction : input; clock_gate_enable_pin : true; }
    pin (TE) { direction : input; clock_gate_test_pin : true; }
    pin (GCK) { direction : output; clock_gate_out_pin : true; state_function : "CK * M"; }
  }
  cell (GATED) { statetable ("CK", "Q") { table : "-"; } pin (CK) { direction : input; } }
  cell (PAD) { pin (Y) { direction : output; } }
  cell (LOST) { pin (A) { direction : input; } pin (Y) { direction : output; function : "A & B"; } }
}
"""


def value(of: Expression, pins: Dict[str, int]) -> int:
    if isinstance(of, str):
        return int(of) if of in "01" else pins[of]
    parts = [value(it, pins) for it in of[1]]
    return {"and": min(parts), "or": max(parts), "xor": sum(parts) % 2, "not": 1 - parts[0]}[of[0]]


class Functions(WithFolder):
    def test_what_binds_closer(self) -> None:
        # By hand: ! and ' first, then ^, then * & and nothing between two, then + |.
        ones = {
            "A*B'+C": ["001", "011", "101", "111", "100"],
            "A B^C": ["110", "101"],
            "!(A+B) C'": ["000"],
            "A | B & !C": ["010", "100", "101", "110", "111"],
        }
        for text, wanted in ones.items():
            found = expression_of(text)
            rows = [f"{row:03b}" for row in range(8)]
            got = [row for row in rows if value(found, dict(zip("ABC", map(int, row))))]
            self.assertEqual(got, sorted(wanted), text)

    def test_what_is_no_function(self) -> None:
        for text in ("A +", "(A", "A ? B", "", "A)"):
            with self.assertRaises(BadFunction):
                expression_of(text)


class WithLibrary(WithFolder):
    def library(self) -> Library:
        return read_library(self.write("made_up.lib", LIBRARY))


class Cells(WithLibrary):
    def gates(self, cell: str) -> List[Tuple[str, str, str, str]]:
        model = self.library().cells[cell].model
        assert model is not None
        return [(it.name, it.kind, it.output, " ".join(it.inputs)) for it in model.gates]

    def test_functions_as_gates(self) -> None:
        self.assertEqual(self.gates("NAND2"), [("g", "nand", "Y", "A B")])
        self.assertEqual(self.gates("AOI21"), [("g1", "and", "n", "A B"), ("g", "nor", "Y", "n C")])
        self.assertEqual(self.gates("TRI"), [("g", "notif1", "Y", "A EN")])

    def test_a_flip_flop_of_six_nands(self) -> None:
        self.assertEqual(
            self.gates("DFFR"),
            [
                ("g1", "nand", "t", "s d"),
                ("g2", "nand", "s", "t CK R"),
                ("g3", "nand", "r", "s CK d"),
                ("g4", "nand", "d", "r D R"),
                ("g5", "nand", "q", "s qn"),
                ("g6", "nand", "qn", "r q R"),
                ("g_Q", "buf", "Q", "q"),
                ("g_QN", "buf", "QN", "qn"),
            ],
        )

    def test_clear_is_stronger_than_preset(self) -> None:
        # n is the preset that acts at 0, and p acts at 0 only where R does not; n_ is the clock that rises.
        self.assertEqual(
            self.gates("DFFSR")[:5],
            [
                ("g1", "not", "n", "S"),
                ("g2", "not", "cn", "R"),
                ("g3", "or", "p", "n cn"),
                ("g4", "not", "n_", "CK"),
                ("g5", "nand", "t", "s d p"),
            ],
        )

    def test_a_gate_of_a_clock(self) -> None:
        # A latch that is open while CK is 0 takes E or TE, and lets CK through while it holds a 1.
        self.assertEqual(
            self.gates("GATER"),
            [
                ("g1", "not", "n", "CK"),
                ("g2", "or", "n_", "E TE"),
                ("g3", "nand", "s", "n_ n"),
                ("g4", "nand", "r", "s n"),
                ("g5", "nand", "q", "s qn"),
                ("g6", "nand", "qn", "r q"),
                ("g", "and", "GCK", "CK q"),
            ],
        )

    def test_a_latch_that_is_open_at_0(self) -> None:
        self.assertEqual(
            self.gates("LATCH"),
            [
                ("g1", "not", "n", "G"),
                ("g2", "nand", "s", "D n"),
                ("g3", "nand", "r", "s n"),
                ("g4", "nand", "q", "s qn"),
                ("g5", "nand", "qn", "r q"),
                ("g", "buf", "Q", "q"),
            ],
        )

    def test_what_is_no_gate_says_why(self) -> None:
        cells = self.library().cells
        faults = [str(fault).rpartition("/")[2] for it in ("GATED", "PAD", "LOST") for fault in [cells[it].fault]]
        cure = "; give a Verilog module of gates for it"
        self.assertEqual(
            faults,
            [
                "made_up.lib:56: statetable: cells with a statetable are not imported" + cure,
                "made_up.lib:57: Y: it is an output without a function" + cure,
                "made_up.lib:58: B: the attribute function names no pin by it" + cure,
            ],
        )

    def test_power_is_no_pin(self) -> None:
        model = self.library().cells["NAND2"].model
        assert model is not None
        self.assertEqual((model.pins, model.power), (["A", "B", "Y"], {"VDD"}))

    def test_a_file_that_is_no_library(self) -> None:
        for text in ("module m; endmodule", "library (l) { cell (A) {", "library (l) { cell }"):
            with self.assertRaises(ImportRefused):
                read_library(self.write("other.lib", text))


class LibertyDelays(WithLibrary):
    def delays(self, cell: str, load: float, slew: float) -> Delays:
        found = delays_in(self.library(), cell, "Y", Timing(load, slew))
        assert found is not None
        return found

    def test_between_the_points_of_a_table(self) -> None:
        # Half way between the loads 1 and 3: 0.20 at the slew 0, 0.30 at 1; half way between these 0.25. The fall is the
        # greater one of the two arcs.
        self.assertEqual(self.delays("NAND2", 2.0, 0.5), Delays(Fraction(250_000), Fraction(70_000)))

    def test_beyond_the_points_of_a_table(self) -> None:
        self.assertEqual(self.delays("NAND2", 9.0, -1.0).rise, 300_000)
        self.assertEqual(self.delays("NAND2", 0.0, 2.0).rise, 200_000)

    def test_the_linear_model(self) -> None:
        self.assertEqual(self.delays("AOI21", 2.0, 0.0), Delays(Fraction(400_000), Fraction(300_000)))

    def test_the_turn_off_delay(self) -> None:
        self.assertEqual(self.delays("TRI", 0.0, 0.0), Delays(Fraction(100_000), Fraction(200_000), Fraction(300_000)))

    def test_no_arc_no_delay(self) -> None:
        self.assertIsNone(delays_in(self.library(), "DFFR", "Q", Timing(0.0, 0.0)))


SDF = """\
(DELAYFILE
  (SDFVERSION "3.0") (DIVIDER /) (TIMESCALE 100 ps)
  (CELL (CELLTYPE "NAND2") (INSTANCE u1/g\\[0\\])
    (DELAY (ABSOLUTE
      (INTERCONNECT a b (1))
      (IOPATH A Y (1:2:3) (4))
      (IOPATH B Y (1.5) (5::7))
      (COND A == 1 (IOPATH B Y (2.5) (1))))))
  (CELL (CELLTYPE "TRI") (INSTANCE t)
    (DELAY (ABSOLUTE (IOPATH (posedge EN) Y (1) (2) (3) (4) (5) (6)) (IOPATH A Z (7) () (9)))))
)
"""


class Sdf(WithFolder):
    def annotations(self, text: str) -> Annotations:
        return read_sdf(self.write("delays.sdf", text))

    def test_the_greatest_of_the_paths_to_an_output(self) -> None:
        found = self.annotations(SDF)
        delays = {at: it.delays for at, it in found.items()}
        ps = 1000
        self.assertEqual(
            delays,
            {
                # The rises 2, 1.5 and 2.5; the falls 4, 7 (the last of two that are given) and 1; in units of 100 ps.
                ("u1.g[0]", "Y"): Delays(Fraction(250 * ps), Fraction(700 * ps)),
                # 0 to 1 and z to 1: 1 and 4. 1 to 0 and z to 0: 2 and 6. 0 to z and 1 to z: 3 and 5.
                ("t", "Y"): Delays(Fraction(400 * ps), Fraction(600 * ps), Fraction(500 * ps)),
                ("t", "Z"): Delays(Fraction(700 * ps), Fraction(700 * ps), Fraction(900 * ps)),
            },
        )

    def test_all_faults_at_once(self) -> None:
        text = """\
            (DELAYFILE (TIMESCALE 3 ns)
              (CELL (INSTANCE *) (DELAY (ABSOLUTE (IOPATH A Y (1)))))
              (CELL (INSTANCE u) (DELAY (INCREMENT (IOPATH A Y (1)))))
              (CELL (INSTANCE u) (DELAY (ABSOLUTE (WONDER A Y (1))))))
            """
        with self.assertRaises(ImportRefused) as caught:
            self.annotations(text)
        places = [(it.line, it.word) for it in caught.exception.faults]
        self.assertEqual(places, [(1, "TIMESCALE"), (2, "*"), (3, "INCREMENT"), (4, "WONDER")])

    def test_what_is_no_sdf(self) -> None:
        for text in ("", "module m; endmodule", "(DELAYFILE (CELL", "(DELAYFILE)"):
            with self.assertRaises(ImportRefused):
                self.annotations(text)


class Units(WithFolder):
    def test_rounding(self) -> None:
        unit = Unit(10, "ps")
        for picoseconds, units in ((14, 1), (15, 2), (24, 2), (25, 3), (4, 1), (0, 1)):
            self.assertEqual(in_units(Fraction(picoseconds * 1000), unit), units, picoseconds)

    def test_words(self) -> None:
        self.assertEqual(unit_of("100 ns"), Unit(100, "ns"))
        self.assertEqual(str(unit_of("1.0ps")), "1ps")
        for text in ("2ns", "10", "ns", "1 hour"):
            with self.assertRaises(ValueError):
                unit_of(text)
