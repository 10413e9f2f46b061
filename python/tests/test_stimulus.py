"""Clocks, vectors, and stimulus from dumps of other simulators."""
import importlib.util
import unittest
from types import SimpleNamespace
from typing import Any, List

from gatebench import BatchRefused, Bus, BusChange, Session, stimulus_of_vcd
from gatebench.stimulus import bits_of_value, clock_lines
from gatebench.values import changes_of
from gatebench.vcd_stimulus import points
from gatebench.wave import Wave

from .support import WithFolder

TEXT = """
module m(input [3:0] a, input [0:1] b, input clk, output [3:0] y);
  buf #1 g3(y[3], a[3]), g2(y[2], a[2]), g1(y[1], a[1]), g0(y[0], a[0]);
endmodule
"""


class Lines(unittest.TestCase):
    def test_a_clock_is_0_for_half_a_period_and_then_1(self) -> None:
        # Each point is a line stim clk T V.
        self.assertEqual(points_of(clock_lines("clk", 10, 22)), "0 0 5 1 10 0 15 1 20 0")
        self.assertEqual(points_of(clock_lines("clk", 5, 11)), "0 0 3 1 5 0 8 1 10 0")

    def test_a_clock_of_another_shape(self) -> None:
        self.assertEqual(points_of(clock_lines("clk", 10, 22, high=2, first=1)), "0 0 1 1 3 0 11 1 13 0 21 1")
        self.assertEqual(points_of(clock_lines("clk", 10, 15, first=0)), "0 1 5 0 10 1 15 0")

    def test_a_clock_that_does_not_change_is_none(self) -> None:
        for period, high in ((1, None), (10, 10), (10, 0), (10, 12)):
            with self.assertRaises(ValueError):
                clock_lines("clk", period, 20, high)

    def test_the_bits_of_values(self) -> None:
        self.assertEqual([bits_of_value(it, 4) for it in (5, 15, "01xz")], ["0101", "1111", "01xz"])
        for value in (16, -1, "010", "01a1", "01010"):
            with self.assertRaises(ValueError):
                bits_of_value(value, 4)


def points_of(lines: List[str]) -> str:
    return " ".join(it.split(" ", 2)[2] for it in lines)


class Vectors(unittest.TestCase):
    def setUp(self) -> None:
        self.session = Session(text=TEXT, horizon=50)
        self.addCleanup(self.session.kill)

    def test_a_vector_is_driven_and_read(self) -> None:
        with self.session.batch() as batch:
            batch.drive("a", 0, 0x5)
            batch.drive("a", 20, "1x00", width=4)
            batch.drive("b", 0, 1)
            batch.clock("clk", 10, until=50)
        self.assertEqual((batch.version, self.session.value("a[0]", 0), self.session.value("a[3]", 20)), (1, "1", "1"))
        # The left bit of [0:1] is b[0].
        self.assertEqual((self.session.value("b[0]", 0), self.session.value("b[1]", 0)), ("0", "1"))
        y = self.session.bus("y")
        self.assertEqual([y.at(it) for it in (0, 1, 20, 21)], ["xxxx", 5, 5, "1x00"])
        self.assertEqual(y.changes(), [BusChange(0, "xxxx"), BusChange(1, 5), BusChange(21, "1x00")])
        self.assertEqual((repr(y), y.bits_at(1)), ("<Bus y of 4 bits; to 50>", "0101"))
        self.assertEqual([it.time for it in self.session.wave("clk").edges(to=1)], [5, 15, 25, 35, 45])

    def test_a_session_drives_in_commits_of_its_own(self) -> None:
        self.assertEqual(self.session.drive("a", 0, 3), 1)
        held = self.session.hold("h")
        self.assertEqual(self.session.clock("clk", 2, until=10_000), 4)
        self.assertEqual((held.bus("a").at(0), held.value("clk", 1)), (3, "x"))
        with self.assertRaises(BatchRefused):
            self.session.edits(["stim clk 1 0", "stim nothing 1 0"])
        self.assertEqual(self.session.value("clk", 1), "1")

    def test_what_is_no_vector(self) -> None:
        for name in ("clk", "nothing", "a["):
            with self.assertRaises(ValueError):
                self.session.bus(name)
            with self.assertRaises(ValueError):
                self.session.drive(name, 0, 1)
        self.assertEqual(self.session.nets()[:7], ["a[3]", "a[2]", "a[1]", "a[0]", "b[0]", "b[1]", "clk"])
        with self.assertRaises(ValueError):
            Bus("a", [])
        self.assertEqual(Bus("a", [Wave("a[0]", changes_of(("0", "1")), 5)]).at(5), 1)


# A dump of another simulator: a bus with a range, one without, times of 100 ps, changes that are written short.
DUMP = """$timescale 100ps $end
$scope module tb $end
$var reg 1 ! clk $end
$var wire 4 " a [3:0] $end
$scope module dut $end
$var wire 2 # b $end
$var wire 1 $ c [2] $end
$upscope $end
$upscope $end
$enddefinitions $end
$dumpvars
x!
bx "
b1 #
1$
$end
#10
1!
b101 "
#25
0!
#30
bz0 "
u$
"""
NAMES = {"tb.clk": "clk", "tb.a": "in", "tb.dut.b": "b", "tb.dut.c": "c"}
EXPECTED = [
    "stim clk 0 x", "stim in[3] 0 x", "stim in[2] 0 x", "stim in[1] 0 x", "stim in[0] 0 x", "stim b[1] 0 0", "stim b[0] 0 1",
    "stim c[2] 0 1", "stim clk 10 1", "stim in[3] 10 0", "stim in[2] 10 1", "stim in[1] 10 0", "stim in[0] 10 1",
    "stim clk 25 0", "stim in[3] 30 z", "stim in[2] 30 z", "stim in[1] 30 z", "stim in[0] 30 0", "stim c[2] 30 x",
]  # fmt: skip


def token(kind: str, data: Any = None) -> Any:
    return SimpleNamespace(kind=SimpleNamespace(name=kind), data=data)


def variable(size: int, code: str, reference: str, index: Any) -> Any:
    return token("VAR", SimpleNamespace(size=size, id_code=code, reference=reference, bit_index=index))


def scalar(code: str, value: Any) -> Any:
    return token("CHANGE_SCALAR", SimpleNamespace(id_code=code, value=value))


def vector(code: str, value: Any) -> Any:
    return token("CHANGE_VECTOR", SimpleNamespace(id_code=code, value=value))


# What pyvcd says of the dump.
TOKENS = [
    token("TIMESCALE", SimpleNamespace(magnitude=SimpleNamespace(value=100), unit=SimpleNamespace(value="ps"))),
    token("SCOPE", SimpleNamespace(ident="tb")), variable(1, "!", "clk", None), variable(4, '"', "a", (3, 0)),
    token("SCOPE", SimpleNamespace(ident="dut")), variable(2, "#", "b", None), variable(1, "$", "c", 2),
    token("UPSCOPE"), token("UPSCOPE"), token("ENDDEFINITIONS"), token("DUMPVARS"),
    scalar("!", "x"), vector('"', "x"), vector("#", 1), scalar("$", "1"), token("END"),
    token("CHANGE_TIME", 10), scalar("!", "1"), vector('"', 5), token("CHANGE_TIME", 25), scalar("!", "0"),
    token("CHANGE_TIME", 30), vector('"', "z0"), scalar("$", "u"),
]  # fmt: skip


class OtherDumps(WithFolder):
    def test_points_of_tokens(self) -> None:
        self.assertEqual(list(points(TOKENS, NAMES, "100 ps")), EXPECTED)
        self.assertEqual(list(points(TOKENS, {"tb.clk": "clk"}, "10 ps")), ["stim clk 0 x", "stim clk 100 1", "stim clk 250 0"])

    def test_what_can_not_be_taken_over(self) -> None:
        with self.assertRaisesRegex(ValueError, "the dump has no tb.d, tb.e"):
            list(points(TOKENS, {"tb.e": "e", "tb.clk": "clk", "tb.d": "d"}, "1 ns"))
        # 25 times 100 ps is between 2 and 3 ns.
        with self.assertRaisesRegex(ValueError, "between 2 and 3 times 1 ns"):
            list(points(TOKENS, NAMES, "1 ns"))

    @unittest.skipIf(importlib.util.find_spec("vcd"), "this Python has pyvcd")
    def test_without_the_library(self) -> None:
        with self.assertRaisesRegex(ImportError, "pip install pyvcd"):
            stimulus_of_vcd(self.write("tb.vcd", DUMP), NAMES)

    @unittest.skipUnless(importlib.util.find_spec("vcd"), "this Python has no pyvcd (pip install pyvcd)")
    def test_points_of_a_file(self) -> None:
        self.assertEqual(stimulus_of_vcd(self.write("tb.vcd", DUMP), NAMES, "100 ps"), EXPECTED)


if __name__ == "__main__":
    unittest.main()
