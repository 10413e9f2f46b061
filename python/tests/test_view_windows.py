"""What a page draws of waves: windows, vectors, rows."""
import time
import unittest

from gatebench.viewing.rows import Row, rows_of
from gatebench.viewing.cuts import Cuts
from gatebench.viewing.hexadecimal import hexadecimal
from gatebench.viewing.tracks import Track, Vector
from gatebench.viewing.windows import differing, spans_of

BUSY = Track([0, 1, 2, 3, 10, 20], ["0", "1", "0", "1", "0", "1"])


class Windows(unittest.TestCase):
    def test_few_changes_stand_as_they_are(self) -> None:
        self.assertEqual(spans_of(BUSY, 2, 10, 5), [(2, "0"), (3, "1"), (10, "0")])

    def test_a_part_with_several_changes_is_many(self) -> None:
        self.assertEqual(spans_of(BUSY, 0, 29, 3), [(0, "0"), (0, "*"), (10, "1"), (10, "0"), (20, "1")])

    def test_parts_with_many_changes_that_touch_are_one(self) -> None:
        clock = Track(list(range(100)), ["0", "1"] * 50)
        self.assertEqual(spans_of(clock, 0, 99, 10), [(0, "0"), (0, "*"), (100, "1")])

    def test_differences_are_exact_or_widened_to_parts(self) -> None:
        other = Track([0, 1, 2, 3, 10, 25], ["0", "1", "0", "1", "0", "1"])
        self.assertEqual(differing(BUSY, other, 0, 29, 100), [(20, 25)])
        self.assertEqual(differing(BUSY, other, 0, 29, 3), [(20, 30)])
        self.assertEqual(differing(BUSY, BUSY, 0, 29, 3), [])

    def test_a_million_changes_take_no_longer_than_the_pixels(self) -> None:
        clock = Track(list(range(1_000_000)), ["0", "1"] * 500_000)
        start = time.perf_counter()
        spans = spans_of(clock, 0, 999_999, 3000)
        self.assertEqual(spans, [(0, "0"), (0, "*"), (1_000_000, "1")])
        self.assertLess(time.perf_counter() - start, 1)


class Parts(unittest.TestCase):
    """What the program says of a window in parts. The moments behind 0 up to 29 in three parts are 1 to 9, 10 to 19 and 20 to 29."""

    cuts = Cuts(0, 29, 3)
    busy = ["1 0 1 more", "10 1 0 one", "20 0 1 one"]

    def test_a_part_with_several_changes_is_many(self) -> None:
        spans = self.cuts.spans([self.cuts.cut("0", self.busy)])
        self.assertEqual(spans, [(0, "0"), (1, "*"), (10, "1"), (10, "0"), (20, "1")])

    def test_a_net_that_does_not_change(self) -> None:
        self.assertEqual(self.cuts.spans([self.cuts.cut("z", [])]), [(0, "z")])
        self.assertEqual(Cuts(7, 7, 3).spans([Cuts(7, 7, 3).cut("1", [])]), [(7, "1")])

    def test_parts_with_many_changes_that_touch_are_one(self) -> None:
        spans = self.cuts.spans([self.cuts.cut("x", ["3 x 1 more", "12 1 0 more", "21 0 1 one"])])
        self.assertEqual(spans, [(0, "x"), (1, "*"), (20, "0"), (21, "1")])

    def test_a_vector(self) -> None:
        # At 5 both bits change, in the second part one and then the other, in the last one alone.
        left = self.cuts.cut("0", ["5 0 1 one", "12 1 0 one"])
        right = self.cuts.cut("1", ["5 1 0 one", "15 0 1 one", "25 1 x one"])
        self.assertEqual(self.cuts.spans([left, right]), [(0, "1"), (5, "2"), (10, "*"), (20, "1"), (25, "x")])

    def test_more_parts_than_moments(self) -> None:
        cuts = Cuts(5, 8, 100)
        self.assertEqual(cuts.spans([cuts.cut("0", ["6 0 1 one", "8 1 0 one"])]), [(5, "0"), (6, "1"), (8, "0")])
        self.assertEqual([cuts.begin(cuts.number(it)) for it in (6, 7, 8)], [6, 7, 8])

    def test_the_question(self) -> None:
        self.assertEqual(self.cuts.lines("a[1]"), ["value a[1] 0", "window a[1] 0 29 3"])


class Vectors(unittest.TestCase):
    def test_the_value_is_that_of_all_bits(self) -> None:
        left, right = Track([0, 5], ["x", "1"]), Track([0, 5, 7], ["0", "1", "0"])
        self.assertEqual(spans_of(Vector([left, right]), 0, 9, 10), [(0, "x"), (5, "3"), (7, "2")])
        changed = Vector([left, Track([0, 5, 8], ["0", "1", "0"])])
        self.assertEqual(differing(Vector([left, right]), changed, 0, 9, 10), [(7, 8)])

    def test_digits(self) -> None:
        for bits, wanted in (("1010", "a"), ("10000", "10"), ("1zzzz", "1z"), ("0x1111", "xf"), ("zz01", "x")):
            self.assertEqual(hexadecimal(bits), wanted, bits)


class Rows(unittest.TestCase):
    def test_bits_of_a_vector_are_a_row(self) -> None:
        nets = ["clk", "u.q[1]", "u.q[0]", "m[3]"]
        self.assertEqual(rows_of(nets), [Row("clk", ["clk"]), Row("u.q", ["u.q[1]", "u.q[0]"]), Row("m[3]", ["m[3]"])])

    def test_bits_beside_a_net_with_the_name_of_their_vector_stay_nets(self) -> None:
        self.assertEqual([it.name for it in rows_of(["q", "q[1]", "q[0]"])], ["q", "q[1]", "q[0]"])
