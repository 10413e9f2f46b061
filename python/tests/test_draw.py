"""Drawings of waves, as text, as SVG, for WaveDrom and in notebooks."""
import json
import re
import unittest
import xml.etree.ElementTree as ElementTree
from typing import Dict, List

from gatebench import Difference, Differences, Session, Wave, wavedrom
from gatebench.draw_svg import HEIGHT, draw_svg
from gatebench.draw_text import ASCII, UNICODE, draw_text
from gatebench.picture import Picture, Span, round_step, spans, window
from gatebench.values import changes_of

from .support import INVERTER

SVG = "{http://www.w3.org/2000/svg}"


def wave(net: str, text: str, horizon: int = 20) -> Wave:
    return Wave(net, changes_of(tuple(text.split())), horizon)


A, Y = wave("a", "0 0 10 1"), wave("y", "0 x 2 1 13 0 15 z")


class Pictures(unittest.TestCase):
    def test_spans_begin_and_end_with_the_window(self) -> None:
        self.assertEqual(spans(Y, 0, 20), [Span(0, 2, "x"), Span(2, 13, "1"), Span(13, 15, "0"), Span(15, 21, "z")])
        self.assertEqual(spans(Y, 2, 13), [Span(2, 13, "1"), Span(13, 14, "0")])
        self.assertEqual(spans(Y, 5, 5), [Span(5, 6, "1")])

    def test_steps_are_round_numbers(self) -> None:
        self.assertEqual([round_step(it) for it in (1, 2, 3, 5, 6, 10, 11, 21, 99)], [1, 2, 5, 5, 10, 10, 20, 50, 100])

    def test_marks_are_multiples_of_a_step_in_the_window(self) -> None:
        self.assertEqual(Picture([A], 3, 20, "1 ns").marks(4), [5, 10, 15, 20])
        self.assertEqual(Picture([A], 0, 9, "1 ns").marks(10), [0])

    def test_a_window_lies_in_the_run(self) -> None:
        for start, end in ((-1, 5), (6, 5), (0, 21)):
            with self.assertRaises(ValueError):
                window([A], "1 ns", 20, start, end)
        self.assertEqual(window([A], "1 ns", 20, 20, 20).moments, 1)


    def test_where_two_waves_differ(self) -> None:
        self.assertEqual(Y.differences(wave("y", "0 x 4 1"), 0, 20), [(2, 4), (13, 21)])
        self.assertEqual(Y.differences(wave("y", "0 x 4 1"), 3, 13), [(3, 4), (13, 14)])
        self.assertEqual(Y.differences(Y, 0, 20), [])


class Texts(unittest.TestCase):
    def test_a_cell_is_a_moment(self) -> None:
        self.assertEqual(
            draw_text(Picture([A, Y], 0, 20, "1 ns"), 100, ASCII),
            "moment  0         10        20\n"
            "        |         |         |\n"
            "a       __________-----------\n"
            "y       xx-----------__zzzzzz\n",
        )

    def test_the_signs_of_a_terminal(self) -> None:
        self.assertEqual(
            draw_text(Picture([Y], 0, 20, "1 ns"), 100, UNICODE).splitlines()[2], "y       ╳╳▔▔▔▔▔▔▔▔▔▔▔▁▁╌╌╌╌╌╌"
        )

    def test_a_window(self) -> None:
        self.assertEqual(
            draw_text(Picture([A, Y], 8, 14, "1 ns"), 100, ASCII),
            "moment    10\n          |\na       __-----\ny       -----__\n",
        )

    def test_many_moments_share_a_cell_and_no_pulse_is_lost(self) -> None:
        # 100 moments in 20 cells of 5: a change a cell shows its new value, two show that there are two.
        pulse = wave("p", "0 0 52 1 53 0 71 1", 99)
        lines = draw_text(Picture([pulse], 0, 99, "10 ps"), 28, ASCII).splitlines()
        self.assertEqual(lines[0], "moment  0         50")
        self.assertEqual(lines[1], "        |         |")
        self.assertEqual(lines[2], "p       __________#___------")
        self.assertEqual(lines[3], "one cell is 5 x 10 ps; # is more than one change")

    def test_long_names_keep_their_room(self) -> None:
        lines = draw_text(Picture([wave("n" * 90, "0 0"), A], 0, 20, "1 ns"), 100, ASCII).splitlines()
        self.assertEqual(lines[2], "n" * 90 + "  " + "_" * 11)
        self.assertEqual(lines[3], "a" + " " * 91 + "_" * 5 + "-" * 6)

    def test_another_version_stands_below(self) -> None:
        picture = window([A, Y], "1 ns", 20, 0, 20, [wave("y", "0 x 4 1", 9)])
        self.assertEqual(draw_text(picture, 100, ASCII).splitlines()[2:], [
            "a         __________-----------", "y         xx-----------__zzzzzz", "  before  xxxx------",
        ])  # fmt: skip

    def test_a_drawing_is_no_wider_than_wanted(self) -> None:
        for width in (40, 57, 80):
            text = draw_text(Picture([wave("y", "0 0 500 1", 1000)], 0, 1000, "1 ns"), width, ASCII)
            self.assertLessEqual(max(map(len, text.splitlines()[:3])), width)


class WaveDrom(unittest.TestCase):
    def test_a_cell_is_as_long_as_the_changes_allow(self) -> None:
        waves = [wave("a", "0 0 10 1"), wave("y", "0 x 4 1 14 z")]
        # The changes stand at 4, 10 and 14: cells of 2, 11 of them for 21 moments.
        self.assertEqual(json.loads(wavedrom(Picture(waves, 0, 20, "1 ns"))), {
            "signal": [{"name": "a", "wave": "0....1....."}, {"name": "y", "wave": "x.1....z..."}],
            "head": {"text": "from 0 on, a cell is 2 x 1 ns"},
        })  # fmt: skip

    def test_a_window_without_changes_is_one_cell(self) -> None:
        self.assertEqual(json.loads(wavedrom(Picture([A], 12, 18, "1 ns")))["signal"], [{"name": "a", "wave": "1"}])


class Notebooks(unittest.TestCase):
    def test_a_wave_shows_its_whole_run(self) -> None:
        [row] = ElementTree.fromstring(Y._repr_svg_()).findall(SVG + "g")
        self.assertEqual(row.findtext(SVG + "title"), "y: x at 0, 1 at 2, 0 at 13, z at 15")

    def test_a_session_shows_its_ports(self) -> None:
        session = Session(text=INVERTER, horizon=20)
        text = session._repr_html_()
        self.assertTrue(text.startswith("<p>the text: 2 of 2 nets, to 20</p><svg "))
        session.close()
        self.assertEqual(session._repr_html_(), "<p>&lt;Session of the text, ended&gt;</p>")

    def test_differences_are_a_table(self) -> None:
        self.assertEqual(Differences([Difference(3, "<y>", "0", None)])._repr_html_(), (
            "<table><tr><th>from</th><th>net</th><th>before</th><th>now</th></tr>"
            "<tr><td>3</td><td>&lt;y&gt;</td><td>0</td><td>not there</td></tr></table>"
        ))  # fmt: skip
        self.assertEqual(Differences()._repr_html_(), "<p>no net differs</p>")


class Svgs(unittest.TestCase):
    def drawing(self, *waves: Wave, end: int = 20) -> ElementTree.Element:
        return ElementTree.fromstring(draw_svg(Picture(waves, 0, end, "1 ns")))

    def test_each_net_has_a_row_with_its_name_and_its_changes(self) -> None:
        rows = self.drawing(A, Y).findall(SVG + "g")
        self.assertEqual([row.findtext(SVG + "text") for row in rows], ["a", "y"])
        self.assertEqual(rows[1].findtext(SVG + "title"), "y: x at 0, 1 at 2, 0 at 13, z at 15")

    def test_names_are_escaped(self) -> None:
        rows = self.drawing(wave("<&>", "0 0")).findall(SVG + "g")
        self.assertEqual(rows[0].findtext(SVG + "text"), "<&>")

    def test_a_rise_is_one_edge_from_the_bottom_to_the_top(self) -> None:
        [row] = self.drawing(A).findall(SVG + "g")
        [x0, y0, x1, x2, y2, x3] = self.numbers(row, "wave")
        self.assertEqual((x1, y0 - y2), (x2, HEIGHT))
        self.assertEqual(str(row.findall(SVG + "path")[0].get("d")).count("M"), 1)
        # 0 for 10 of 21 moments.
        self.assertAlmostEqual((x1 - x0) / (x3 - x0), 10 / 21, places=3)

    def test_x_is_a_field_and_z_a_line_in_the_middle(self) -> None:
        [row] = self.drawing(Y).findall(SVG + "g")
        [field] = row.findall(SVG + "rect")
        self.assertEqual(field.get("class"), "x")
        top, left = float(str(field.get("y"))), float(str(field.get("x")))
        self.assertEqual(float(str(field.get("height"))), HEIGHT)
        [z0, y, z1] = self.numbers(row, "z")
        self.assertEqual(y, top + HEIGHT / 2)
        scale = (z1 - left) / 21
        self.assertAlmostEqual(z0, left + 15 * scale, delta=0.1)
        self.assertAlmostEqual(float(str(field.get("width"))), 2 * scale, delta=0.1)

    def test_the_shortest_x_and_z_are_seen(self) -> None:
        [row] = self.drawing(wave("y", "0 0 5 x 6 0 8 z 9 0", 100_000), end=100_000).findall(SVG + "g")
        [field] = row.findall(SVG + "rect")
        self.assertGreaterEqual(float(str(field.get("width"))), 1)
        [start, _, end] = self.numbers(row, "z")
        self.assertGreaterEqual(end - start, 0.9)

    def test_the_axis_has_its_moments_and_the_unit(self) -> None:
        texts = [it.text for it in self.drawing(A, Y).findall(SVG + "text")]
        self.assertEqual(texts, ["1 ns", "0", "2", "4", "6", "8", "10", "12", "14", "16", "18", "20"])

    def test_another_version_stands_behind_and_what_differs_is_shaded(self) -> None:
        # y is x up to 2, and 0 from 13 to 15 and z then; before it rose at 4, and stayed 1.
        before = wave("y", "0 x 4 1")
        root = ElementTree.fromstring(draw_svg(window([A, Y], "1 ns", 20, 0, 20, [before])))
        a, y = root.findall(SVG + "g")
        self.assertEqual([it.get("class") for it in a.findall(SVG + "rect") + a.findall(SVG + "path")], ["wave"])
        fields = {str(it.get("class")): [] for it in y.findall(SVG + "rect")}  # type: Dict[str, List[List[float]]]
        for it in y.findall(SVG + "rect"):
            fields[str(it.get("class"))].append([float(str(it.get("x"))), float(str(it.get("width")))])
        [(left, ghost)], [(_, x)] = fields["ghost"], fields["x"]
        scale = x / 2
        self.assertAlmostEqual(ghost, 4 * scale, delta=0.1)
        for (start, width), (begin, length) in zip(fields["differs"], [(2, 2), (13, 8)]):
            self.assertAlmostEqual(start - left, begin * scale, delta=0.5)
            self.assertAlmostEqual(width, length * scale, delta=0.5)
        self.assertEqual(len(fields["differs"]), 2)

    def numbers(self, row: ElementTree.Element, style: str) -> List[float]:
        [path] = [it for it in row.findall(SVG + "path") if it.get("class") == style]
        return [float(it) for it in re.findall(r"[\d.]+", str(path.get("d")))]
