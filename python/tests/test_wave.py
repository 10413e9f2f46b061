"""Waves as functions of time."""
import unittest

from gatebench import Change, Edge, Pulse, Wave
from gatebench.values import changes_of


def wave(text: str, horizon: int = 40, net: str = "y") -> Wave:
    return Wave(net, changes_of(tuple(text.split())), horizon)


GLITCH = wave("0 x 3 1 23 0 27 1")


class Waves(unittest.TestCase):
    def test_a_change_counts_from_its_own_moment_on(self) -> None:
        self.assertEqual([GLITCH.at(it) for it in (0, 2, 3, 22, 23, 26, 27, 40)], list("xx110011"))

    def test_there_is_no_value_outside_of_the_run(self) -> None:
        for time in (-1, 41):
            with self.assertRaises(ValueError):
                GLITCH.at(time)

    def test_edges_are_the_changes_behind_0(self) -> None:
        self.assertEqual(GLITCH.edges(), [Edge(3, "x", "1"), Edge(23, "1", "0"), Edge(27, "0", "1")])
        self.assertEqual(GLITCH.edges(to=0), [Edge(23, "1", "0")])
        self.assertEqual(GLITCH.edges(to="z"), [])

    def test_a_pulse_has_a_change_at_either_end(self) -> None:
        self.assertEqual(GLITCH.pulses(), [Pulse(3, 23, "1"), Pulse(23, 27, "0")])
        self.assertEqual(GLITCH.pulses()[1].width, 4)

    def test_pulses_shorter_than_their_width_are_none(self) -> None:
        self.assertEqual(GLITCH.pulses(shorter_than=5), [Pulse(23, 27, "0")])
        self.assertEqual(GLITCH.pulses(shorter_than=4), [])

    def test_a_wave_that_changes_once_has_no_pulse(self) -> None:
        self.assertEqual(wave("0 x 3 1").pulses(), [])

    def test_changes_between_two_moments_have_both_of_them(self) -> None:
        self.assertEqual(GLITCH.between(3, 23), (Change(3, "1"), Change(23, "0")))
        self.assertEqual(GLITCH.between(4, 22), ())

    def test_waves_are_equal_by_changes_and_horizon(self) -> None:
        self.assertEqual(wave("0 x 3 1"), wave("0 x 3 1", net="w"))
        self.assertEqual(hash(wave("0 x 3 1")), hash(wave("0 x 3 1", net="w")))
        self.assertNotEqual(wave("0 x 3 1"), wave("0 x 4 1"))
        self.assertNotEqual(wave("0 x 3 1"), wave("0 x 3 1", horizon=41))
        self.assertNotEqual(wave("0 x"), "0 x")

    def test_the_first_difference(self) -> None:
        self.assertEqual(GLITCH.first_difference(wave("0 x 3 1")), 23)
        self.assertEqual(wave("0 x 3 1").first_difference(GLITCH), 23)
        self.assertEqual(GLITCH.first_difference(wave("0 0 3 1")), 0)
        self.assertIsNone(GLITCH.first_difference(GLITCH))

    def test_a_difference_past_the_lesser_horizon_is_none(self) -> None:
        self.assertIsNone(wave("0 0 30 1", horizon=40).first_difference(wave("0 0", horizon=29)))
        self.assertEqual(wave("0 0 30 1", horizon=40).first_difference(wave("0 0", horizon=30)), 30)

    def test_each_span_that_differs(self) -> None:
        # GLITCH is x, 1 from 3, 0 from 23 and 1 from 27 on.
        late = wave("0 x 5 1 25 0 27 z 30 1")
        self.assertEqual(GLITCH.differences(late), [(3, 5), (23, 25), (27, 30)])
        self.assertEqual(late.differences(GLITCH, 4, 23), [(4, 5), (23, 24)])
        self.assertEqual(GLITCH.differences(wave("0 x 3 1", horizon=25)), [(23, 26)])
        self.assertEqual(GLITCH.differences(wave("0 x 3 0 23 1")), [(3, 27)])
        self.assertEqual((GLITCH.differences(GLITCH), GLITCH.differences(late, 41)), ([], []))

    def test_a_wave_begins_at_0(self) -> None:
        for changes in ((), (Change(1, "0"),)):
            with self.assertRaises(ValueError):
                Wave("y", changes, 40)

    def test_a_wave_shows_its_changes(self) -> None:
        self.assertEqual(repr(wave("0 x 3 1")), "<Wave y: 0 x 3 1; to 40>")
