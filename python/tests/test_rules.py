"""Rules that waves have to keep, over waves that are drawn here."""
import unittest

from gatebench import Violation, Wave, equal_at, no_pulse, one_hot, setup_and_hold, stable
from gatebench.values import changes_of


def wave(net: str, text: str, horizon: int = 40) -> Wave:
    return Wave(net, changes_of(tuple(text.split())), horizon)


GLITCH = wave("y", "0 x 3 1 23 0 27 1")
CLOCK = wave("clk", "0 0 10 1 15 0 20 1 25 0 30 1")


class Rules(unittest.TestCase):
    def test_no_pulse_is_shorter(self) -> None:
        found = [Violation(23, "y", "a pulse of 0 that lasts 4, and not 5 or more")]
        self.assertEqual(no_pulse(GLITCH, 5), found)
        self.assertEqual(no_pulse(GLITCH, 4), [])
        self.assertEqual(no_pulse(GLITCH, 5, start=23, end=23), found)
        self.assertEqual(no_pulse(GLITCH, 5, start=24), [])
        self.assertEqual(no_pulse(GLITCH, 5, end=22), [])

    def test_a_value_stays(self) -> None:
        self.assertEqual(stable(GLITCH, 3, 22), [])
        self.assertEqual(stable(GLITCH, 2, 27), [Violation(3, "y", "changes to 1"), Violation(23, "y", "changes to 0"), Violation(27, "y", "changes to 1")])

    def test_data_is_stable_round_an_edge(self) -> None:
        self.assertEqual(setup_and_hold(wave("d", "0 0 8 1 22 0"), CLOCK, 2, 2), [])
        self.assertEqual(
            setup_and_hold(wave("d", "0 0 9 1 10 0 11 1 21 0 30 1"), CLOCK, 2, 2),
            [
                Violation(9, "d", "changes 1 before the edge of clk at 10"),
                Violation(10, "d", "changes at the edge of clk at 10"),
                Violation(11, "d", "changes 1 behind the edge of clk at 10"),
                Violation(21, "d", "changes 1 behind the edge of clk at 20"),
                Violation(30, "d", "changes at the edge of clk at 30"),
            ],
        )
        self.assertEqual(setup_and_hold(wave("d", "0 0 14 1"), CLOCK, 2, 1, edge=0), [Violation(14, "d", "changes 1 before the edge of clk at 15")])

    def test_exactly_one_is_1(self) -> None:
        ring = [wave("a", "0 1 10 0"), wave("b", "0 0 10 1 20 0"), wave("c", "0 0 20 1")]
        self.assertEqual(one_hot(ring), [])
        late = [ring[0], wave("b", "0 0 11 1 20 0"), ring[2]]
        self.assertEqual(one_hot(late), [Violation(10, "a b c", "are 000")])
        self.assertEqual(one_hot(late, start=11), [])
        self.assertEqual(one_hot([wave("a", "0 x 5 1"), wave("b", "0 0")]), [Violation(0, "a b", "are x0")])

    def test_both_are_the_same_at_strobes(self) -> None:
        other = wave("w", "0 x 3 1")
        self.assertEqual(equal_at(GLITCH, other, [0, 10, 22, 27]), [])
        self.assertEqual(equal_at(GLITCH, other, [30, 24]), [Violation(24, "y", "is 0, and w 1")])


if __name__ == "__main__":
    unittest.main()
