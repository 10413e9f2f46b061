"""What made nets change, and what their changes led to, worked out by hand."""
import unittest
from typing import List, NamedTuple, Tuple

from ..making import WithDesigns, lines_of

NONE = "none"

# A net and a moment, what made the net change then, and what its change led to.
Told = Tuple[str, str, str]


class Case(NamedTuple):
    """What it shows, the lines of a design, and what is told of its changes."""

    name: str
    design: str
    told: List[Told]


CASES = [
    Case(
        # The input is 0 and, from 10 on, 1: the gate drives 1 from 2 on, and 0 from 13 on.
        "an inverter",
        "input a; net y wire; gate g not 2 3 y a; stim a 0 0; stim a 10 1; horizon 30",
        [
            ("a 0", "stimulus", "g 2 y 1"),
            ("a 1", NONE, NONE),
            ("a 10", "stimulus", "g 13 y 0"),
            ("a 13", NONE, NONE),
            ("y 0", "beginning", ""),
            ("y 1", NONE, NONE),
            ("y 2", "g 0 a 0", ""),
            ("y 10", NONE, NONE),
            ("y 13", "g 10 a 1", ""),
            ("y 30", NONE, NONE),
        ],
    ),
    Case(
        # The second gate reads x until 2, and would turn at 14 again, past the horizon.
        "a chain of two gates",
        "input a; net m wire; net y wire; gate g not 2 3 m a; gate h not 1 1 y m; stim a 0 0; stim a 10 1; horizon 13",
        [
            ("a 0", "stimulus", "g 2 m 1"),
            ("m 0", "beginning", ""),
            ("m 2", "g 0 a 0", "h 3 y 0"),
            ("y 3", "h 2 m 1", ""),
            ("m 13", "g 10 a 1", ""),
            ("y 13", NONE, NONE),
        ],
    ),
    Case(
        # A stimulus with no point at 0 begins with x.
        "an input without a point at 0",
        "input a; net y wire; gate g buf 1 1 y a; stim a 4 1; stim a 6 1; horizon 9",
        [
            ("a 0", "beginning", ""),
            ("a 4", "stimulus", "g 5 y 1"),
            ("a 6", NONE, NONE),
            ("y 5", "g 4 a 1", ""),
        ],
    ),
    Case(
        # The second driver's 0 changes nothing; both turn at 11, from different moments on.
        "two drivers",
        "input a; input b; net y wand; gate g buf 1 1 y a; gate h buf 2 2 y b; "
        "stim a 0 0; stim b 0 0; stim b 9 1; stim a 10 1; horizon 30",
        [
            ("y 1", "g 0 a 0", ""),
            ("y 2", NONE, NONE),
            ("b 0", "stimulus", ""),
            ("y 11", "g 10 a 1 / h 9 b 1", ""),
            ("a 10", "stimulus", "g 11 y 1"),
            ("b 9", "stimulus", "h 11 y 1"),
        ],
    ),
    Case(
        # The pulse of one moment is shorter than the delay.
        "a pulse that is swallowed",
        "input a; net y wire; gate g buf 3 3 y a; stim a 0 0; stim a 10 1; stim a 11 0; horizon 30",
        [
            ("y 3", "g 0 a 0", ""),
            ("a 10", "stimulus", ""),
            ("a 11", "stimulus", ""),
            ("y 13", NONE, NONE),
        ],
    ),
    Case(
        # The event for 5 to 1 that the evaluation at 0 brings gives way to one for 5 to 0, which that at 2 brings.
        "two events for one moment",
        "input a; net y wire; gate g buf 5 3 y a; stim a 0 1; stim a 2 0; horizon 30",
        [
            ("y 5", "g 2 a 0", ""),
            ("a 0", "stimulus", ""),
            ("a 2", "stimulus", "g 5 y 0"),
        ],
    ),
    Case(
        # The evaluation at 11 finds the event that it would bring pending.
        "an event that is kept",
        "input a; input b; net y wire; gate g or 3 3 y a b; stim a 0 0; stim b 0 0; stim a 10 1; stim b 11 1; horizon 30",
        [
            ("y 3", "g 0 a 0 b 0", ""),
            ("y 13", "g 10 a 1", ""),
            ("a 10", "stimulus", "g 13 y 1"),
            ("b 11", "stimulus", ""),
        ],
    ),
    Case(
        # It stands once, where it is read first; one that does not change at that moment does not stand.
        "a net that a gate reads twice",
        "input a; input b; input c; net y wire; gate g and 1 2 y b a 1'b1 b c; "
        "stim a 0 0; stim b 0 0; stim c 5 1; stim a 10 1; stim b 10 1; horizon 30",
        [
            ("y 2", "g 0 b 0 a 0 c x", ""),
            ("y 11", "g 10 b 1 a 1", ""),
            ("b 10", "stimulus", "g 11 y 1"),
            ("c 0", "beginning", "g 2 y 0"),
            ("c 5", "stimulus", ""),
        ],
    ),
    Case(
        # The gate turns once, made by no net; a net that no gate drives is z from 0 on.
        "a gate that reads constants alone",
        "net y wire; net z wire; gate g and 4 1 y 1'b1 1'b1; horizon 9",
        [
            ("y 0", "beginning", ""),
            ("y 4", "g 0", ""),
            ("z 0", "beginning", ""),
            ("z 4", NONE, NONE),
        ],
    ),
    Case(
        # The delay to z is the turn-off delay, and that to x the least.
        "each delay",
        "input a; input e; net y wire; gate g bufif1 4 5/3 y a e; "
        "stim a 0 1; stim e 0 1; stim e 10 0; stim e 20 1; stim a 30 x; horizon 40",
        [
            ("y 4", "g 0 a 1 e 1", ""),
            ("y 13", "g 10 e 0", ""),
            ("y 24", "g 20 e 1", ""),
            ("y 33", "g 30 a x", ""),
        ],
    ),
]


class WhyAndReach(WithDesigns):
    def check_case(self, case: Case) -> None:
        lines = [line for change, _, _ in case.told for line in (f"why {change}", f"reach {change}")]
        wanted = [[*(text.split(" / ") if text else []), "ok 1"] for _, made, led in case.told for text in (made, led)]
        for line, reply, lines_wanted in zip(lines, self.behind(lines_of(case.design), lines), wanted):
            self.assertEqual(reply, lines_wanted, line)

    def test_each_change(self) -> None:
        for case in CASES:
            with self.subTest(case.name):
                self.check_case(case)


if __name__ == "__main__":
    unittest.main()
