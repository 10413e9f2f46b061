"""As many nets, gates and points as a design may have, the last one and one too many; as many edits as a batch keeps."""
import unittest
from typing import Callable, List, Tuple

from ..making import MOST_EDITS, WithDesigns, batch, batches

# A line, and why it is refused, or nothing where it is accepted.
Row = Tuple[str, str]


class Limits(WithDesigns):
    def check_limit(self, first: List[str], part: Callable[[int], str], count: int, rows: List[Row]) -> None:
        """Behind a design with so many parts, each made by its number, each line is accepted or is refused for this cause."""
        made = batches([part(number) for number in range(count)])
        replies = self.replies_to([*first, *made, *(line for line, _ in rows)])
        self.assertEqual({said.split()[0] for reply in replies[: -len(rows)] for said in reply}, {"ok"})
        for (line, cause), reply in zip(rows, replies[-len(rows) :]):
            self.assertEqual(reply if cause else reply[0].split()[:1], [f"no {cause}"] if cause else ["ok"], line)

    def test_65536_nets(self) -> None:
        rows = [
            ("net y wire", ""),
            ("dropnet y", ""),
            ("input y", ""),
            ("dropnet y", ""),
            ("net y wire", ""),
            ("net z wire", "13 TooMany"),
            ("input z", "13 TooMany"),
            ("input y", "3 DuplicateName"),
        ]
        self.check_limit([], lambda number: f"net n{number} wire", 65_535, rows)

    def test_65536_gates(self) -> None:
        rows = [
            ("gate h buf 1 1 y a", ""),
            ("gate k buf 0 1 m", "13 TooMany"),
            ("gate h buf 0 1 m", "3 DuplicateName"),
        ]
        self.check_limit(["input a", "net y wire"], lambda number: f"gate g{number} buf 1 1 y a", 65_535, rows)

    def test_1048576_points(self) -> None:
        rows = [
            ("stim b 0 1", ""),
            ("unstim b 0", ""),
            ("stim b 3 1", ""),
            ("stim b 0 1", "13 TooMany"),
            ("stim b 3 0", ""),
            ("stim b 1099511627777 0", "11 TimeTooLarge"),
        ]
        self.check_limit(["input a", "input b"], lambda number: f"stim a {number} 1", 1_048_575, rows)

    def test_4096_edits(self) -> None:
        edits = ["input a", *(f"horizon {time}" for time in range(1, MOST_EDITS))]
        self.assertEqual(self.shown_behind([], batch(edits)), "input a wire / horizon 4095")


if __name__ == "__main__":
    unittest.main()
