"""Codes of many nets in dumps."""
import unittest
from typing import List, Tuple

from ..making import WithDesigns, batches

# How many nets there are, the heads of the last two, and the values of these.
LAST_TWO: List[Tuple[int, str, str]] = [
    (95, "$var wire 1 ~ n93 $end\n$var wire 1 !! n94 $end\n$upscope $end\n", "z~\nz!!\n$end\n#5\n"),
    (8_931, "$var wire 1 ~~ n8929 $end\n$var wire 1 !!! n8930 $end\n$upscope $end\n", "z~~\nz!!!\n$end\n#5\n"),
]

# The codes of 299, 255 and 256: 299 is 17 + 94 * 3, 255 is 67 + 94 * 2, 256 is 68 + 94 * 2.
FAR_APART = ["stim n299 5 1", "stim n0 5 1", "stim n256 7 1", "stim n255 7 1"]
FAR_APART_DUMP = '\nx2#\n$end\n#5\n1!\n12#\n#7\n1d"\n1e"\n#9\n'


class Codes(WithDesigns):
    def dump_behind(self, lines: List[str]) -> str:
        """The dump behind lines that are all accepted."""
        *made, dump = self.replies_to([*lines, "vcd"])
        self.assertEqual({reply[0].split()[0] for reply in made}, {"ok"})
        return "".join(f"{line}\n" for line in dump[:-1])

    def test_codes_of_two_and_of_three_bytes(self) -> None:
        for count, heads, values in LAST_TWO:
            with self.subTest(count):
                nets = [f"net n{number} wire" for number in range(count)]
                dump = self.dump_behind(["horizon 5", *batches(nets)])
                self.assertEqual([dump.count(part) for part in (heads, values, "\nz")], [1, 1, count])

    def test_changes_far_apart(self) -> None:
        inputs = [f"input n{number}" for number in range(300)]
        dump = self.dump_behind(["horizon 9", *batches([*inputs, *FAR_APART])])
        self.assertEqual(dump.count(FAR_APART_DUMP), 1)


if __name__ == "__main__":
    unittest.main()
