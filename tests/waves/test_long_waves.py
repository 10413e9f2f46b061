"""A run of many changes: twelve rings, each of which has another value at each moment from 6 on."""
import unittest
from typing import Dict

from ..making import WithDesigns

RINGS = 12

# Changes of each ring, by their places in the wave.
CHANGES: Dict[int, str] = {
    0: "0 x",
    1: "1 1",
    2: "6 0",
    4_095: "4099 1",
    10_921: "10925 1",
    10_922: "10926 0",
    10_923: "10927 1",
    11_996: "12000 0",
}


class LongWaves(WithDesigns):
    def test_rings(self) -> None:
        first = ["input en"]
        for number in range(RINGS):
            first += [f"net n{number} wire", f"gate g{number} nand 1 1 n{number} en n{number}"]
        first += ["stim en 0 0", "stim en 5 1", "horizon 12000"]
        for net, reply in zip(("n0", "n5", "n11"), self.behind(first, ["wave n0", "wave n5", "wave n11"])):
            changes = reply[:-1]
            self.assertEqual((len(changes), reply[-1]), (11_997, "ok 1"), net)
            self.assertEqual({place: changes[place] for place in CHANGES}, CHANGES, net)


if __name__ == "__main__":
    unittest.main()
