"""The time and memory that gatebench takes for an input grow as the input does, whatever it is.

Each input of slow_inputs.py is run at a size and at eight times that. Eight times as much of an input may take up to 24
times as much, of time and of memory: what grows as the input does takes eight, or a little more, and its square 64. So no
absolute time counts. A pair that is over is measured again, in case that something else held the machine back."""
import unittest
from typing import Dict

from .slow_inputs import SLOW, Cost, Slow, run
from .support import WithProgram

TIMES = 8
MOST = 24
ROUNDS = 10
# What a run may have at most: a square would otherwise take minutes and the machine's memory.
SECONDS = 60
MEMORY = 2 * 10**9
# Below this memory is what any run takes, and not the input's.
LEAST_MEMORY = 1 << 21


def nearest(first: Cost, second: Cost) -> Cost:
    """Of two runs over one input the least time, the most memory, and what went wrong, if anything did: other work on the machine
    makes a time longer, and a system with many processors may count some pages late."""
    return Cost(min(first.seconds, second.seconds), max(first.memory, second.memory), first.given, first.wrong or second.wrong)


class Growth(WithProgram):
    variable = "GATEBENCH"

    def check(self, slow: Slow) -> None:
        costs: Dict[int, Cost] = {}
        for _ in range(ROUNDS):
            for size in (slow.small, TIMES * slow.small):
                cost = run(self.program, slow, size, self.folder, SECONDS, MEMORY)
                self.assertEqual(cost.wrong, "", f"{size} {slow.counts}")
                costs[size] = nearest(costs.get(size, cost), cost)
            small, large = costs.values()
            if large.seconds <= MOST * small.seconds and large.memory <= MOST * max(small.memory, LEAST_MEMORY):
                return
        self.fail(f"{TIMES} times {slow.small} {slow.counts}: {small.seconds:.3f} s and {small.memory} bytes became "
                  f"{large.seconds:.3f} s and {large.memory} bytes")  # fmt: skip

    def test_time_and_memory_grow_as_inputs_do(self) -> None:
        for slow in SLOW:
            if slow.small:
                with self.subTest(slow.name):
                    self.check(slow)


if __name__ == "__main__":
    unittest.main()
