#!/usr/bin/env python3
"""Which single stuck-at faults of two circuits does their stimulus show?"""
import argparse
import os
import sys
import time
from typing import List, NamedTuple, Optional, Sequence

HERE = os.path.dirname(os.path.abspath(__file__))
sys.path.insert(0, os.path.join(HERE, "..", "..", "..", "python"))

from gatebench import Netlist, netlist_of  # noqa: E402
from gatebench.campaigns import Bench, Detects, Verdict, WhatIf, bench_of, faults_of, faults_report, run_all  # noqa: E402


class Test(NamedTuple):
    """A circuit with its stimulus: a vector of bits for its inputs every `period` time units."""

    design: str
    delay: Optional[int]
    period: int
    vectors: Sequence[str]

    def text(self) -> str:
        with open(self.design, encoding="ascii") as file:
            return file.read()

    def netlist(self) -> Netlist:
        return netlist_of(self.text(), self.delay)

    def faults(self) -> List[WhatIf]:
        return list(faults_of(self.netlist(), self.netlist().outputs))

    def bench(self) -> Bench:
        netlist = self.netlist()
        lines = [
            f"stim {net} {place * self.period} {bit}"
            for place, vector in enumerate(self.vectors)
            for net, bit in zip(netlist.inputs, vector)
        ]
        horizon = self.period * len(self.vectors) - 1
        return bench_of(self.text(), ["begin", *lines, "commit"], netlist.outputs, horizon=horizon, delay=self.delay)

    def judge(self) -> Detects:
        """Outputs are compared at the end of each period, when all has come to rest."""
        return Detects(tuple(range(self.period - 1, self.period * len(self.vectors), self.period)))

    def verdicts(self) -> List[Verdict]:
        return run_all(self.bench(), self.faults(), self.judge())


# Pairs of numbers whose products show each fault of the multiplier that any pair shows.
PAIRS = [(15, 15), (8, 15), (7, 1), (15, 14), (7, 15), (3, 15), (14, 12), (12, 3), (6, 8), (13, 7), (9, 9)]


def vector_of(*numbers: int, bits: int = 4) -> str:
    """The bits of some numbers one after another, of each the lowest first."""
    return "".join(f"{number:0{bits}b}"[::-1] for number in numbers)


C17 = Test(os.path.join(HERE, "..", "c17", "design.v"), 2, 20, [vector_of(it, bits=5) for it in range(32)])
MULTIPLIER = Test(os.path.join(HERE, "mult4.v"), None, 60, [vector_of(*it) for it in PAIRS])
ALL_PAIRS = MULTIPLIER._replace(vectors=[vector_of(a, b) for a in range(16) for b in range(16)])


def main() -> None:
    options = argparse.ArgumentParser(description=__doc__)
    options.add_argument("--all-pairs", action="store_true", help="multiply all 256 pairs of numbers, and not only 11")
    for test in (C17, ALL_PAIRS if options.parse_args().all_pairs else MULTIPLIER):
        since = time.perf_counter()
        faults, verdicts = test.faults(), test.verdicts()
        seconds = time.perf_counter() - since
        print(f"{test.netlist().name}: {len(test.vectors)} vectors, {1000 * seconds / len(faults):.2f} ms a fault")
        for line in faults_report(faults, verdicts):
            print(f"  {line}")


if __name__ == "__main__":
    main()
