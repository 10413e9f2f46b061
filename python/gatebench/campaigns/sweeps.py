"""Sweeps of delays and seeds of stimulus as what-ifs."""
import random
from typing import Iterator, List, Sequence

from ..limits import MOST_DELAY
from ..lines import line_of
from ..netlist import Gate
from .what_if import WhatIf


def each_delay(gates: Sequence[Gate], delays: Sequence[int]) -> Iterator[WhatIf]:
    """Each gate with each of these as its rise and its fall, one after another. A turn-off delay stays."""
    for gate in gates:
        for delay in delays:
            yield delayed(f"{gate.name} takes {delay}", gate.module, [gate], [gate.delayed(delay, delay, gate.off)])


def scaled(gates: Sequence[Gate], percents: Sequence[int]) -> Iterator[WhatIf]:
    """Each gate with its delays at each of these percents, one after another."""
    for gate in gates:
        for percent in percents:
            yield delayed(f"{gate.name} at {percent} %", gate.module, [gate], [at_percent(gate, percent)])


def spread(gates: Sequence[Gate], percent: int, seeds: Sequence[int]) -> Iterator[WhatIf]:
    """All gates at once, each with its delays changed by a number of percents of its own, for each seed another one."""
    for seed in seeds:
        numbers = random.Random(seed)
        edits = [at_percent(gate, 100 - percent + below(numbers, 2 * percent + 1)) for gate in gates]
        yield delayed(f"delays of seed {seed}", "", gates, edits)


def stimuli(inputs: Sequence[str], period: int, horizon: int, seeds: Sequence[int]) -> Iterator[WhatIf]:
    """These inputs with a 0 or a 1 every `period` time units, for each seed others. They must have no points before."""
    for seed in seeds:
        numbers = random.Random(seed)
        edits, undo = [], []
        for time in range(0, horizon + 1, period):
            for net in inputs:
                edits.append(line_of("stim", net, time, below(numbers, 2)))
                undo.append(line_of("unstim", net, time))
        yield WhatIf(f"stimulus of seed {seed}", "", tuple(edits), tuple(undo))


def below(numbers: random.Random, end: int) -> int:
    """A number from 0 up to, but not at, `end`. Python keeps what `random` gives for a seed the same for ever."""
    return int(numbers.random() * end)


def at_percent(gate: Gate, percent: int) -> str:
    """The edit that gives a gate its delays at this percent, rounded to the next whole number, and 1 at least."""

    def part(delay: int) -> int:
        return min(MOST_DELAY, max(1, (delay * percent + 50) // 100))

    return gate.delayed(part(gate.rise), part(gate.fall), None if gate.off is None else part(gate.off))


def delayed(name: str, module: str, gates: Sequence[Gate], edits: List[str]) -> WhatIf:
    return WhatIf(name, module, tuple(edits), tuple(it.delayed(it.rise, it.fall, it.off) for it in gates))
