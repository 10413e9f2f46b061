"""The run of a design: of each net its wave, as a list of times and values, and of each gate when it turns."""
from typing import Dict, List, NamedTuple, Tuple

from .tables import delay_to, output_of, resolved


class Run(NamedTuple):
    """Waves by the names of nets. By the names of gates the moments at which they turn, each with the moment of the evaluation
    that put the event in its place."""

    waves: Dict[str, List[Tuple[int, str]]]
    turns: Dict[str, Dict[int, int]]


class Driver:
    """What a gate drives: its current value; the event that is pending, its value, its time and the moment of the evaluation
    that put it there; and the turns so far."""

    def __init__(self, gate):
        self.gate, self.current, self.pending, self.turns = gate, "x", None, {}

    def let_due(self, time):
        """The event that is due at this time becomes current."""
        if self.pending and self.pending[1] == time:
            self.current, _, self.turns[time] = self.pending
            self.pending = None

    def evaluate(self, time, values):
        inputs = [it[-1] if "'" in it else values[it] for it in self.gate.inputs]
        value = output_of(self.gate.kind, inputs)
        if self.pending and self.pending[0] == value:
            return
        self.pending = None if value == self.current else (value, time + delay_to(value, self.gate.delays), time)


def point_at(points, time):
    """The value of an input's latest point at or before a time."""
    past = [it for it in points if it <= time]
    return points[max(past)] if past else "x"


def value_at(net, drivers, time):
    """The value of a net with these drivers."""
    return point_at(net.points, time) if net.is_input else resolved(net.kind, [it.current for it in drivers])


def next_moment(design, drivers, time):
    """The next moment at which a point or a pending event stands, or the horizon's if there is none before."""
    times = [it.pending[1] for it in drivers if it.pending]
    times += [it for net in design.nets.values() for it in net.points if it > time]
    return min([*times, design.horizon + 1])


def run(design):
    """The run of a design. Between the moments that it looks at no gate's state changes."""
    drivers = [Driver(gate) for gate in design.gates.values()]
    of, made, time = {name: [] for name in design.nets}, {name: [] for name in design.nets}, 0
    for driver in drivers:
        of[driver.gate.output].append(driver)
    while time <= design.horizon:
        for driver in drivers:
            driver.let_due(time)
        values = {name: value_at(net, of[name], time) for name, net in design.nets.items()}
        for driver in drivers:
            driver.evaluate(time, values)
        for name, value in values.items():
            if not made[name] or made[name][-1][1] != value:
                made[name].append((time, value))
        time = next_moment(design, drivers, time)
    return Run(made, {name: driver.turns for name, driver in zip(design.gates, drivers)})
