"""The questions about a snapshot: each gives the lines of its reply."""
from itertools import groupby

from . import dump
from .edits import check
from .run import run


class Snapshot:
    """A version of a design; its run is made where a question asks for it."""

    def __init__(self, version, design):
        self.version, self.design, self.made = version, design, None

    def run(self):
        if self.made is None:
            self.made = run(self.design)
        return self.made

    def wave(self, name, time=0):
        """The changes of a net, where it is there and the time is not past the horizon."""
        check(name in self.design.nets, "UnknownNet", name)
        check(time <= self.design.horizon, "TimeTooLarge", time)
        return self.run().waves[name]

    def changes(self, name, time=0):
        """The same by their moments."""
        return dict(self.wave(name, time))


# The questions that each session knows.


def change(found):
    return ["{} {}".format(*found[0])] if found else ["none"]


def value(snapshot, name, time):
    return [[it for at, it in snapshot.wave(name, time) if at <= time][-1]]


def wave(snapshot, name):
    return [f"{time} {it}" for time, it in snapshot.wave(name)]


def next(snapshot, name, time):
    return change([it for it in snapshot.wave(name, time) if it[0] > time])


def prev(snapshot, name, time):
    return change([it for it in reversed(snapshot.wave(name, time)) if it[0] < time])


def seek(snapshot, name, time, wanted):
    return change([it for it in snapshot.wave(name, time) if it[0] > time and it[1] == wanted])


def vcd(snapshot):
    return list(dump.lines(snapshot.design, snapshot.run().waves))


# The questions of tools.


def net_lines(design, wanted):
    return [f"{name} {net.kind}" for name, net in design.nets.items() if wanted(net)]


def nets(snapshot):
    return net_lines(snapshot.design, lambda net: True)


def inputs(snapshot):
    return net_lines(snapshot.design, lambda net: net.is_input)


def gate_line(name, gate):
    rise, *others = gate.delays
    return " ".join([name, gate.kind, str(rise), "/".join(map(str, others)), gate.output, *gate.inputs])


def gates(snapshot):
    return [gate_line(name, gate) for name, gate in snapshot.design.gates.items()]


def gate(snapshot, name):
    check(name in snapshot.design.gates, "UnknownGate", name)
    return [gate_line(name, snapshot.design.gates[name])]


def gates_at(snapshot, net, is_at):
    check(net in snapshot.design.nets, "UnknownNet", net)
    return [name for name, gate in snapshot.design.gates.items() if is_at(gate)]


def drivers(snapshot, net):
    return gates_at(snapshot, net, lambda gate: gate.output == net)


def readers(snapshot, net):
    return gates_at(snapshot, net, lambda gate: net in gate.inputs)


def points(snapshot, name):
    check(name in snapshot.design.nets, "UnknownNet", name)
    check(snapshot.design.nets[name].is_input, "NotInput", name)
    return [f"{time} {it}" for time, it in sorted(snapshot.design.nets[name].points.items())]


def window(snapshot, name, begin, end, count=None):
    changes = snapshot.wave(name, end)
    check(begin <= end, "TimeTooLarge", begin)
    first = [it for time, it in changes if time <= begin][-1]
    later = [it for it in changes if begin < it[0] <= end]
    if count is not None:
        return part_lines(first, later, lambda time: ((time - begin) * count - 1) // (end - begin))
    return [f"{begin} {first}", *(f"{time} {it}" for time, it in later)]


def part_lines(value, changes, part_of):
    """The lines of the parts that these changes lie in, of a net that had this value before them."""
    lines = []
    for _, part in groupby(changes, lambda it: part_of(it[0])):
        (time, last), *more = part
        last = more[-1][1] if more else last
        lines.append(f"{time} {value} {last} {'more' if more else 'one'}")
        value = last
    return lines


# What made a change, what it led to, and what differs.


def why(snapshot, name, time):
    if time not in snapshot.changes(name, time):
        return ["none"]
    if time in snapshot.design.nets[name].points:
        return ["stimulus"]
    if time == 0:
        return ["beginning"]
    turns = ((gate, snapshot.run().turns[gate]) for gate in drivers(snapshot, name))
    return [turn_line(snapshot, gate, of[time]) for gate, of in turns if time in of]


def turn_line(snapshot, gate, since):
    """A gate that turns from this moment on, and the nets that made it."""
    read = [name for name in dict.fromkeys(snapshot.design.gates[gate].inputs) if name in snapshot.design.nets]
    changes = ((name, snapshot.changes(name)) for name in read)
    return " ".join([gate, str(since), *(f"{name} {of[since]}" for name, of in changes if since in of)])


def reach(snapshot, name, time):
    if time not in snapshot.changes(name, time):
        return ["none"]
    found = []
    for gate in readers(snapshot, name):
        output = snapshot.design.gates[gate].output
        changes = snapshot.changes(output)
        turns = (moment for moment, since in snapshot.run().turns[gate].items() if since == time)
        found += [f"{gate} {moment} {output} {changes[moment]}" for moment in turns if moment in changes]
    return found


def first_difference(snapshot, other, name):
    """The first moment at which a net has another value in the one than in the other, or none; 0 where only one of them has it."""
    if not (name in snapshot.design.nets and name in other.design.nets):
        return 0
    changes, last = (snapshot.changes(name), other.changes(name)), min(snapshot.design.horizon, other.design.horizon)
    values = ["", ""]
    for time in sorted({time for of in changes for time in of if time <= last}):
        values = [of.get(time, before) for of, before in zip(changes, values)]
        if values[0] != values[1]:
            return time
    return None


def diff(snapshot, other):
    """Of nets with the same moment those of the snapshot that is asked come first, in its order."""
    names = dict.fromkeys([*snapshot.design.nets, *other.design.nets])
    found = [(first_difference(snapshot, other, name), name) for name in names]
    return [f"{name} {time}" for time, name in sorted((it for it in found if it[0] is not None), key=lambda it: it[0])]
