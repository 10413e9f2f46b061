"""The edits of a design: each checks what it has to, in its order, and gives the design that it makes."""
from dataclasses import replace

from .design import Gate, Net
from .tables import MAX_DELAY, MAX_GATES, MAX_NAME, MAX_NETS, MAX_POINTS, MAX_TIME, TURN_OFF, Refused, fits


def check(holds, cause, word=None):
    """Refuses for this cause, with this word at fault, where it does not hold."""
    if not holds:
        raise Refused(cause, word)


def check_each(holds, words, cause):
    """Each of these words has to hold; the first that does not is at fault."""
    for word in words:
        check(holds(word), cause, word)


def is_name(name):
    """Whether it may be the name of a net, a gate or a held snapshot."""
    fine = all(33 <= ord(it) <= 126 and it != "'" for it in name)
    return fine and 0 < len(name) <= MAX_NAME and all(part not in ("", "$end") for part in name.split("."))


def check_new(name, there, most):
    check(is_name(name), "BadName", name)
    check(name not in there, "DuplicateName", name)
    check(len(there) < most, "TooMany", name)


def check_delays(delays):
    check_each(lambda it: it != 0, delays, "ZeroDelay")
    check_each(lambda it: it <= MAX_DELAY, delays, "DelayTooLarge")


def check_turn_off(kind, delays, word):
    check(len(delays) == 2 or kind in TURN_OFF, "NoTurnOff", word)


def check_wires(design, output, inputs):
    """An output and inputs of a gate: nets that are there, or constants, and no input is driven."""
    names = [output, *(it for it in inputs if "'" not in it)]
    check_each(lambda it: it in design.nets, names, "UnknownNet")
    check(not design.nets[output].is_input, "DrivenInput", output)


def with_net(design, name, net):
    return replace(design, nets={**design.nets, name: net})


def with_gate(design, name, gate):
    return replace(design, gates={**design.gates, name: gate})


def without(there, name):
    return {it: what for it, what in there.items() if it != name}


def net(design, name, kind, is_input=False):
    check_new(name, design.nets, MAX_NETS)
    return with_net(design, name, Net(kind, is_input))


def input(design, name):
    return net(design, name, "wire", True)


def dropnet(design, name):
    check(name in design.nets, "UnknownNet", name)
    check(all(name != gate.output and name not in gate.inputs for gate in design.gates.values()), "NetInUse", name)
    return replace(design, nets=without(design.nets, name))


def kind(design, name, word):
    check(name in design.nets, "UnknownNet", name)
    return with_net(design, name, replace(design.nets[name], kind=word))


def gate(design, name, word, rise, falls, output, inputs):
    delays = (rise, *falls)
    check_new(name, design.gates, MAX_GATES)
    check_delays(delays)
    check_turn_off(word, delays, delays[-1])
    check(fits(word, len(inputs)), "WrongArity", word)
    check_wires(design, output, inputs)
    return with_gate(design, name, Gate(word, delays, output, inputs))


def drop(design, name):
    check(name in design.gates, "UnknownGate", name)
    return replace(design, gates=without(design.gates, name))


def delay(design, name, rise, falls):
    delays = (rise, *falls)
    check(name in design.gates, "UnknownGate", name)
    check_delays(delays)
    check_turn_off(design.gates[name].kind, delays, delays[-1])
    return with_gate(design, name, replace(design.gates[name], delays=delays))


def type(design, name, word):
    check(name in design.gates, "UnknownGate", name)
    check(fits(word, len(design.gates[name].inputs)), "WrongArity", word)
    check_turn_off(word, design.gates[name].delays, word)
    return with_gate(design, name, replace(design.gates[name], kind=word))


def wire(design, name, output, inputs):
    check(name in design.gates, "UnknownGate", name)
    check(fits(design.gates[name].kind, len(inputs)), "WrongArity", name)
    check_wires(design, output, inputs)
    return with_gate(design, name, replace(design.gates[name], output=output, inputs=inputs))


def points_of(design, name):
    check(name in design.nets, "UnknownNet", name)
    check(design.nets[name].is_input, "NotInput", name)
    return design.nets[name].points


def with_points(design, name, points):
    return with_net(design, name, replace(design.nets[name], points=points))


def stim(design, name, time, value):
    points = points_of(design, name)
    check(time <= MAX_TIME, "TimeTooLarge", time)
    count = sum(len(it.points) for it in design.nets.values())
    check(time in points or count < MAX_POINTS, "TooMany", time)
    return with_points(design, name, {**points, time: value})


def unstim(design, name, time):
    points = points_of(design, name)
    check(time in points, "NoSuchPoint", time)
    return with_points(design, name, without(points, time))


def horizon(design, time):
    check(time <= MAX_TIME, "TimeTooLarge", time)
    return replace(design, horizon=time)
