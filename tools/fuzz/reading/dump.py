"""The dump of a run in the four-state format."""


def code(number):
    """The code of a net, by its number from 0."""
    text = chr(33 + number % 94)
    return text if number < 94 else text + code(number // 94 - 1)


def shared(one, other):
    """How many first scopes two lists of them have in common."""
    count = 0
    while count < min(len(one), len(other)) and one[count] == other[count]:
        count += 1
    return count


def variables(design):
    """The lines for the nets, each within its scopes."""
    open_scopes = []
    for number, (name, net) in enumerate(design.nets.items()):
        *scopes, last = name.split(".")
        kept = shared(open_scopes, scopes)
        yield from ["$upscope $end"] * (len(open_scopes) - kept)
        yield from (f"$scope module {it} $end" for it in scopes[kept:])
        yield f"$var {net.kind} 1 {code(number)} {last} $end"
        open_scopes = scopes
    yield from ["$upscope $end"] * len(open_scopes)


def changes(design, waves):
    """The lines for the values at 0, for each later moment with a change, and for the horizon."""
    at = {design.horizon: []}
    for number, name in enumerate(design.nets):
        for time, value in waves[name]:
            at.setdefault(time, []).append(value + code(number))
    yield from ["#0", "$dumpvars", *at.pop(0, []), "$end"]
    for time in sorted(at):
        yield from [f"#{time}", *at[time]]


def lines(design, waves):
    yield "$version gatebench $end"
    yield "$timescale {} {} $end".format(*design.unit)
    yield f"$scope module {design.name} $end"
    yield from variables(design)
    yield from ["$upscope $end", "$enddefinitions $end"]
    yield from changes(design, waves)
