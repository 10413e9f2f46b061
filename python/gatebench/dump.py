"""A value change dump (VCD), as the command `vcd` gives it, with the waves of all nets."""
from typing import Dict, Iterable, Iterator, List, Mapping, NamedTuple, Tuple

from .errors import BadReply
from .values import VALUES, Change
from .wave import Wave

# The changes of a net as a time and a value each.
Changes = List[Tuple[int, str]]


class Waves(Mapping[str, Wave]):
    """The waves of nets by their names. Each is made when it is first asked for, since most of a dump is never looked at."""

    def __init__(self, changes: Dict[str, Changes], horizon: int) -> None:
        self._changes, self._horizon = changes, horizon
        self._made: Dict[str, Wave] = {}

    def __getitem__(self, net: str) -> Wave:
        if net not in self._made:
            self._made[net] = Wave(net, tuple(map(Change._make, self._changes[net])), self._horizon)
        return self._made[net]

    def __iter__(self) -> Iterator[str]:
        return iter(self._changes)

    def __len__(self) -> int:
        return len(self._changes)


class Dump(NamedTuple):
    """What a dump says: the time unit as `1 ns`, the horizon, and the wave of each net in the order of the nets."""

    unit: str
    horizon: int
    waves: Mapping[str, Wave]


def dump_of(lines: Iterable[str]) -> Dump:
    """The dump that these lines spell. BadReply where they spell none."""
    rest = iter(lines)
    unit, names = read_head(rest)
    changes, horizon = read_changes(rest, names)
    return Dump(unit, horizon, Waves({names[code]: found for code, found in changes.items()}, horizon))


def names_of(lines: Iterable[str]) -> List[str]:
    """The names of the nets of a dump, in their order."""
    _, names = read_head(iter(lines))
    return list(names.values())


def read_head(lines: Iterator[str]) -> Tuple[str, Dict[str, str]]:
    """The time unit, and the name of the net of each code."""
    unit, scopes, names = "", [], {}  # type: str, List[str], Dict[str, str]
    for line in lines:
        words = line.split(" ")
        if words[0] == "$timescale":
            unit = " ".join(words[1:-1])
        elif words[0] == "$scope":
            scopes.append(words[2])
        elif words[0] == "$upscope":
            scopes.pop()
        elif words[0] == "$var":
            # A viewer shows the parts of a name before its last dot as scopes below the one of the design.
            names[words[3]] = ".".join([*scopes[1:], words[4]])
        elif words[0] == "$enddefinitions":
            return unit, names
    raise BadReply("the dump has no $enddefinitions")


def read_changes(lines: Iterable[str], names: Mapping[str, str]) -> Tuple[Dict[str, Changes], int]:
    """The changes of each code, and the horizon."""
    changes: Dict[str, Changes] = {code: [] for code in names}
    time = 0
    for line in lines:
        first = line[:1]
        if first == "#":
            time = int(line[1:])
        elif first in VALUES and line[1:] in changes:
            changes[line[1:]].append((time, first))
        elif first != "$":
            raise BadReply(f"{line!r} is no line of a dump")
    return changes, time
