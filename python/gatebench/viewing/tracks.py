"""The changes of the rows of a page: of nets, and of vectors, whose values are hexadecimal numbers."""
from bisect import bisect_right
from typing import AbstractSet, Dict, Iterable, List, NamedTuple, Optional, Sequence, Tuple, Union

from ..asked import TOOLS
from ..limits import MOST_TIME
from ..lines import line_of
from ..questions import Questions
from ..values import Change
from ..wave import Wave
from .cuts import Cut, Cuts
from .hexadecimal import hexadecimal


class Track(NamedTuple):
    """A net has the value `values[i]` from the moment `times[i]` on. The first moment is 0."""

    times: List[int]
    values: List[str]

    @property
    def nets(self) -> "List[Track]":
        return [self]

    def value(self, place: int) -> str:
        return self.values[place]


class Vector:
    """A vector by the tracks of its bits, from the left. Its values are made when they are asked for, since most of them never
    are."""

    def __init__(self, nets: Sequence[Track]) -> None:
        self.nets = list(nets)
        self.times = sorted(set().union(*(it.times for it in nets)))

    def value(self, place: int) -> str:
        time = self.times[place]
        return hexadecimal("".join(it.values[bisect_right(it.times, time) - 1] for it in self.nets))


Row = Union[Track, Vector]


def track_of(lines: Sequence[str]) -> Track:
    """The track that the lines `T V` of an answer show."""
    return Track([int(it[:-2]) for it in lines], [it[-1] for it in lines])


# A part of a wave with more lines than this is asked for as a whole, and kept: what scrolls is then read once.
LONG = 4096


class Tracks:
    """The tracks of a version, each asked for once; of a long run what is shown of them alone, by questions for windows."""

    def __init__(self, version: Questions, horizon: int) -> None:
        self.version, self.horizon = version, horizon
        self._nets: Dict[str, Track] = {}
        self._vectors: Dict[Tuple[str, ...], Vector] = {}

    def nets(self, names: Iterable[str]) -> Dict[str, Track]:
        """The tracks of nets. Refused where the version has no such net."""
        names = list(dict.fromkeys(names))
        missing = [it for it in names if it not in self._nets]
        answers = self.version.answers([line_of("wave", it) for it in missing])
        self._nets.update(zip(missing, map(track_of, answers)))
        return {it: self._nets[it] for it in names}

    def between(self, names: Iterable[str], start: int, end: int) -> Dict[str, Track]:
        """What the tracks of nets have from `start` to `end`, both included; of some it is all. Refused as `nets` is."""
        names = list(dict.fromkeys(names))
        is_most = not 0 <= start <= end <= self.horizon or 2 * (end - start + 1) > self.horizon
        if is_most or not self.version.knows(TOOLS):
            return self.nets(names)
        missing = [it for it in names if it not in self._nets]
        answers = dict(zip(missing, self.version.answers([line_of("window", it, start, end) for it in missing])))
        self.nets(net for net, lines in answers.items() if len(lines) > LONG)
        return {it: self._nets[it] if it in self._nets else track_of(answers[it]) for it in names}

    def row(self, bits: Sequence[str]) -> Row:
        """The track of a row: of the net that it is, or of the vector of these bits."""
        tracks = self.nets(bits)
        if len(bits) == 1:
            return tracks[bits[0]]
        key = tuple(bits)
        if key not in self._vectors:
            self._vectors[key] = Vector([tracks[it] for it in bits])
        return self._vectors[key]

    def cut(self, names: Iterable[str], cuts: Cuts) -> Dict[str, Cut]:
        """Nets in parts, as the program sums them up."""
        names = list(dict.fromkeys(names))
        answers = iter(self.version.answers([line for it in names for line in cuts.lines(it)]))
        return {net: cuts.cut(value, parts) for net, [value], parts in zip(names, answers, answers)}

    def is_whole(self, bits: Iterable[str]) -> bool:
        """Whether all of these nets is known."""
        return all(it in self._nets for it in bits)

    def row_between(self, bits: Sequence[str], tracks: Dict[str, Track]) -> Row:
        """The track of a row, of what `between` has given for its nets."""
        if len(bits) == 1:
            return tracks[bits[0]]
        return self.row(bits) if self.is_whole(bits) else Vector([tracks[it] for it in bits])

    def wave(self, net: str) -> Wave:
        track = self.nets([net])[net]
        return Wave(net, tuple(map(Change, track.times, track.values)), self.horizon)

    def of(self, version: Questions, changed: AbstractSet[str] = frozenset()) -> "Tracks":
        """The tracks of a version that is the same as this one but for the nets that changed, with what is known of it."""
        found = Tracks(version, self.horizon)
        found._nets = {net: it for net, it in self._nets.items() if net not in changed}
        found._vectors = {bits: it for bits, it in self._vectors.items() if changed.isdisjoint(bits)}
        return found

    def learn(self, other: "Tracks", differing: Optional[AbstractSet[str]]) -> None:
        """Takes what is known of another version, but for nets that may differ in it, None for all."""
        if differing is not None:
            known = other.of(self.version, differing)
            self._nets.update(known._nets)
            self._vectors.update(known._vectors)


def horizon_of(version: Questions, nets: Iterable[str]) -> int:
    """The horizon of a version, the last moment about which it answers; 0 where it has none of these nets."""
    net = next((it for it in nets if answers_at(version, it, 0)), None)
    inside, outside = 0, MOST_TIME + 1
    while net and outside - inside > 1:
        middle = (inside + outside) // 2
        inside, outside = (middle, outside) if answers_at(version, net, middle) else (inside, middle)
    return inside


def answers_at(version: Questions, net: str, time: int) -> bool:
    [reply] = version.ask([line_of("value", net, time)])
    return reply.is_ok
