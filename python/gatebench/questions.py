"""A method for each question about the waves of a version."""
from typing import Dict, List, Optional, Sequence, Tuple

from . import replay
from .asked import REACH, TIME_TOO_LARGE, TOOLS, WHY
from .bus import Bus
from .dump import Dump, dump_of
from .errors import BadReply
from .lines import Word, line_of
from .origins import Effect, Origin, effects_of, nets_read, origin_of
from .stimulus import bits_among
from .structure import Structure
from .values import Change, GivenValue, change_of, value_of
from .wave import Wave


class Questions(Structure):
    """The questions about waves. Refused where the program refuses one: a net is not there, a moment is past the horizon."""

    # Where the horizon was last: most often it still is.
    _last_horizon = 1000

    def value(self, net: str, time: int) -> str:
        """The value of a net at a moment."""
        return value_of(self._answer("value", net, time))

    def wave(self, net: str) -> Wave:
        """The wave of a net."""
        return self.waves(net)[net]

    def waves(self, *nets: str) -> Dict[str, Wave]:
        """The waves of some nets, asked for in one block. `dump` has those of all nets."""
        answers = self.answers([line_of("wave", net) for net in nets])
        horizon = self._horizon(nets[0]) if nets else 0
        return {net: Wave(net, tuple(map(change_of, lines)), horizon) for net, lines in zip(nets, answers)}

    def window(self, net: str, start: int, end: int) -> Tuple[Change, ...]:
        """The value of a net at the moment `start`, and its changes behind it up to `end`, both included: what a long wave has
        there, without the rest of it. A program that does not know the question is asked for all of the wave."""
        if start > end:
            raise ValueError(f"a window ends at or behind its start, and {end} is before {start}")
        if self.knows(TOOLS):
            return tuple(map(change_of, self.answer(line_of("window", net, start, end))))
        _, [first], changes = self.answers([line_of("value", net, end), line_of("value", net, start), line_of("wave", net)])
        return (Change(start, value_of(first)), *(it for it in map(change_of, changes) if start < it.time <= end))

    def bus(self, name: str) -> Bus:
        """The waves of a vector: of the nets `name[..]`. ValueError where there is none."""
        return Bus(name, list(self.waves(*bits_among(name, self.nets())).values()))

    def next(self, net: str, time: int) -> Optional[Change]:
        """The first change after a moment, None where there is none."""
        return optional_change(self._answer("next", net, time))

    def prev(self, net: str, time: int) -> Optional[Change]:
        """The last change before a moment, None where there is none. The value at 0 counts as a change."""
        return optional_change(self._answer("prev", net, time))

    def seek(self, net: str, time: int, value: GivenValue) -> Optional[Change]:
        """The first change after a moment to a value, None where there is none."""
        return optional_change(self._answer("seek", net, time, value_of(value)))

    def why(self, net: str, time: int) -> Optional[Origin]:
        """What made the change of a net at a moment, None where it does not change then. Of a program that does not know the question
        the whole waves of what is read are asked for, and it is worked out from them."""
        return origin_of(self.answer(line_of("why", net, time))) if self.knows(WHY) else worked_out_origin(self, net, time)

    def reach(self, net: str, time: int) -> List[Effect]:
        """What the change of a net at a moment led to, by the gates that read it, in their order: nothing where it does not change then.
        A program that does not know the question is asked as for `why`."""
        return effects_of(self.answer(line_of("reach", net, time))) if self.knows(REACH) else worked_out_effects(self, net, time)

    def vcd(self) -> str:
        """The whole run as a value change dump, the text that wave viewers read."""
        return "".join(f"{line}\n" for line in self.dump_lines())

    def write_vcd(self, path: str) -> None:
        """Writes the dump to a file."""
        text = self.vcd()
        with open(path, "w", encoding="ascii", newline="\n") as file:
            file.write(text)

    def dump(self) -> Dump:
        """The waves of all nets, with the time unit and the horizon."""
        return dump_of(self.dump_lines())

    def dump_lines(self) -> Sequence[str]:
        """The lines of a dump."""
        return self.answer("vcd")

    def _answer(self, *words: Word) -> str:
        line = line_of(*words)
        [reply] = self.ask([line])
        self.see_ok(line, reply)
        return reply.one_line(line)

    def _horizon(self, net: str) -> int:
        """The horizon of the version that is asked: the last moment about which a question is answered."""
        last = self._last_horizon
        if not self._are_in_run(net, last, last + 1) == [True, False]:
            last = self._find_horizon(net)
        self._last_horizon = last
        return last

    def _find_horizon(self, net: str) -> int:
        inside, outside = 0, 1
        while self._are_in_run(net, outside) == [True]:
            inside, outside = outside, outside * 2
        while outside - inside > 1:
            middle = (inside + outside) // 2
            if self._are_in_run(net, middle) == [True]:
                inside = middle
            else:
                outside = middle
        return inside

    def _are_in_run(self, net: str, *times: int) -> List[bool]:
        replies = self.ask([line_of("value", net, time) for time in times])
        if not all(it.is_ok or it.code == TIME_TOO_LARGE for it in replies):
            raise BadReply(f"the net {net!r} had a wave and has no value")
        return [it.is_ok for it in replies]


def worked_out_origin(version: Questions, net: str, time: int) -> Optional[Origin]:
    """What made the change of a net, by the questions about gates and waves. Refused as these are."""
    version.value(net, time)
    drivers = version.drivers(net)
    points = [it.time for it in version.points(net)] if net in version.inputs() else []
    return replay.origin(net, time, drivers, points, version.waves(net, *nets_read(drivers)))


def worked_out_effects(version: Questions, net: str, time: int) -> List[Effect]:
    """What the change of a net led to, likewise."""
    version.value(net, time)
    readers = version.readers(net)
    return replay.effects(net, time, readers, version.waves(net, *nets_read(readers), *(it.output for it in readers)))


def changes_beside(version: Questions, question: str, nets: Sequence[str], time: int) -> Dict[str, Optional[Change]]:
    """Of each net the change behind a moment, by `next`, or the one before it, by `prev`; the value at 0 is one. None where there
    is none."""
    answers = version.answers([line_of(question, it, time) for it in nets])
    return {net: optional_change(line) for net, [line] in zip(nets, answers)}


def optional_change(line: str) -> Optional[Change]:
    return None if line == "none" else change_of(line)
