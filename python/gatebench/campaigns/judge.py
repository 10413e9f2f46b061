"""What is said of the waves of a what-if beside those of the design as it is: functions that can be sent to other processes."""
from dataclasses import dataclass
from typing import Callable, Dict, List, NamedTuple, Optional, Tuple

from ..rules import no_pulse
from ..wave import Wave

Waves = Dict[str, Wave]


class Verdict(NamedTuple):
    """What came of a what-if: a word, where it shows first, and a note."""

    status: str
    time: Optional[int] = None
    net: str = ""
    note: str = ""


# Takes the waves of the compared nets, as they are and as they are with a what-if.
Judge = Callable[[Waves, Waves], Verdict]

# A place among all: its time, the place of its net, the net and a note.
Found = Tuple[int, int, str, str]

DETECTED, POSSIBLE, UNDETECTED = "detected", "possible", "undetected"
DIFFERS, SAME = "differs", "same"
BROKEN, KEPT = "broken", "kept"
REFUSED = "refused"


def earliest(status: str, found: List[Found], otherwise: str) -> Verdict:
    if not found:
        return Verdict(otherwise)
    time, _, net, note = min(found)
    return Verdict(status, time, net, note)


@dataclass(frozen=True)
class Detects:
    """Whether a tester sees a fault: at a strobe a net is 0 in place of 1, or 1 in place of 0. Where it is only x or z in their
    place, a fault is possibly seen. Without strobes each moment is one."""

    strobes: Tuple[int, ...] = ()

    def __call__(self, good: Waves, faulty: Waves) -> Verdict:
        hard, soft = [], []  # type: List[Found], List[Found]
        for place, (net, wave) in enumerate(good.items()):
            if faulty[net] is wave or faulty[net] == wave:
                continue
            time, before, after = self.first(wave, faulty[net], "01")
            if time is not None:
                hard.append((time, place, net, f"{after}, not {before}"))
            time, before, after = self.first(wave, faulty[net], "xz")
            if time is not None:
                soft.append((time, place, net, f"{after}, not {before}"))
        return earliest(DETECTED, hard, "") if hard else earliest(POSSIBLE, soft, UNDETECTED)

    def first(self, good: Wave, faulty: Wave, values: str) -> Tuple[Optional[int], str, str]:
        """The first strobe at which a good 0 or 1 is another one of these values, and both values there."""
        every = {it.time for wave in (good, faulty) for it in wave.changes}
        for time in self.strobes or sorted(every):
            before, after = good.at(time), faulty.at(time)
            if before in "01" and after in values and before != after:
                return time, before, after
        return None, "", ""


@dataclass(frozen=True)
class Differs:
    """Whether a wave is another one, and from when."""

    def __call__(self, good: Waves, now: Waves) -> Verdict:
        found: List[Found] = []
        for place, (net, wave) in enumerate(good.items()):
            time = None if now[net] is wave else wave.first_difference(now[net])
            if time is not None:
                found.append((time, place, net, f"{now[net].at(time)}, not {wave.at(time)}"))
        return earliest(DIFFERS, found, SAME)


@dataclass(frozen=True)
class NoPulse:
    """Whether no value lasts less than so many time units, of pulses that begin at `start` or later."""

    shorter_than: int
    start: int = 0

    def __call__(self, good: Waves, now: Waves) -> Verdict:
        found: List[Found] = []
        for place, (net, wave) in enumerate(now.items()):
            broken = no_pulse(wave, self.shorter_than, self.start)
            found += [(it.time, place, net, it.message) for it in broken[:1]]
        return earliest(BROKEN, found, KEPT)
