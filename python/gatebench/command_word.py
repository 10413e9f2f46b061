"""Which word of a refused command is at fault, where the line and the code leave no other: that of docs/SPEC.md, Questions of tools."""
from typing import Callable, Dict, List, Optional

from .causes import BAD_COMMAND, FORMS, UNKNOWN_HOLD, inner_words
from .limits import GREATEST_NUMBER, MOST_DELAY

# Of each code the place of the word at fault, by the command's first word. A gate with several nets leaves open which one is unknown.
OF_NET = dict.fromkeys(
    ("dropnet", "kind", "stim", "unstim", "value", "wave", "next", "prev", "seek", "why", "reach", "drivers", "readers", "points", "window"), 1
)  # fmt: skip
OF_GATE = dict.fromkeys(("drop", "delay", "type", "wire", "gate"), 1)
NEW = dict.fromkeys(("net", "input", "gate", "hold"), 1)
TIMES = dict.fromkeys(("stim", "unstim", "value", "next", "prev", "seek", "why", "reach"), 2)
PLACES: Dict[int, Dict[str, int]] = {
    1: OF_NET,
    2: OF_GATE,
    3: NEW,
    4: NEW,
    7: {"gate": 2, "type": 2, "wire": 1},
    8: {"gate": 5, "wire": 2},
    9: OF_NET,
    10: OF_NET,
    11: {**TIMES, "horizon": 1},
    12: TIMES,
    # Of an edit it may be no word: where a batch does not keep it.
    13: {"hold": 1},
    UNKNOWN_HOLD: {"free": 1, "at": 1, "diff": 1},
    21: {"type": 2},
}
# The codes for which the word is a number.
NUMBERS = (11, 12)
# Where the two words of delays stand, the second of which may have a turn-off delay.
DELAYS = {"gate": 3, "delay": 2}
ZERO_DELAY, DELAY_TOO_LARGE, NO_TURN_OFF = 5, 6, 21
AT_FAULT: Dict[int, Callable[[int], bool]] = {ZERO_DELAY: lambda delay: delay == 0, DELAY_TOO_LARGE: lambda delay: delay > MOST_DELAY}


def command_word(line: str, code: int) -> Optional[str]:
    """The word of a refused command that is at fault; None where that is not certain. A number stands as it was read."""
    prefix, words = inner_words(line)
    if code == UNKNOWN_HOLD and prefix:
        # It may be the name behind `at`, and with `diff` the one behind that too.
        return prefix[-1] if words[:1] != ["diff"] else None
    if not words:
        return None
    if code == BAD_COMMAND:
        return words[0] if words[0] not in FORMS else None
    if words[0] in DELAYS and code in (*AT_FAULT, NO_TURN_OFF):
        return delay_at_fault(words[DELAYS[words[0]] :][:2], code)
    place = PLACES.get(code, {}).get(words[0])
    if place is None or place >= len(words):
        return None
    return number_word(words[place]) if code in NUMBERS else words[place]


def delay_at_fault(words: List[str], code: int) -> Optional[str]:
    """The first delay that is at fault among the words of a rise and a fall."""
    delays = [it for word in words for it in word.split("/")]
    if code == NO_TURN_OFF:
        return number_word(delays[2]) if len(delays) > 2 else None
    return next((number_word(it) for it in delays if it.isdigit() and AT_FAULT[code](int(it))), None)


def number_word(word: str) -> Optional[str]:
    """A number as the program reads it; None where the word is none."""
    return str(min(int(word), GREATEST_NUMBER)) if word.isdigit() else None
