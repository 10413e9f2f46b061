"""Names that are like one which is not there."""
import difflib
from typing import List, Sequence

# How many are shown.
MOST = 3


def near(name: str, names: Sequence[str]) -> List[str]:
    """The few names that are most like this one. Those that have it in other letters, and the bits of a vector, go before all others.

    Comparing letter by letter is slow, so it is done for those names alone that have a third of this one in them: a name has where
    no more than two letters are others."""
    lower = name.lower()
    same = [it for it in names if it.lower() == lower or it.lower().startswith(f"{lower}[")]
    cuts = [len(name) * part // 3 for part in range(4)]
    thirds = {name[start:end] for start, end in zip(cuts, cuts[1:]) if start < end}
    return same[:MOST] or difflib.get_close_matches(name, [it for it in names if any(third in it for third in thirds)], MOST)


def there_is(names: Sequence[str]) -> str:
    """What is said of such names behind a fault; nothing where there are none."""
    return f"; there is {', '.join(names)}" if names else ""
