"""What a page draws of a row: at most so much as it has pixels, however often the row changes."""
from bisect import bisect_left, bisect_right
from typing import Iterator, List, Sequence, Tuple

from .spans import Span, add_many
from .tracks import Row, Track


def parts_of(start: int, end: int, parts: int) -> Iterator[Tuple[int, int]]:
    """The window from `start` to `end`, both included, cut into parts: from when on, and up to but not at when. None is empty."""
    moments = end - start + 1
    count = min(parts, moments)
    bounds = [start + moments * it // count for it in range(count + 1)]
    return zip(bounds, bounds[1:])


def spans_of(row: Row, start: int, end: int, parts: int) -> List[Span]:
    """The values in a window, each with the moment from which on: those of all changes where there are no more than parts.

    Else a part in which there are several changes is MANY, and what follows has its last value; one change stands where it is."""
    low, high = bisect_right(row.times, start), bisect_right(row.times, end)
    spans = [(start, row.value(low - 1))]
    if high - low <= parts:
        return spans + [(row.times[place], row.value(place)) for place in range(low, high)]
    for begin, bound in parts_of(start, end, parts):
        following = bisect_left(row.times, bound, low, high)
        if following - low == 1:
            spans.append((row.times[low], row.value(low)))
        elif following > low:
            add_many(spans, begin, (bound, row.value(following - 1)))
        low = following
    return spans


def differing(first: Row, second: Row, start: int, end: int, parts: int) -> List[Tuple[int, int]]:
    """Where in a window two rows differ: from when on, and up to but not at when, what touches as one. Where they change more
    often than there are parts, it is widened to parts."""
    found: List[Tuple[int, int]] = []
    pairs = [(one, other) for one, other in zip(first.nets, second.nets) if one != other]
    if not pairs or end < start:
        return found
    for begin, bound in pieces([it for pair in pairs for it in pair], start, end, parts):
        if any(within(one, begin, bound) != within(other, begin, bound) for one, other in pairs):
            since = found.pop()[0] if found and found[-1][1] == begin else begin
            found.append((since, bound))
    return found


def pieces(tracks: Sequence[Track], start: int, end: int, parts: int) -> Iterator[Tuple[int, int]]:
    """A window cut where one of these tracks changes, or into parts where these are fewer."""
    places = [(it.times, bisect_right(it.times, start), bisect_right(it.times, end)) for it in tracks]
    if sum(high - low for _, low, high in places) >= parts:
        return parts_of(start, end, parts)
    bounds = sorted({start, end + 1}.union(*(times[low:high] for times, low, high in places)))
    return zip(bounds, bounds[1:])


def within(track: Track, begin: int, bound: int) -> Tuple[str, List[int], List[str]]:
    """The value at `begin`, and the changes behind it and before `bound`."""
    low = bisect_right(track.times, begin)
    high = bisect_left(track.times, bound, low)
    return track.values[low - 1], track.times[low:high], track.values[low:high]
