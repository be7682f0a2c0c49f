"""The versions of an object, found by GetAttr, and by the audit where that may be asked.

GetAttr now says the moment of the last change; GetAttr just before it says the one before, and so on, down to the
creation or to what the window no longer keeps: a request for each version. Nothing here sends requests: sessions follow
the steps.
"""
from __future__ import annotations

from enum import Enum
from typing import Any, Callable, Generator, List, NamedTuple, Optional, Tuple, TypeVar, Union

from . import wire
from .errors import Expired, Flushed, Future, NoObject, Refused
from .moments import machine_time
from .wire import AUDIT_ROWS, LAST, Attributes, AuditRow, Request

BATCH = 256  # moments that are asked for together, at most
NEAR = 4_096  # moments that are looked at one by one; of those beyond, ever further ones
TRIALS = 16_384  # moments at which a deleted object is looked for
TIMES = 10**15  # from here on moments are microseconds since 1970

T = TypeVar("T")
Found = Union[Attributes, Refused]

# Yields requests that are sent together, and is sent what each was answered, refusals among it.
Search = Generator[List[Request[Any]], List[Any], T]


class Kind(Enum):
    """What a span of moments holds."""

    LIVE = "live"  # a version
    HIDDEN = "hidden"  # moments that a flush hid
    GONE = "gone"  # the object was deleted
    EXPIRED = "expired"  # older than the window keeps


class Span(NamedTuple):
    """Moments from `first` to `last`, both among them; size and attribute are those of a version."""

    kind: Kind
    first: int
    last: int
    size: int = 0
    attribute: bytes = b""


def history_of(object: int) -> Search[List[Span]]:
    """The spans of an object, oldest first, up to the drive's clock, or to this machine's time where the clock is later; none
    where it never was, as far as can be read.
    """
    clock, found = yield from present(object)
    last: Optional[int] = clock
    spans: List[Span] = []
    if not isinstance(found, Attributes):
        last = yield from last_readable(object, clock)
        if last is None:
            return []
        spans, found = (yield from after_the_end(object, last, clock)), (yield from readable(object, last))
    while last is not None:
        spans.append(Span(Kind.LIVE, found.changed, last, found.size, found.attribute))
        last, found, between = yield from before_version(object, found)
        spans += between
    return without_overlaps(spans[::-1])


def asked(object: int, moments: range) -> Search[List[Found]]:
    """What an object was at each of these moments, of which there are few."""
    found: List[Found] = yield [wire.attributes(object, moment) for moment in moments]
    for it in found:
        if isinstance(it, Refused) and not isinstance(it, (Expired, Flushed, Future, NoObject)):
            raise it  # it says nothing of the moment
    return found


def probe(object: int, moment: int) -> Search[Found]:
    """What an object was at a moment: its attributes, or the refusal."""
    found = yield from asked(object, range(moment, moment + 1))
    return found[0]


def readable(object: int, moment: int) -> Search[Attributes]:
    """What an object was at a moment at which it can be read. The refusal is raised where that has just expired."""
    found = yield from probe(object, moment)
    if isinstance(found, Refused):
        raise found
    return found


def present(object: int) -> Search[Tuple[int, Found]]:
    """The drive's clock, or this machine's time where the clock is later, and what the object is then."""
    now: List[Found] = yield [wire.attributes(object, None)]
    found = now[0]
    if isinstance(found, Attributes):
        return (yield from clock_from(object, found.changed, found, is_live))
    if not isinstance(found, NoObject):
        raise found
    in_times = yield from probe(object, TIMES)
    if isinstance(in_times, Future):
        return (yield from clock_from(object, 0, found, is_gone))
    return (yield from clock_from(object, TIMES, in_times, is_gone))


def clock_from(object: int, low: int, found: Found, is_as_now: Callable[[Found], bool]) -> Search[Tuple[int, Found]]:
    """The same, from a moment on at which the object was found: a moment is refused as Future exactly where it is above the
    clock. First the next moment is asked, then, where moments are times, this machine's, which is enough if the object was
    there then as it is now; else ever further ones, and what is left is halved.
    """
    high, step, time = LAST + 1, 1, machine_time()
    while high - low > 1 and not (low == time and is_as_now(found)):
        if high <= LAST:
            moment = (low + high) // 2
        elif TIMES <= low < time and step > 1:
            moment = time
        else:
            moment = min(low + step, LAST)
        step *= 2
        answer = yield from probe(object, moment)
        if isinstance(answer, Future):
            high = moment
        else:
            low, found = moment, answer
    return low, found


def floor_below(clock: int) -> Search[int]:
    """The least moment that can be read, by bisection: one is refused as Expired exactly where it is below."""
    low, high = -1, clock
    while high - low > 1:
        middle = (low + high) // 2
        found = yield from probe(1, middle)
        low, high = (middle, high) if isinstance(found, Expired) else (low, middle)
    return high


def first_of(object: int, moments: range, is_wanted: Callable[[Found], bool]) -> Search[Optional[Tuple[int, Found]]]:
    """The first of these moments whose answer is wanted, and that answer: mostly it is the very first."""
    start, count = 0, 1
    while start < len(moments):
        batch = moments[start:start + count]
        for moment, found in zip(batch, (yield from asked(object, batch))):
            if is_wanted(found):
                return moment, found
        start, count = start + count, min(2 * count, BATCH)
    return None


def nearest(object: int, moments: range, is_wanted: Callable[[Found], bool]) -> Search[Optional[Tuple[int, Found]]]:
    """The same, where the step is 1 or -1. Where it isn't among the nearest moments, that is an edge between two moments, of
    which the first was the wanted one's neighbour: where several edges are close to each other, it may be a later one.
    """
    near = yield from first_of(object, moments[:NEAR], is_wanted)
    if near is not None or len(moments) <= NEAR:
        return near
    before, after = NEAR - 1, NEAR
    while True:
        found = yield from probe(object, moments[after])
        if is_wanted(found):
            break
        if after == len(moments) - 1:
            return None
        before, after = after, min(2 * after, len(moments) - 1)
    while after - before > 1:
        middle = (before + after) // 2
        between = yield from probe(object, moments[middle])
        before, after, found = (before, middle, between) if is_wanted(between) else (middle, after, found)
    return moments[after], found


def downwards(last: int, first: int) -> range:
    return range(last, first - 1, -1)


def is_live(found: Found) -> bool:
    return not isinstance(found, Refused)


def is_shown(found: Found) -> bool:
    return not isinstance(found, Flushed)


def is_gone(found: Found) -> bool:
    return isinstance(found, NoObject)


def changes_of(object: int) -> Search[List[int]]:
    """The moments of an object's accepted changes; none where the session may not ask for them."""
    first = 0
    moments: List[int] = []
    while True:
        found: List[Union[List[AuditRow], Refused]] = yield [wire.audit(first, AUDIT_ROWS)]
        rows = found[0]
        if isinstance(rows, Refused):
            return []
        moments += (row.moment for row in rows if row.object == object)
        if len(rows) < AUDIT_ROWS or rows[-1].moment == LAST:
            return moments
        first = rows[-1].moment + 1


def any_live(object: int, last: int) -> Search[Optional[int]]:
    """A moment at which an object can be read, or None: one of its changes, or ever finer steps through the moments."""
    changes = yield from changes_of(object)
    for moment in changes[::-1]:
        found = yield from probe(object, moment)
        if is_live(found):
            return moment
    first = yield from floor_below(last)
    step = 1 << max(last - first, 1).bit_length()
    while step and (last - first) // step < TRIALS:
        moments = range(first + step // 2, last + 1, step) if step > 1 else range(first, last + 1)
        live = yield from first_of(object, moments, is_live)
        if live is not None:
            return live[0]
        step //= 2
    return None


def last_live(object: int, live: int, above: int) -> Search[int]:
    """The last readable moment of a deleted object, which can be read at `live` and is gone at `above`.

    Bisection: once deleted, an object stays away. A hidden moment says nothing, so a lower one is asked.
    """
    low = live
    while above - low > 1:
        middle = (low + above) // 2
        shown = yield from nearest(object, downwards(middle, low + 1), is_shown)
        if shown is None:
            low = middle  # all of these are hidden
        elif isinstance(shown[1], NoObject):
            above = shown[0]
        elif isinstance(shown[1], Refused):
            low = middle  # they have expired
        else:
            live, low = shown[0], middle
    return live


def last_readable(object: int, clock: int) -> Search[Optional[int]]:
    """The last moment at which an object can be read that can't be at the clock, or None where there is none."""
    live = yield from any_live(object, clock)
    return None if live is None else (yield from last_live(object, live, clock + 1))


def after_the_end(object: int, last: int, clock: int) -> Search[List[Span]]:
    """What follows the last readable moment of a deleted object, newest first."""
    gone = yield from nearest(object, range(last + 1, clock + 1), is_gone)
    first = clock + 1 if gone is None else gone[0]
    spans = [Span(Kind.GONE, first, clock)] if gone is not None else []
    return spans + ([Span(Kind.HIDDEN, last + 1, first - 1)] if first > last + 1 else [])


def before_version(object: int, found: Attributes) -> Search[Tuple[Optional[int], Attributes, List[Span]]]:
    """The last readable moment before a version's first, the version then, and what lies between, newest first. No moment
    where there is none.
    """
    if found.changed == found.created:
        return None, found, []
    last = found.changed - 1
    shown = yield from nearest(object, downwards(last, found.created), is_shown)
    if shown is None:
        return None, found, [Span(Kind.HIDDEN, found.created, last)]
    moment, before = shown
    spans = [Span(Kind.HIDDEN, moment + 1, last)] if moment < last else []
    if isinstance(before, Attributes):
        return moment, before, spans
    if isinstance(before, Expired):
        return None, found, spans + [Span(Kind.EXPIRED, found.created, moment)]
    raise before


def shown_before(object: int, found: Attributes) -> Search[List[int]]:
    """Moments at which the earlier versions of an object can be read, which now is as it was found: one of each, newest first."""
    moments: List[int] = []
    while True:
        last, found, _ = yield from before_version(object, found)
        if last is None:
            return moments
        moments.append(last)


def without_overlaps(spans: List[Span]) -> List[Span]:
    """The spans with each version cut where a hidden span lies inside of it."""
    cut: List[Span] = []
    for span in spans:
        if cut and cut[-1].last >= span.first:
            span = span._replace(first=cut[-1].last + 1)
        cut.append(span)
    return [span for span in cut if span.first <= span.last]
