"""How room is made while objects are restored: by waiting for the cleaner, and by hiding what it may then clear away."""
from __future__ import annotations

import time
from bisect import bisect_right
from heapq import heappop, heappush
from typing import Dict, Iterable, List, Optional, Set, Tuple

from ..errors import TooManySpans
from .asking import Asker
from .ledger import MOST_RUNS, NEAR_RUNS, Ledger, Life
from .plans import BLOCK_BYTES, hide
from .saying import Sayer
from .words import span_text

WAITS = (0.02, 0.05, 0.1, 0.2, 0.4, 0.8, 1.6, 3.2)  # seconds, one after the other, while nothing is accepted
FEW = 2  # of these waits, before more is hidden
FIRST_STEP, LONGEST_STEP = 8, 512  # objects that are gone, or versions, whose moments are hidden at once


class Versions:
    """The versions of some objects that began after a moment, the oldest first. The drive fills one frame after the other, and has the
    room of one again once nothing in it is needed: so what was written together is given together.
    """

    def __init__(self, ledger: Ledger, at: int) -> None:
        self._ledger, self._at = ledger, at
        self._places: Dict[int, int] = {}  # of each object, which of its versions is given next
        self._waiting: Set[int] = set()
        self._order: List[Tuple[int, int]] = []  # of these the beginning of that version, and the object: a heap

    def offer(self, object: int) -> None:
        """Takes an object, or one again that has more versions now."""
        begun = self._ledger.lives[object].begun
        place = self._places.setdefault(object, bisect_right(begun, self._at))
        if object not in self._waiting and place < len(begun):
            self._waiting.add(object)
            heappush(self._order, (begun[place], object))

    def take(self, count: int) -> List[Tuple[int, int, int]]:
        """So many of the oldest that aren't hidden yet, but for present ones: objects, and the first and last moments of those that follow
        each other.
        """
        spans: Dict[int, Tuple[int, int]] = {}
        while self._order and count:
            first, object = heappop(self._order)
            self._waiting.remove(object)
            begun, place = self._ledger.lives[object].begun, self._places[object]
            if place + 1 == len(begun):  # what it holds now; it is offered again once that has changed
                continue
            self._places[object] = place + 1
            self.offer(object)
            last = begun[place + 1] - 1
            if not self._ledger.runs.hides(object, first, last):
                spans[object] = spans.get(object, (first, last))[0], last
                count -= 1
        return [(object, first, last) for object, (first, last) in spans.items()]


class Room:
    """Makes room, by as little as serves. Without `flush` nothing is hidden."""

    def __init__(self, asker: Asker, sayer: Sayer, at: int, flush: bool) -> None:
        self._asker, self._sayer, self._at, self._flush = asker, sayer, at, flush
        self._deleted: Dict[int, None] = {}  # objects that were made since and are gone, and whose moments can be read
        self._versions = Versions(asker.ledger, at)  # of objects that were there then, which may be hidden
        self._step, self._versions_step, self._waited, self._is_warned = FIRST_STEP, FIRST_STEP, 0, False
        self.hidden = 0  # requests that hid something

    def offer(self, object: int) -> None:
        """An object that was made since is gone: its moments may be hidden."""
        if self._span_of(object) is not None:
            self._deleted[object] = None

    def offer_versions(self, objects: Iterable[int]) -> None:
        """Objects that are restored: what they became since, and aren't any more, may be hidden."""
        for object in objects:
            self._versions.offer(object)

    def progressed(self) -> None:
        """A change was accepted: it is waited anew."""
        self._waited = 0

    def make(self) -> bool:
        """Makes room for whatever was refused for want of it, or waits. False where there is no way any more.

        The cleaner is called by what is hidden. Objects that are gone come first, then versions of those that are restored.
        """
        if self._waited < FEW and self._wait():
            return True
        if self._hide_objects() or self._hide_versions():
            self._waited = 0
            return True
        return self._wait()

    def make_in_journal(self, object: int) -> Optional[str]:
        """Makes room in an object's journal, which is full: the moments of its newest version that isn't hidden are. Why that can't
        be, where it can't.
        """
        if not self._flush:
            return "its journal is full"
        span = self._asker.ledger.newest_hidable(object, self._at)
        if span is None:
            return "its journal is full"
        if self._hide([(object, *span)]):
            return None
        all_taken = self._asker.ledger.runs.count >= MOST_RUNS
        return f"{MOST_RUNS:,} runs of moments are hidden" if all_taken else "its moments are hidden in 64 runs"

    def warn(self) -> None:
        """Says, once, that few more runs of moments can be hidden."""
        runs = self._asker.ledger.runs
        if self._is_warned or runs.count < NEAR_RUNS:
            return
        runs.forget_below(self._asker.floor())
        if runs.count >= NEAR_RUNS:
            self._is_warned = True
            self._sayer.say(f"{runs.count:,} runs of moments are hidden, and there can be {MOST_RUNS:,}; where none is left nothing more can be hidden")

    def _hide_objects(self) -> bool:
        """Hides moments of the next objects that are gone: first of those that hold most, in the order of their creation."""
        if not self._flush or not self._deleted:
            return False
        ledger = self._asker.ledger
        order = sorted(self._deleted, key=lambda it: (-(ledger.lives[it].written // BLOCK_BYTES), it))
        chosen, self._step = order[:self._step], min(2 * self._step, LONGEST_STEP)
        spans = []
        for object in chosen:
            del self._deleted[object]
            span = self._span_of(object)
            spans += [(object, *span)] if span is not None else []
        return self._hide(spans)

    def _hide_versions(self) -> bool:
        """Hides the oldest versions since, but for present ones, of the objects that are restored."""
        while self._flush:
            spans = self._versions.take(self._versions_step)
            if not spans:
                return False
            if self._hide(spans):
                self._versions_step = min(2 * self._versions_step, LONGEST_STEP)
                return True
        return False

    def _span_of(self, object: int) -> Optional[Tuple[int, int]]:
        """The moments at which a deleted object was there; none where they are hidden."""
        life: Life = self._asker.ledger.lives[object]
        if life.made is None or life.deleted is None:
            return None
        first, last = life.made, life.deleted - 1
        return None if self._asker.ledger.runs.hides(object, first, last) else (first, last)

    def _hide(self, spans: List[Tuple[int, int, int]]) -> bool:
        """Hides the moments of objects, and says so. False where the drive takes none of these."""
        done = False
        answers = self._asker.change([hide(*it) for it in spans])
        for (object, first, last), (_, refusal) in zip(spans, answers):
            if refusal is None:
                self._sayer.of(object, f"hidden {span_text(first, last)}")
                self.hidden, done = self.hidden + 1, True
            elif not isinstance(refusal, TooManySpans):
                raise refusal
        self.warn()
        return done

    def _wait(self) -> bool:
        """Waits for the cleaner, which makes room of what nobody can read."""
        if self._waited == len(WAITS):
            return False
        time.sleep(WAITS[self._waited])
        self._waited += 1
        return True
