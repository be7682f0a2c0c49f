"""Whether a moment is in reach: of the drive's window, which is widened where it is about to pass it, and of the audit."""
from __future__ import annotations

import time
from typing import List, NamedTuple, Optional

from .. import wire
from ..errors import Expired, Flushed, Future, NoObject, Refused
from ..history import TIMES
from ..rows import Info
from ..wire import Attributes
from .asking import Asker, Fault
from .ledger import Ledger
from .plans import set_window
from .words import text_of

NOBODY = 0  # no object has this number: what is asked of it says of the moment alone
SECOND = 1_000_000  # microseconds
TIME_NEAR, COUNT_NEAR = 600 * SECOND, 4_096  # so near the floor that a moment may expire while objects are restored
CLOSE = SECOND * 2 // 5  # within which a window is one of whole seconds, as `s4serve --keep` makes them, by requests that take their time
LOOK_SECONDS = 30.0  # after which it is looked again whether a moment is near the floor
SCANNED = 4_096  # objects that are looked at together


class Widening(NamedTuple):
    """A window, in moments, before it was widened and since."""

    before: int
    after: int


def check_moment(asker: Asker, at: int) -> None:
    """Fault where the moment can't be read, whatever the object is."""
    refusal = asker.all([wire.attributes(NOBODY, at)])[0].refusal()
    if isinstance(refusal, Expired):
        raise Fault(f"moment {text_of(at)} has expired: the window doesn't reach back to it")
    if isinstance(refusal, Future):
        raise Fault(f"moment {text_of(at)} is to come")
    if isinstance(refusal, Flushed):
        raise Fault(f"moment {text_of(at)} is hidden")


class Window:
    """The drive's window, once that is known, and a moment that is kept in it."""

    def __init__(self, asker: Asker, at: int, facts: Optional[Info]) -> None:
        self._asker, self._at = asker, at
        self._size = facts.window if facts is not None else asker.ledger.window
        self._near, self._looked = TIME_NEAR if at >= TIMES else COUNT_NEAR, -LOOK_SECONDS
        self.widened: Optional[Widening] = None

    def keep(self) -> Optional[Widening]:
        """Widens the window where the moment is near the floor, and gives what it was and is."""
        before = self.near_size()
        if before is None:
            return None
        after = self._asker.clock + 2 * self._near - self._at
        _, refusal = self._asker.change([set_window(after)])[0]
        if refusal is not None:
            raise refusal
        self._size = after
        self.widened = Widening(before if self.widened is None else self.widened.before, after)
        return self.widened

    def near_size(self) -> Optional[int]:
        """The window, where the moment may expire soon. It is looked for only then: what is nearer to the floor has expired."""
        if self._size is None:
            if time.monotonic() < self._looked + LOOK_SECONDS:
                return None
            self._looked = time.monotonic()
            refusal = self._asker.all([wire.attributes(NOBODY, max(self._at - self._near, 0))])[0].refusal()
            if not isinstance(refusal, Expired):
                return None
            self._size = self._found()
        return self._size if self._at + self._size < self._asker.clock + self._near else None

    def _found(self) -> int:
        """The window that the floor shows, which has risen."""
        floor = self._asker.floor()  # which rises while it is looked for
        size = self._asker.clock - floor
        seconds = (size + SECOND // 2) // SECOND * SECOND
        return seconds if self._at >= TIMES and abs(seconds - size) < CLOSE else size


def check_audit(asker: Asker, at: int, facts: Optional[Info]) -> None:
    """Fault where the audit doesn't reach back to a moment, or where that can't be known.

    An image that was migrated has no rows of what was changed before. So where there is no row up to the moment all objects that
    were made before the rows begin, and that no row names, must be what they were.
    """
    ledger = asker.ledger
    if ledger.first is not None and ledger.first <= at:
        return
    after = facts.next if facts is not None else ledger.lowest_made()
    if after is None:
        raise Fault(f"the audit has nothing up to {text_of(at)}, so whether it reaches back can't be known; give --image IMAGE")
    unnamed = [object for object in range(1, after) if object not in ledger.lives]
    older = sorted(object for object, life in ledger.lives.items() if life.made is None)
    changed = first_changed(asker, unnamed, at) or first_made(asker, older, at)
    if changed is not None:
        raise Fault(f"the audit doesn't reach back to {text_of(at)}: object {changed} was changed since, and it has no row of that, as "
                    "where the image was migrated since; stop the service, and use s4 restore")


def first_made(asker: Asker, objects: List[int], at: int) -> Optional[int]:
    """The first of these objects that wasn't there at a moment."""
    replies = asker.all([wire.attributes(object, at) for object in objects])
    return next((object for object, reply in zip(objects, replies) if isinstance(reply.refusal(), NoObject)), None)


def first_changed(asker: Asker, objects: List[int], at: int) -> Optional[int]:
    """The first of these objects that isn't what it was at a moment, by when it was last changed."""
    for start in range(0, len(objects), SCANNED):
        some = objects[start:start + SCANNED]
        then = asker.all([wire.attributes(object, at) for object in some])
        now = asker.all([wire.attributes(object, None) for object in some])
        for object, was, is_ in zip(some, then, now):
            if is_hidden(was.refusal()):
                continue
            if presence(was.refusal() or was.result()) != presence(is_.refusal() or is_.result()):
                return object
    return None


def is_hidden(refusal: Optional[Refused]) -> bool:
    return isinstance(refusal, Flushed)


def presence(found: object) -> object:
    """When an object was last changed; none where it isn't there."""
    if isinstance(found, NoObject):
        return None
    if isinstance(found, Refused):
        raise found
    return found.changed if isinstance(found, Attributes) else found


def is_any_left(asker: Asker, ledger: Ledger, before: int) -> bool:
    """Whether an object is there that no row names, of those with a number below one."""
    for start in range(1, before, SCANNED):
        some = [object for object in range(start, min(start + SCANNED, before)) if object not in ledger.lives]
        if any(reply.refusal() is None for reply in asker.all([wire.attributes(object, None) for object in some])):
            return True
    return False
