"""What a session with a drive raises: one class for each refusal, and those of the session itself."""
from __future__ import annotations

from typing import ClassVar, Dict, NamedTuple, Optional, Type


SERVED = ": a program serves it; end that one"  # how the line of `s4d` ends where another program has the image

ADVICE = {"s4d: Damaged header": "image of an earlier version: `s4d migrate OLD NEW` makes a new one; or no image"}


class Ended(NamedTuple):
    """How a program ended: its exit status, negative for a signal, and its text on standard error."""

    status: int
    said: str

    def __str__(self) -> str:
        advice = f"; {ADVICE[self.said]}" if self.said in ADVICE else ""
        return f"{self.said or 'the program printed nothing'} (status {self.status}{advice})"


def naming(request: str, object: Optional[int], at: Optional[int]) -> str:
    """A request and what it names, as `read of object 7 at moment 5`."""
    named = "" if object is None else f" of object {object}"
    return request + named + ("" if at is None else f" at moment {at}")


class Error(Exception):
    """The base of all that this package raises of its own."""


class Disconnected(Error):
    """The stream ended or failed. A request without a reply may have been done all the same.

    `ended` says how the program ended, where the session has one of its own.
    """

    def __init__(self, why: str, ended: Optional[Ended] = None) -> None:
        super().__init__(f"{why}: {ended}" if ended else why)
        self.ended = ended


class NotAsked(Disconnected):
    """The other side had no session for this one, or refused its certificate, or ended the session before this request. It wasn't
    passed on to the drive.
    """


class ImageServed(NotAsked):
    """A program serves the image, or another session has it: nothing was asked. A session is to be had by the service's doors
    or its bridge, or once that program has ended; what only reads, as `Image.list`, `log` and `cat`, goes on beside it.
    """


class ReplyLost(Disconnected):
    """A request was sent, wholly or in part, and its reply didn't come: it may have been done. It isn't asked again.

    `request` is the request's name, `object` the object and `at` the moment that it named, where it named one. Which
    changes were accepted is said by the `audit` of an administrator's session.
    """

    request: str = ""
    object: Optional[int] = None
    at: Optional[int] = None

    def __str__(self) -> str:
        why = super().__str__()
        return f"{naming(self.request, self.object, self.at)}: {why}" if self.request else why


class BadReply(Error):
    """The other side sent what is no reply to the request."""


class ProgramFailed(Error):
    """`s4d` or `s4` ended with a status that isn't 0: `ended` has it, and the program's text on standard error."""

    def __init__(self, ended: Ended) -> None:
        super().__init__(str(ended))
        self.ended = ended


class Refused(Error):
    """The drive refused the request, which changed nothing but the clock.

    `request` is the request's name, `object` the object and `at` the moment that it named, where it named one.
    """

    number: ClassVar[int] = 0

    def __init__(self, request: str = "", object: Optional[int] = None, at: Optional[int] = None) -> None:
        name = type(self).__name__
        super().__init__(f"{name}: {naming(request, object, at)}" if request else name)
        self.request, self.object, self.at = request, object, at


class NoObject(Refused):
    """There is no such object, now or at that moment."""

    number = 1


class NotAdmin(Refused):
    """Only an administrator's session may ask this."""

    number = 2


class Expired(Refused):
    """The moment is older than the window keeps."""

    number = 3


class Future(Refused):
    """The moment is above the drive's clock."""

    number = 4


class Flushed(Refused):
    """An administrator has hidden the moment."""

    number = 5


class TooLarge(Refused):
    """The object would have more than 98,304 bytes, or the read more than 24,576."""

    number = 6


class BadSpan(Refused):
    """The span ends before it begins, or after the clock."""

    number = 7


class TooManySpans(Refused):
    """No more hidden spans fit in the list."""

    number = 8


class NoSpace(Refused):
    """The drive has no room for the change."""

    number = 9


class NoMemory(Refused):
    """A growth of memory was refused."""

    number = 10


class ClockEnd(Refused):
    """The clock or the objects' numbers are at their end."""

    number = 11


class ChainFull(Refused):
    """The object's journal has no room for a further change."""

    number = 12


class BadAttr(Refused):
    """The attribute has more than 64 bytes."""

    number = 13


class Busy(Refused):
    """All places for readers were taken."""

    number = 14


class BadFrame(Refused):
    """The bytes are no request."""

    number = 15


class Stale(Refused):
    """The object changed since the move was planned."""

    number = 17


class NoRoom(Refused):
    """There is no room to write the object anew."""

    number = 18


class InUse(Refused):
    """The frame is still used."""

    number = 19


REFUSALS: Dict[int, Type[Refused]] = {
    kind.number: kind
    for kind in (NoObject, NotAdmin, Expired, Future, Flushed, TooLarge, BadSpan, TooManySpans, NoSpace, NoMemory,
                 ClockEnd, ChainFull, BadAttr, Busy, BadFrame, Stale, NoRoom, InUse)
}
