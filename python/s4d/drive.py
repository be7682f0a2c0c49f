"""A session with a drive."""
from __future__ import annotations

import contextlib
import os
import time
from types import TracebackType
from typing import Any, Iterator, List, Optional, Type, TypeVar, Union, cast

from . import wire
from .addresses import address_of
from .connection import Connection, Peer, Reader, Writer, connected
from .errors import BadFrame, Disconnected, Ended, NotAsked, ProgramFailed, Refused
from .history import Search, Span, history_of, shown_before
from .moments import When, moment_of
from .pieces import Steps, read_all, write_batches
from .pipeline import Pipeline, Reply
from .program import Program
from .retry import NEVER, Retry
from .tls import Tls
from .wire import AUDIT_ROWS, LAST, Attributes, AuditRow, Created, Request

T = TypeVar("T")


class Drive:
    """A session over two binary streams: one that replies are read from, and one that requests are written to.

    Each method asks one request and gives plain numbers and bytes. A refusal is raised as an exception of its own class.
    One session is for one thread. A moment that is given is its number, or, where moments are microseconds since 1970, a
    `datetime` with its offset from UTC, or a `timedelta`: an age, before this machine's time when it is asked.

    Where a session is made with a timeout, in seconds, each wait for the other side ends after as long with Disconnected.
    """

    def __init__(self, reader: Reader, writer: Writer, peer: Optional[Peer] = None, retry: Retry = NEVER) -> None:
        self._connection = Connection(reader, writer, peer or Peer())
        self._retry = retry

    @classmethod
    def pipe(cls, program: str = "s4d", role: str = "client", *, frames: int = 24, window: int = 100, tick: int = 1,
             timeout: Optional[float] = None, retry: Retry = NEVER) -> Drive:
        """A session with a new drive in memory, by `s4d pipe`. All its data is gone when the session ends."""
        options = ["--frames", str(frames), "--window", str(window), "--tick", str(tick)]
        peer = Program([program, "pipe", *options, role], timeout)
        return cls(peer.reader, peer.writer, peer, retry)

    @classmethod
    def image(cls, path: Union[str, os.PathLike[str]], program: str = "s4d", role: str = "client", *, tick: int = 0,
              upkeep: bool = True, waits: bool = False, timeout: Optional[float] = None, retry: Retry = NEVER) -> Drive:
        """A session with the drive in an image's file, by `s4d run`. The file is written when the session is closed.

        With a tick of 0 only changes move the clock. Without upkeep, nothing beside the session cleans or moves blocks.
        The file is locked until the session is closed. One that is dropped is closed then, but whether it was saved
        isn't said. Where the image can't be had that is raised by the first request, or, with `waits`, here.
        """
        options = ["--tick", str(tick), *([] if upkeep else ["--no-upkeep"])]
        peer = Program([program, "run", *options, os.fspath(path), f"{role}:/dev/stdin:/dev/stdout"],
                       timeout)
        drive = cls(peer.reader, peer.writer, peer, retry)
        if waits:
            drive._wait_until_open()
        return drive

    @classmethod
    def connect(cls, address: str, timeout: Optional[float] = None, *, tls: Optional[Tls] = None,
                retry: Retry = NEVER) -> Drive:
        """A session over a socket: `unix:PATH`, `tls:HOST:PORT`, or `HOST:PORT` without TLS. A path with a `/` needs no
        `unix:`.

        For TLS, `tls` has the files of this side's certificate and of the authority that the other side's is tested by.
        OSError where nobody is there, or in time, or TLS doesn't come about.
        """
        peer = connected(address_of(address), timeout, tls)
        return cls(peer.reader, peer.writer, peer, retry)

    @property
    def ended(self) -> Optional[Ended]:
        """How the session's program ended, once it has."""
        return self._connection.ended

    def close(self) -> None:
        """Ends the session. ProgramFailed where its program then ends with another status than 0."""
        ended = self._connection.close()
        if ended and ended.status:
            raise ProgramFailed(ended)

    def __enter__(self) -> Drive:
        return self

    def __exit__(self, kind: Optional[Type[BaseException]], error: Optional[BaseException],
                 trace: Optional[TracebackType]) -> None:
        if kind is None:
            self.close()
        else:
            self._connection.close()  # the error that is on its way says more

    def at(self, moment: When) -> Past:
        """The drive as it was at a moment; an age is counted from now, once."""
        return Past(self, moment_of(moment))

    def history(self, object: int) -> List[Span]:
        """The versions of an object that can be read, oldest first, and what lies between them.

        Each version takes a request, and the end of the last one a few; so ask it with a tick of 0: else old versions expire
        while it runs. Of more than 4,096 hidden moments in a row, and of an object that was deleted, not each version may
        be found: see `audit`. The last span ends at the drive's clock, or at this machine's time where the clock is later.
        """
        return self._search(history_of(object))

    def shown_before(self, object: int, found: Attributes) -> List[int]:
        """Moments at which the earlier versions of an object can be read, whose attributes are those now: one of each, newest first."""
        return self._search(shown_before(object, found))

    def pipeline(self) -> Pipeline:
        """Collects requests and sends them together."""
        return Pipeline(self._connection)

    def _wait_until_open(self) -> None:
        """Waits until the program has the image open, by an empty frame. NotAsked where it hasn't; the session is closed then."""
        try:
            self._once(wire.nothing())
        except BadFrame:
            pass  # as an empty frame is answered
        except Disconnected as error:
            with contextlib.suppress(ProgramFailed):
                self.close()
            if isinstance(error, NotAsked):
                raise
            why = "the image was not opened" if error.ended else f"the image was not opened: {error.args[0]}"
            raise NotAsked(why, error.ended) from error

    def _ask(self, request: Request[T]) -> T:
        try:
            return self._once(request)
        except Refused as refusal:
            return self._ask_again(request, refusal)

    def _ask_again(self, request: Request[T], refusal: Refused) -> T:
        """What a request that was refused is answered in the end; the last refusal is raised."""
        for wait in self._retry.waits():
            if not isinstance(refusal, self._retry.refusals):
                break
            time.sleep(wait)
            try:
                return self._once(request)
            except Refused as later:
                refusal = later
        raise refusal

    def _once(self, request: Request[T]) -> T:
        reply = Reply(request)
        reply.send(self._connection)
        reply.take(self._connection)
        return reply.result()

    def _follow(self, steps: Steps[T]) -> T:
        """What comes of requests of which each depends on the answers before it."""
        try:
            request = next(steps)
            while True:
                try:
                    answer = self._ask(request)
                except Refused as refusal:
                    request = steps.throw(refusal)
                else:
                    request = steps.send(answer)
        except StopIteration as end:
            return cast(T, end.value)

    def _search(self, search: Search[T]) -> T:
        """What comes of requests of which several are sent together."""
        try:
            requests = next(search)
            while True:
                requests = search.send(self._together(requests))
        except StopIteration as end:
            return cast(T, end.value)

    def _together(self, requests: List[Request[Any]]) -> List[Any]:
        """What each request is answered, refusals among it."""
        if len(requests) == 1:
            try:
                return [self._ask(requests[0])]
            except Refused as refusal:
                return [refusal]
        batch = self.pipeline()
        replies = [batch.add(request) for request in requests]
        batch.run()
        return [reply.refusal() or reply.result() for reply in replies]

    def _all_changes(self, requests: List[Request[int]]) -> List[int]:
        """The moments of changes that are sent together; one that may be asked again follows the others. What failed first in
        their order is raised.
        """
        batch = self.pipeline()
        replies = [batch.add(request) for request in requests]
        try:
            batch.run()
        except Disconnected:
            if not any(reply.done and reply.refusal() for reply in replies):
                raise
        return [self._settled(request, reply) for request, reply in zip(requests, replies)]

    def _settled(self, request: Request[T], reply: Reply[T]) -> T:
        """What a request is answered in the end."""
        refusal = reply.refusal()
        return reply.result() if refusal is None else self._ask_again(request, refusal)

    def create(self, attribute: bytes = b"") -> Created:
        """Makes an empty object: its number, and the moment."""
        return self._ask(wire.create(attribute))

    def delete(self, object: int) -> int:
        """Deletes an object. Its versions can still be read. The moment of the change."""
        return self._ask(wire.delete(object))

    def read(self, object: int, offset: int = 0, length: Optional[int] = None, at: Optional[When] = None) -> bytes:
        """The bytes of a range of at most `READ_BYTES`, now or at a moment; fewer where the object ends before.

        Without a length all bytes from the offset on, of one version, by as many requests as that takes.
        """
        if length is not None:
            return self._ask(wire.read(object, offset, length, at))
        return self._follow(read_all(object, offset, at))

    def write(self, object: int, offset: int, data: bytes) -> int:
        """Puts bytes at an offset, after zeros where the object is shorter. The moment of the change.

        At most `WRITE_BYTES`: more are written by `write_pieces`.
        """
        return self._ask(wire.write(object, offset, data))

    def write_pieces(self, object: int, offset: int, data: bytes) -> List[int]:
        """Puts any number of bytes at an offset, by several changes where one hasn't room for them. Their moments.

        Each change makes a version of its own, which others may read. Up to eight are asked before the first is answered;
        where one is refused those before it stay, and so do those of them after it that weren't refused.
        """
        batches = write_batches(object, offset, data)
        return [moment for batch in batches for moment in self._all_changes(batch)]

    def append(self, object: int, data: bytes) -> int:
        """Puts bytes at the object's end. The moment of the change."""
        return self._ask(wire.append(object, data))

    def truncate(self, object: int, size: int) -> int:
        """Cuts the object to a size, or lengthens it by zeros. The moment of the change."""
        return self._ask(wire.truncate(object, size))

    def attributes(self, object: int, at: Optional[When] = None) -> Attributes:
        """Size, creation, last change and attribute, now or at a moment."""
        return self._ask(wire.attributes(object, at))

    def audit(self, first: When = 0) -> Iterator[AuditRow]:
        """What was accepted from a moment on, oldest first, whether a flush hides it or not; for administrators alone.

        It is asked for in pages. Changes that are accepted meanwhile come at the end, and what falls below the floor before its
        page is asked for is left out.
        """
        page = self._ask(wire.audit(first, AUDIT_ROWS))
        while page:
            yield from page
            last = page[-1].moment
            page = self._ask(wire.audit(last + 1, AUDIT_ROWS)) if len(page) == AUDIT_ROWS and last < LAST else []

    def set_attribute(self, object: int, attribute: bytes) -> int:
        """Sets the object's attribute, of at most 64 bytes. The moment of the change."""
        return self._ask(wire.set_attribute(object, attribute))

    def set_window(self, moments: int) -> int:
        """Sets the window, for administrators. The moment of the change."""
        return self._ask(wire.set_window(moments))

    def flush(self, first: When, last: When) -> int:
        """Hides the moments of a span, of all objects, for administrators. The moment of the change."""
        return self._ask(wire.flush(first, last))

    def flush_object(self, object: int, first: When, last: When) -> int:
        """Hides the moments of a span, of one object, for administrators. The moment of the change."""
        return self._ask(wire.flush_object(object, first, last))


class Past:
    """A drive as it was at a moment: it can be read, and nobody can change it."""

    def __init__(self, drive: Drive, moment: int) -> None:
        self._drive, self.moment = drive, moment

    def read(self, object: int, offset: int = 0, length: Optional[int] = None) -> bytes:
        """The bytes of a range at the moment; without a length, all from the offset on."""
        return self._drive.read(object, offset, length, at=self.moment)

    def attributes(self, object: int) -> Attributes:
        """Size, creation, last change and attribute at the moment."""
        return self._drive.attributes(object, at=self.moment)
