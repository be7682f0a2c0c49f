"""A session for the tasks of an event loop."""
from __future__ import annotations

import asyncio
from collections import deque
from types import TracebackType
from typing import Any, AsyncIterator, Deque, List, Optional, Tuple, Type, TypeVar, Union, cast

from . import wire
from .addresses import Address, address_of
from .connection import ENDED
from .errors import BadReply, Disconnected, NotAsked, Refused, ReplyLost
from .history import Search, Span, history_of, shown_before
from .moments import When, moment_of
from .pieces import Steps, read_all, write_batches
from .retry import NEVER, Retry
from .tls import Tls, refuses_certificate
from .wire import AUDIT_ROWS, LAST, READ_BYTES, TURNED_AWAY, Attributes, AuditRow, Created, Request

T = TypeVar("T")

CLOSE_SECONDS = 5.0  # that the other side's end is waited for where no timeout is given

Streams = Tuple[asyncio.StreamReader, asyncio.StreamWriter]


class AsyncDrive:
    """A session over a pair of streams, whose methods are those of `Drive`, awaited.

    Several tasks may use one session: their requests go out in the order in which they are asked, without waiting for
    each other's replies. A task that is cancelled doesn't take its request back. With a timeout, in seconds, a request
    whose reply hasn't come by then ends the session; it and all others that wait raise ReplyLost.
    """

    def __init__(self, reader: asyncio.StreamReader, writer: asyncio.StreamWriter, timeout: Optional[float] = None,
                 retry: Retry = NEVER) -> None:
        self._reader, self._writer, self._timeout, self._retry = reader, writer, timeout, retry
        self._waiting: Deque[Tuple[Request[Any], asyncio.Future[bytes]]] = deque()
        self._end: Optional[str] = None
        self._is_new, self._is_turned_away = True, False
        self._draining = asyncio.Lock()
        self._taking = asyncio.ensure_future(self._take_replies())

    @classmethod
    async def connect(cls, address: str, timeout: Optional[float] = None, *, tls: Optional[Tls] = None,
                      retry: Retry = NEVER) -> AsyncDrive:
        """A session over a socket, as `Drive.connect` makes it."""
        try:
            reader, writer = await asyncio.wait_for(opened(address_of(address), tls or Tls()), timeout)
        except asyncio.TimeoutError:
            raise TimeoutError(f"timed out after {timeout:g} seconds") from None
        return cls(reader, writer, timeout, retry)

    async def close(self) -> None:
        """Ends the session. Requests that wait for their replies raise ReplyLost."""
        self._lose_all("the session was closed")
        self._writer.close()
        await asyncio.wait({self._taking})
        try:
            await asyncio.wait_for(self._writer.wait_closed(), self._timeout or CLOSE_SECONDS)
        except asyncio.TimeoutError:
            self._writer.transport.abort()
        except OSError:
            pass  # the other side is gone

    async def __aenter__(self) -> AsyncDrive:
        return self

    async def __aexit__(self, kind: Optional[Type[BaseException]], error: Optional[BaseException],
                        trace: Optional[TracebackType]) -> None:
        await self.close()

    def at(self, moment: When) -> AsyncPast:
        """The drive as it was at a moment; an age is counted from now, once."""
        return AsyncPast(self, moment_of(moment))

    async def _take_replies(self) -> None:
        """Gives each reply to the request whose turn it is."""
        try:
            while True:
                length = int.from_bytes(await self._reader.readexactly(4), "big")
                if not 1 <= length <= READ_BYTES + 1:
                    raise BadReply(f"a reply has no {length:,} bytes")
                body = await self._reader.readexactly(length)
                if body == TURNED_AWAY:
                    self._is_turned_away = True
                    self._fail("no session was to be had; nothing was passed on" if self._is_new else ENDED)
                    return
                self._is_new = False
                if not self._waiting:
                    raise BadReply("a reply without a request")
                _, future = self._waiting.popleft()
                if not future.done():
                    future.set_result(body)
        except asyncio.IncompleteReadError:
            self._fail("the stream ended before the reply")
        except (OSError, BadReply) as error:
            self._is_turned_away = self._is_new and refuses_certificate(error)
            self._fail(f"the reply could not be read: {error}")

    def _fail(self, why: str) -> None:
        """Ends the session at once."""
        self._lose_all(why)
        if not self._writer.transport.is_closing():
            self._writer.transport.abort()

    def _lose_all(self, why: str) -> None:
        """Nothing is sent or taken any more, and all requests that wait have lost their replies."""
        self._end = self._end or why
        self._taking.cancel()
        while self._waiting:
            request, future = self._waiting.popleft()
            if not future.done():
                future.set_exception(NotAsked(why) if self._is_turned_away else lost_reply(request, why))
                future.exception()  # whoever waited may have been cancelled: then nobody looks at it

    async def _ask(self, request: Request[T]) -> T:
        for wait in self._retry.waits():
            try:
                return await self._once(request)
            except self._retry.refusals:
                await asyncio.sleep(wait)
        return await self._once(request)

    async def _once(self, request: Request[T]) -> T:
        if self._end is not None:
            kind = NotAsked if self._is_turned_away else Disconnected
            raise kind(f"the session has ended: {self._end}")
        loop = asyncio.get_running_loop()
        future: asyncio.Future[bytes] = loop.create_future()
        self._waiting.append((request, future))
        self._writer.write(request.frame())
        if self._timeout is not None:
            timer = loop.call_later(self._timeout, self._fail, f"timed out after {self._timeout:g} seconds")
            future.add_done_callback(lambda _: timer.cancel())
        await self._drain()
        return self._answer(request, await future)

    async def _drain(self) -> None:
        """Waits while too much is unsent."""
        try:
            async with self._draining:
                await self._writer.drain()
        except OSError as error:
            self._fail(f"the request could not be sent: {error}")

    def _answer(self, request: Request[T], body: bytes) -> T:
        try:
            answer = request.answer(body)
        except BadReply as error:
            self._fail(str(error))
            raise
        if isinstance(answer, Refused):
            raise answer
        return answer

    async def _follow(self, steps: Steps[T]) -> T:
        """What comes of requests of which each depends on the answers before it."""
        try:
            request = next(steps)
            while True:
                try:
                    answer = await self._ask(request)
                except Refused as refusal:
                    request = steps.throw(refusal)
                else:
                    request = steps.send(answer)
        except StopIteration as end:
            return cast(T, end.value)

    async def history(self, object: int) -> List[Span]:
        return await self._search(history_of(object))

    async def shown_before(self, object: int, found: Attributes) -> List[int]:
        return await self._search(shown_before(object, found))

    async def _search(self, search: Search[T]) -> T:
        """What comes of requests of which several are sent together."""
        try:
            requests = next(search)
            while True:
                requests = search.send(await asyncio.gather(*map(self._answer_or_refusal, requests)))
        except StopIteration as end:
            return cast(T, end.value)

    async def _answer_or_refusal(self, request: Request[Any]) -> Any:
        try:
            return await self._ask(request)
        except Refused as refusal:
            return refusal

    async def create(self, attribute: bytes = b"") -> Created:
        return await self._ask(wire.create(attribute))

    async def delete(self, object: int) -> int:
        return await self._ask(wire.delete(object))

    async def read(self, object: int, offset: int = 0, length: Optional[int] = None, at: Optional[When] = None) -> bytes:
        if length is not None:
            return await self._ask(wire.read(object, offset, length, at))
        return await self._follow(read_all(object, offset, at))

    async def write(self, object: int, offset: int, data: bytes) -> int:
        return await self._ask(wire.write(object, offset, data))

    async def write_pieces(self, object: int, offset: int, data: bytes) -> List[int]:
        batches = write_batches(object, offset, data)
        return [moment for batch in batches for moment in await self._all_changes(batch)]

    async def _all_changes(self, requests: List[Request[int]]) -> List[int]:
        """The moments of changes that are sent together. What failed first in their order is raised."""
        found = await asyncio.gather(*[self._ask(it) for it in requests], return_exceptions=True)
        return [answered(it) for it in found]

    async def append(self, object: int, data: bytes) -> int:
        return await self._ask(wire.append(object, data))

    async def truncate(self, object: int, size: int) -> int:
        return await self._ask(wire.truncate(object, size))

    async def attributes(self, object: int, at: Optional[When] = None) -> Attributes:
        return await self._ask(wire.attributes(object, at))

    async def audit(self, first: When = 0) -> AsyncIterator[AuditRow]:
        page = await self._ask(wire.audit(first, AUDIT_ROWS))
        while page:
            for row in page:
                yield row
            last = page[-1].moment
            page = await self._ask(wire.audit(last + 1, AUDIT_ROWS)) if len(page) == AUDIT_ROWS and last < LAST else []

    async def set_attribute(self, object: int, attribute: bytes) -> int:
        return await self._ask(wire.set_attribute(object, attribute))

    async def set_window(self, moments: int) -> int:
        return await self._ask(wire.set_window(moments))

    async def flush(self, first: When, last: When) -> int:
        return await self._ask(wire.flush(first, last))

    async def flush_object(self, object: int, first: When, last: When) -> int:
        return await self._ask(wire.flush_object(object, first, last))


class AsyncPast:
    """A drive as it was at a moment: it can be read, and nobody can change it."""

    def __init__(self, drive: AsyncDrive, moment: int) -> None:
        self._drive, self.moment = drive, moment

    async def read(self, object: int, offset: int = 0, length: Optional[int] = None) -> bytes:
        return await self._drive.read(object, offset, length, at=self.moment)

    async def attributes(self, object: int) -> Attributes:
        return await self._drive.attributes(object, at=self.moment)


def answered(found: Union[T, BaseException]) -> T:
    """An answer; an error is raised."""
    if isinstance(found, BaseException):
        raise found
    return found


def lost_reply(request: Request[Any], why: str) -> ReplyLost:
    """The error of a request that was sent, and got no reply."""
    lost = ReplyLost(why)
    lost.request, lost.object, lost.at = request.name, request.object, request.at
    return lost


async def opened(address: Address, tls: Tls) -> Streams:
    """The streams of a socket that is connected to an address."""
    if address.kind == "unix":
        return await asyncio.open_unix_connection(address.path)
    context = tls.context() if address.kind == "tls" else None
    return await asyncio.open_connection(address.host, address.port, ssl=context)
