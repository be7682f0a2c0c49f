"""One client's session: its requests go to a service's pipes, and the replies back."""
from __future__ import annotations

import asyncio
import contextlib
import time
from collections import deque
from dataclasses import dataclass, field, replace
from typing import Any, Awaitable, Callable, Deque, Dict, Optional

from . import frames
from .doors import Pipes
from .frames import BAD, BAD_FRAME, LENGTH_BYTES, Asked, Replies, Said
from .handshakes import origin_of
from .pace import Overdue
from .wire import BODY_BYTES, TURNED_AWAY

# Requests of a session that may wait for replies; more aren't taken from its client meanwhile. A service keeps all that it finds in a pipe
# at once, so of a client with a pipeline it does as many changes a flush.
MOST_ASKED = 1_024
ALWAYS_ASKED = 64  # of them, where those of its peer have MOST_ASKED together: one loop has all replies, and others wait for it
LINGER_SECONDS = 5.0  # that what was written may take to leave, and the end of a client of TLS to come
DISMISS_SECONDS = 1.0  # that what a client still sends is taken once it is turned away

# How a session ended.
CLIENT_ENDED = "client ended"
CUT_FRAME = "cut frame"  # the client ended inside a request, of which nothing was passed on
LONG_FRAME = "long frame"
CLIENT_GONE = "client gone"  # nothing can be written to it
IDLE = "idle"
STOPPED = "stopped"
SERVICE_ENDED = "service ended"
NOT_OPENED = "not opened"
BAD_REPLY = "bad reply"
OVER_SHARE = "over share"  # a change waited too long for its peer's share


@dataclass(eq=False)
class Client:
    """A client that is connected: its role, what the log has of it, its streams, and its certificate where it has one.

    `lost` says what it has lost since it came, its role or its certificate: it gets no session then, and keeps none.
    """

    role: str
    peer: Dict[str, Any]
    reader: asyncio.StreamReader
    writer: asyncio.StreamWriter
    certificate: Dict[str, Any] = field(default_factory=dict)
    lost: Optional[str] = None

    @property
    def who(self) -> str:
        """The peer that it belongs to: a common name, or a user's number."""
        return who_of(self.peer)

    def fault(self) -> Optional[str]:
        """Why it needs no session any more: it has lost its role, has ended the connection and left nothing to be answered,
        or can't be understood any more. None where it does.
        """
        is_gone = self.reader.at_eof() or self.reader.exception() is not None or self.writer.transport.is_closing()
        return self.lost or (CLIENT_GONE if is_gone else None)

    def dismiss(self) -> None:
        """Says that it has no session, or none any more, and that nothing was passed on since. Nothing more is written."""
        if not self.writer.transport.is_closing():
            with contextlib.suppress(OSError):  # it can't be written to any more
                self.writer.write(len(TURNED_AWAY).to_bytes(LENGTH_BYTES, "big") + TURNED_AWAY)
                self.writer.write_eof()

    async def drop_requests(self) -> None:
        """Takes what it sends for a moment, until it has ended: to a closed connection it couldn't send it."""
        with contextlib.suppress(OSError, asyncio.TimeoutError):
            await asyncio.wait_for(self._read_to_end(), DISMISS_SECONDS)

    async def _read_to_end(self) -> None:
        while await self.reader.read(BODY_BYTES):
            pass

    def close(self) -> None:
        """Ends the connection after what was written, and soon in any case."""
        if not self.writer.transport.is_closing():
            self.writer.close()
            asyncio.get_running_loop().call_later(LINGER_SECONDS, self.abort)

    async def closed(self) -> None:
        """Waits until it is closed."""
        with contextlib.suppress(OSError):
            await self.writer.wait_closed()

    def abort(self) -> None:
        """Ends the connection at once."""
        self.writer.transport.abort()


def who_of(peer: Dict[str, Any]) -> str:
    """Who is meant by what the log has of a client, however often it comes: a name or a user; an address where there is neither."""
    if peer.get("name") is not None:
        return f"name {peer['name']}"
    if "uid" in peer:
        return f"uid {peer['uid']}"
    return f"address {origin_of(peer['address'].rpartition(':')[0])}"


Report = Callable[[Asked, Optional[Said], float], None]  # a request, what its reply said or None, and how long it took
Settle = Callable[[], Awaitable[None]]  # waits until what was reported is in the log
PassOn = Callable[[Asked, int], Awaitable[None]]  # waits until a request of so many bytes may be passed on; Overdue where it may not
Unanswered = Callable[[], int]  # requests that wait for replies, of all sessions of a peer


class Relay:
    """Passes whole requests on, so that a client that ends inside one, or sends one too long, changes nothing there."""

    def __init__(self, client: Client, pipes: Pipes, report: Report, settle: Settle, pass_on: PassOn, unanswered: Unanswered) -> None:
        self.client, self._pipes, self._report, self._settle, self._pass_on = client, pipes, report, settle, pass_on
        self._unanswered = unanswered
        self._asked: Deque[Asked] = deque()
        self._room = asyncio.Event()
        self._room.set()
        self._end: Optional[str] = None
        self._is_reading, self._is_stopping, self._is_writing, self._is_held_back = False, False, False, False
        self._requests: Optional[asyncio.Future[None]] = None
        self._replies: Optional[asyncio.Future[None]] = None
        self.began = self.moved = time.monotonic()  # and when it last moved
        self._has_replied = False
        client.writer.transport.set_write_buffer_limits(high=0)  # so that a reply counts as taken once it has left

    async def run(self) -> str:
        """Serves the session, and says how it ended. Its pipes are closed by then, and the connection unless it ended OVER_SHARE."""
        self._requests = asyncio.ensure_future(self._pass_requests())
        self._replies = asyncio.ensure_future(self._pass_replies())
        try:
            await self._replies
        except asyncio.CancelledError:
            if self._end is None:  # not ended by `end`, but cancelled with the whole bridge
                self._note(STOPPED)
                raise
        finally:
            self._requests.cancel()
            self._replies.cancel()
            await asyncio.wait({self._requests, self._replies})
            self._pipes.close()
            self._report_lost()
            if self._end != OVER_SHARE:
                self.client.close()
        return self._end or SERVICE_ENDED

    def stop(self, why: str = STOPPED) -> None:
        """Takes no further request; the session ends once those that it has are answered."""
        self._note(why)
        self._is_stopping = True
        if (self._is_reading or self._is_held_back) and self._requests is not None:
            self._requests.cancel()

    def end(self, why: str) -> None:
        """Ends the session now."""
        self._note(why)
        if self._replies is not None:
            self._replies.cancel()
        self.client.abort()

    def is_idle(self, seconds: float) -> bool:
        """Whether the client has sent no whole request and taken no reply for that time, and nothing is owed to it."""
        waits = (self._asked or self._is_held_back) and not self._is_writing
        return not waits and time.monotonic() - self.moved >= seconds

    def is_unopened(self, seconds: float) -> bool:
        """Whether the service hasn't opened the session in that time, or has gone before its first reply.

        After one the end of the replies says that it has gone.
        """
        if self._has_replied or time.monotonic() - self.began < seconds:
            return False
        return not self._pipes.is_opened()

    def _note(self, end: str) -> None:
        """The first reason is the one that counts."""
        self._end = self._end or end

    async def _pass_requests(self) -> None:
        """Ends at the client's end, or at the session's; the service then finds the end of its requests."""
        try:
            while not self._is_stopping:
                frame = await self._next_frame()
                if frame is None:
                    return
                asked = frames.asked(frame[LENGTH_BYTES:], time.monotonic())
                await self._hold_back(asked, len(frame))
                self._asked.append(replace(asked, since=time.monotonic()))
                await self._pipes.write(frame)
                self.moved = time.monotonic()
                await self._wait_for_room()
        except Overdue:
            self._note(OVER_SHARE)
        except BrokenPipeError:
            pass  # the end of the replies says that the service has gone
        finally:
            self._pipes.end_requests()

    async def _hold_back(self, asked: Asked, size: int) -> None:
        """Waits until a request may be passed on."""
        self._is_held_back = True
        try:
            await self._pass_on(asked, size)
        finally:
            self._is_held_back = False

    async def _next_frame(self) -> Optional[bytes]:
        """The client's next request, whole; None where there is none, with the reason noted."""
        self._is_reading, head = True, b""
        try:
            head = await self.client.reader.readexactly(LENGTH_BYTES)
            length = int.from_bytes(head, "big")
            if length > BODY_BYTES:
                self._note(LONG_FRAME)
                return None
            return head + await self.client.reader.readexactly(length)
        except asyncio.IncompleteReadError as error:
            self._note(CUT_FRAME if head or error.partial else CLIENT_ENDED)
        except OSError:
            self._note(CLIENT_GONE)
        finally:
            self._is_reading = False
        return None

    async def _wait_for_room(self) -> None:
        while not self._has_room():
            self._room.clear()
            await self._room.wait()  # for a reply of its own, of which some are due

    def _has_room(self) -> bool:
        """Whether one more request may wait for its reply."""
        count = len(self._asked)
        return count < ALWAYS_ASKED or count < MOST_ASKED and self._unanswered() < MOST_ASKED

    async def _pass_replies(self) -> None:
        """Ends with the replies, or where the client can't be written to."""
        replies = Replies()
        try:
            while True:
                data = await self._pipes.read()
                if not data:
                    break
                self._has_replied = True
                whole = replies.take(data)
                for reply in whole:
                    self._answered(reply)
                await self._settle()
                await self._write(b"".join(whole))
            if self._end == LONG_FRAME:
                self._report(Asked(BAD, {}, time.monotonic()), {"refusal": "BadFrame"}, 0.0)
                await self._write(BAD_FRAME)
        except (ValueError, IndexError):
            self._note(BAD_REPLY)
        except OSError:
            self._note(CLIENT_GONE)

    def _answered(self, reply: bytes) -> None:
        """Takes a reply for the request that is its turn; IndexError where none is."""
        asked = self._asked.popleft()
        self._room.set()
        self._report(asked, frames.answered(reply[LENGTH_BYTES:]), time.monotonic() - asked.since)

    async def _write(self, data: bytes) -> None:
        self._is_writing = True
        self.client.writer.write(data)
        await self.client.writer.drain()
        self._is_writing = False
        self.moved = time.monotonic()

    def _report_lost(self) -> None:
        """Says of each request that was passed on and has no reply."""
        while self._asked:
            asked = self._asked.popleft()
            self._report(asked, None, time.monotonic() - asked.since)
