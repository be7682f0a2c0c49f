"""A drive of a store: its service, which is started again where it ends, and a few sessions that requests share."""
from __future__ import annotations

import asyncio
import contextlib
from typing import Awaitable, Callable, List, Optional, Protocol, Set, TypeVar

from ..async_drive import AsyncDrive
from ..errors import BadReply, Disconnected, ReplyLost
from .service import say
from .settings import StoreFault
from .shares import Shares

T = TypeVar("T")

SESSIONS = 8  # of a drive at once, of the sixteen that it serves: each has one request in flight, and access keys take turns
REPLY_SECONDS = 300.0  # that a drive may take for a reply
FIRST_WAIT = 0.5
LONGEST_WAIT = 60.0  # seconds between starts of a service that ends again and again


class DriveAway(Exception):
    """A drive doesn't answer now. Where it was asked, it may have done what was asked."""

    def __init__(self, number: int, was_asked: bool) -> None:
        super().__init__(f"drive {number} doesn't answer")
        self.number, self.was_asked = number, was_asked


class Serves(Protocol):
    """What serves a drive. `ended` waits until it doesn't any more, and `next_step` says what is done then."""

    async def start(self) -> None: ...

    async def start_again(self) -> None: ...

    async def ended(self) -> str: ...

    def next_step(self, wait: float, /) -> str: ...

    async def session(self, timeout: float, /) -> AsyncDrive: ...

    def kill(self) -> None: ...

    async def stop(self) -> None: ...


class StoreDrive:
    """`ask` lends one of the sessions for one request. `is_served` says whether one may be had now, `is_remote` whether the drive is
    on another machine.
    """

    def __init__(self, number: int, service: Serves, is_remote: bool = False) -> None:
        self.number, self._service, self.is_remote = number, service, is_remote
        self.is_served, self._is_stopping = False, False
        self._idle: List[AsyncDrive] = []
        self._closing: Set[asyncio.Future[None]] = set()
        self._shares = Shares(SESSIONS)
        self._watching: Optional[asyncio.Future[None]] = None

    async def start(self) -> None:
        """Returns once it is served. StoreFault where it can't be."""
        await self._service.start()
        self.is_served = True
        self._watching = asyncio.ensure_future(self._watch())

    def start_away(self) -> None:
        """It isn't served: that is tried again and again."""
        self._watching = asyncio.ensure_future(self._watch())

    async def _watch(self) -> None:
        """Starts the service again where it ends."""
        wait = FIRST_WAIT
        while True:
            loop = asyncio.get_running_loop()
            since = loop.time()
            said = await self._service.ended()
            self.is_served = False
            wait = FIRST_WAIT if loop.time() - since > LONGEST_WAIT else min(2 * wait, LONGEST_WAIT)
            say(f"drive {self.number} isn't served any more: {said}; {self._service.next_step(wait)}")
            await asyncio.sleep(wait)
            await self._start_again()

    async def _start_again(self) -> None:
        try:
            await self._service.start_again()
        except (StoreFault, OSError) as error:  # it is said, and tried again
            say(f"{error}")
            return
        self.is_served = True
        say(f"drive {self.number} is served again")

    async def stop(self) -> None:
        """Ends sessions and service."""
        self._is_stopping = True
        if self._watching is not None:  # first, so that no other service is started meanwhile
            self._watching.cancel()
            with contextlib.suppress(asyncio.CancelledError):
                await self._watching
        if not self.is_served:
            self._service.kill()  # it starts still, and has replied nothing
        for session in self._idle:
            await session.close()
        self._idle = []
        await self._service.stop()

    async def ask(self, work: Callable[[AsyncDrive], Awaitable[T]]) -> T:
        """What one request is answered, in a session that nobody else has meanwhile. A refusal is raised as it is.

        DriveAway where there is no answer.
        """
        async with self._shares.place():
            for _ in range(SESSIONS + 1):  # each session that is left from an earlier service, and a new one
                session = await self._session()
                try:
                    found = await work(session)
                except (ReplyLost, BadReply) as error:
                    self._give_up()
                    raise DriveAway(self.number, was_asked=True) from error
                except Disconnected:
                    continue
                except BaseException:  # a refusal, or a cancellation: the next request's reply comes after this one's
                    self._take_back(session)
                    raise
                self._take_back(session)
                return found
        raise DriveAway(self.number, was_asked=False)

    def _take_back(self, session: AsyncDrive) -> None:
        """Takes a session that was lent. While the drive isn't served it holds no place there."""
        if self.is_served or self._is_stopping:
            self._idle.append(session)
        else:
            closing = asyncio.ensure_future(session.close())
            self._closing.add(closing)
            closing.add_done_callback(self._closing.discard)

    def _give_up(self) -> None:
        """Ends a service that has lost a reply, so that what was asked isn't done after somebody has looked whether it was."""
        self.is_served, idle, self._idle = False, self._idle, []
        self._service.kill()
        for session in idle:
            self._take_back(session)

    async def _session(self) -> AsyncDrive:
        if not self.is_served or self._is_stopping:
            raise DriveAway(self.number, was_asked=False)
        if self._idle:
            return self._idle.pop()
        try:
            return await self._service.session(REPLY_SECONDS)
        except (OSError, Disconnected, BadReply) as error:
            raise DriveAway(self.number, was_asked=False) from error
