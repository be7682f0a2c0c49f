"""The service of a drive that another program starts and stops: it is asked, and nothing else.

The requests of a session that was lost may still be done for a while, as here nobody can end the service: so nothing is asked until
that can't be any more. On another machine, reached by TLS through the bridge there, that is after some time; on this one it is as
soon as the service has no other session.
"""
from __future__ import annotations

import asyncio
import contextlib
import os
from typing import Optional

from ..addresses import address_of
from ..async_drive import AsyncDrive, answered, opened
from ..doors import Door, Seats
from ..errors import Error, NotAsked
from ..tls import Tls
from ..wire import Created
from .numbers import Numbers
from .service import let_go, take_door
from .sessions import first_reply, session_at
from .settings import Remote, StoreFault, drive_folder

LOST = (OSError, Error)  # what is met where it doesn't answer, or has no room for a session
CONNECT_SECONDS = 10.0  # that another machine may take until it is connected
OPENINGS = 2  # handshakes at once: a bridge performs four of an address
ANSWER_SECONDS = 30.0  # that a drive there may take for a reply
REPLY_SECONDS = 300.0  # that one of this machine may take for a reply
DOOR_SECONDS = 1.0  # between looks whether it still reads at its door
PLACES = 16  # of clients that a service serves at once
LOOK_SECONDS = 15.0  # between looks whether it still answers
AGAIN_SECONDS = 2.0  # between these while it doesn't
QUIET_SECONDS = 10.0  # that a request may take to be done whose reply was lost
NEXT = "it is asked until it answers again"


class Elsewhere:
    """`_open` gives a session that has answered, and `_settle` returns once no earlier session's requests can be done any more."""

    is_own = False

    def __init__(self, number: int, name: str) -> None:
        self._number, self._name = number, name
        self._lost: Optional[asyncio.Future[str]] = None
        self._kept: Optional[AsyncDrive] = None  # by which it is looked whether it answers

    def take(self) -> None:
        """There is nothing here that others may not have."""

    async def end_earlier(self) -> None:
        """Whatever serves it goes on."""

    async def start(self) -> None:
        """Returns once it answers. StoreFault where it doesn't."""
        try:
            await self._settle()
            await self._look()
        except LOST as error:
            raise StoreFault(f"drive {self._number} isn't served: {self._named(error)}") from error
        self._lost = asyncio.get_running_loop().create_future()

    async def start_again(self) -> None:
        """Returns once it answers, however long that takes."""
        while True:
            with contextlib.suppress(StoreFault):
                return await self.start()
            await asyncio.sleep(AGAIN_SECONDS)

    async def _settle(self) -> None:
        raise NotImplementedError

    async def _open(self) -> AsyncDrive:
        raise NotImplementedError

    async def _look(self) -> None:
        """Asks something that changes nothing, in another session where the one that was has ended. One of LOST where nothing is
        answered.
        """
        if self._kept is not None:
            with contextlib.suppress(*LOST):
                return await first_reply(self._kept)
            await self._let_go()
        self._kept = await self._opened()

    async def _opened(self) -> AsyncDrive:
        """A session, of a second try where the first fails: a bridge ends a handshake that takes too long, as when many come."""
        with contextlib.suppress(*LOST):
            return await self._open()
        return await self._open()

    def _named(self, error: Exception) -> str:
        return f"{self._name}: {str(error) or type(error).__name__}"

    async def _let_go(self) -> None:
        kept, self._kept = self._kept, None
        if kept is not None:
            await kept.close()

    def next_step(self, _wait: float) -> str:
        return NEXT

    async def ended(self) -> str:
        """Waits until it doesn't answer any more: why."""
        lost = self._lost
        if lost is None:
            return "it was never served"
        while not lost.done():
            await asyncio.wait({lost}, timeout=LOOK_SECONDS)
            try:
                if not lost.done():
                    await self._look()
            except LOST as error:
                self._lose(self._named(error))
        return lost.result()

    def _lose(self, why: str) -> None:
        if self._lost is not None and not self._lost.done():
            self._lost.set_result(why)

    async def session(self, _timeout: float) -> AsyncDrive:
        """A session that has answered. NotAsked where none is to be had."""
        try:
            return await self._opened()
        except LOST as error:
            self._lose(self._named(error))
            raise NotAsked(self._named(error)) from error

    def kill(self) -> None:
        """A reply was lost: nothing is asked until what was asked is done, or never will be."""
        self._lose(f"{self._name}: a reply was lost")

    async def stop(self) -> None:
        """Ends what is asked of it."""
        await self._let_go()


class FoundService(Elsewhere):
    """A drive of this machine, by its door for clients, whose service another program looks after, as systemd does."""

    def __init__(self, folder: str, number: int) -> None:
        path = os.path.join(drive_folder(folder, number), "doors", "client")
        super().__init__(number, path)
        self._door = Door("client", path, Seats(0, 0, 0.0))

    def take(self) -> None:
        take_door(self._door, self._number)

    async def _settle(self) -> None:
        """Takes all places that the service has for clients at once: so no earlier session has one, and what was asked there is done."""
        await self._let_go()
        found = await asyncio.gather(*[self._open() for _ in range(PLACES)], return_exceptions=True)
        await asyncio.gather(*[it.close() for it in found if isinstance(it, AsyncDrive)])
        for it in found:
            answered(it)

    async def _open(self) -> AsyncDrive:
        opening = asyncio.ensure_future(session_at(self._door, REPLY_SECONDS))
        try:
            while not opening.done():
                await asyncio.wait({opening}, timeout=DOOR_SECONDS)
                if not opening.done() and not self._door.has_service():
                    raise NotAsked("no service reads at this door")
            return opening.result()
        except BaseException:
            opening.cancel()
            opening.add_done_callback(let_go)
            raise

    async def stop(self) -> None:
        await super().stop()
        self._door.close()


class RemoteService(Elsewhere):
    """A drive of another machine, by TLS. `numbers` are those of its objects."""

    def __init__(self, folder: str, remote: Remote) -> None:
        super().__init__(remote.drive, remote.address)
        self._remote, self.quiet = remote, 0.0
        self._openings = asyncio.Semaphore(OPENINGS)
        self.numbers = Numbers(os.path.join(drive_folder(folder, remote.drive), "numbers"))

    async def start(self) -> None:
        """The same; StoreFault names a file of the certificates that can't be read, which TLS itself doesn't."""
        try:
            for path in (self._remote.ca, self._remote.cert, self._remote.key):
                with open(path, "rb"):
                    pass
        except OSError as error:
            raise StoreFault(f"drive {self._number}: {error.filename}: {error.strerror}") from error
        await super().start()

    def wait_for_earlier(self) -> None:
        """What another program has asked may still be done: it is waited for at the start."""
        self.quiet = asyncio.get_running_loop().time() + QUIET_SECONDS

    def is_quiet(self) -> bool:
        """Whether what was asked may still be done."""
        return self.quiet > asyncio.get_running_loop().time()

    def kill(self) -> None:
        if self._lost is not None:  # else nothing was asked yet
            self.wait_for_earlier()
        super().kill()

    async def _settle(self) -> None:
        if self.is_quiet():
            await asyncio.sleep(self.quiet - asyncio.get_running_loop().time())

    async def _open(self) -> AsyncDrive:
        tls = Tls(self._remote.ca, self._remote.cert, self._remote.key)
        try:
            async with self._openings:
                reader, writer = await asyncio.wait_for(opened(address_of(self._remote.address), tls), CONNECT_SECONDS)
        except asyncio.TimeoutError:
            raise TimeoutError(f"timed out after {CONNECT_SECONDS:g} seconds") from None
        session = NumberedDrive(self.numbers, reader, writer)
        try:
            await first_reply(session)
        except BaseException:
            await session.close()
            raise
        return session


class NumberedDrive(AsyncDrive):
    """A session that notes the numbers of the objects that it makes."""

    def __init__(self, numbers: Numbers, reader: asyncio.StreamReader, writer: asyncio.StreamWriter) -> None:
        super().__init__(reader, writer, ANSWER_SECONDS)
        self._numbers = numbers

    async def create(self, attribute: bytes = b"") -> Created:
        made = await super().create(attribute)
        self._numbers.made(made.object)
        return made
