"""The service `s4serve` of one drive, as a process of this one."""
from __future__ import annotations

import asyncio
import contextlib
import os
import signal
import sys
from typing import Any, Optional, Set

from ..async_drive import AsyncDrive
from ..doors import FLAGS, Door, Seats
from ..errors import SERVED, NotAsked
from .sessions import session_at
from .settings import StoreFault, drive_folder, image_path

SERVES = "s4serve: serves "  # how the line begins that says that sessions can be asked for
START_SECONDS = 600.0  # that a start may take; after a kill it waits ten seconds by itself
STOP_SECONDS = 120.0  # that a service has to keep its drive and end
LOOK_SECONDS = 0.05  # between looks whether an earlier service has ended
AGAIN_SECONDS = 1.0  # between starts while an earlier service still has the image


def say(line: str) -> None:
    """Writes a line for whoever looks after the store."""
    with contextlib.suppress(OSError):
        print(f"s4store: {line}", file=sys.stderr, flush=True)


def let_go(opening: asyncio.Future[AsyncDrive]) -> None:
    """Closes a session that nobody waits for any more, where it was opened."""
    if not opening.cancelled() and opening.exception() is None:
        asyncio.ensure_future(opening.result().close())


def take_door(door: Door, number: int) -> None:
    """Takes the door of a drive, of which no other program may ask for sessions. StoreFault where another has it."""
    try:
        door.take()
    except OSError as error:
        raise StoreFault(f"drive {number}: {error.filename}: {error.strerror}") from error


class Service:
    """Starts and stops the process, and passes on what it says. Its sessions are asked for at `door`."""

    is_own = True

    def __init__(self, folder: str, number: int, program: str, leap: Optional[str]) -> None:
        self._number, self._program = number, program
        self._doors = os.path.join(drive_folder(folder, number), "doors")
        self._image = image_path(folder, number)
        self._leap = [] if leap is None else ["--leap", leap]
        self.door = Door("client", os.path.join(self._doors, "client"), Seats(0, 0, 0.0))
        self._process: Optional[asyncio.subprocess.Process] = None
        self._hearing: Optional[asyncio.Future[None]] = None
        self._last = "it said nothing"

    def take(self) -> None:
        take_door(self.door, self._number)

    async def end_earlier(self) -> None:
        """Ends the service that a killed program left, so that all it had accepted is in the image. StoreFault where it stays."""
        loop = asyncio.get_running_loop()
        end = loop.time() + STOP_SECONDS
        if self.door.has_service():
            self._say_stop()
        while self.door.has_service():
            if loop.time() > end:
                raise StoreFault(f"drive {self._number}: another program serves it: end that one")
            await asyncio.sleep(LOOK_SECONDS)

    async def start(self) -> None:
        """Returns once sessions can be asked for. StoreFault, with the program's line, where it doesn't serve.

        A service that a killed program had just begun to start has the image, and its doors not yet: it is waited for and ended."""
        loop = asyncio.get_running_loop()
        end = loop.time() + STOP_SECONDS
        while not await self._serves():
            if not self._last.endswith(SERVED) or loop.time() > end:
                raise StoreFault(f"drive {self._number} isn't served: {self._last}")
            await asyncio.sleep(AGAIN_SECONDS)
            await self.end_earlier()

    async def start_again(self) -> None:
        """The same, after it has ended."""
        await self.start()

    def next_step(self, wait: float) -> str:
        return f"it is started again in {wait:g} s"

    async def _serves(self) -> bool:
        """Starts the process, and says whether sessions can be asked for. Where they can't, it has ended."""
        words = [self._program, *self._leap]
        words += [f"--door={role}={os.path.join(self._doors, role)}" for role in ("client", "admin")]
        null, pipe = asyncio.subprocess.DEVNULL, asyncio.subprocess.PIPE
        try:
            self._process = await asyncio.create_subprocess_exec(*words, self._image, stdin=null, stdout=null, stderr=pipe,
                                                                 start_new_session=True)  # no Ctrl-C reaches it
        except OSError as error:
            raise StoreFault(f"{self._program}: {error.strerror}") from error
        serves: asyncio.Future[None] = asyncio.get_running_loop().create_future()
        self._hearing = asyncio.ensure_future(self._hear(self._process, serves))
        await asyncio.wait({serves, self._hearing}, timeout=START_SECONDS, return_when=asyncio.FIRST_COMPLETED)
        if serves.done():
            return True
        serves.cancel()
        await self._stop()
        return False

    async def _hear(self, process: asyncio.subprocess.Process, serves: asyncio.Future[None]) -> None:
        """Passes on what the process says, until it has ended."""
        lines = process.stderr
        while lines is not None:
            line = (await lines.readline()).decode("utf-8", "replace").rstrip("\n")
            if not line:
                break
            if line.startswith(SERVES):
                if not serves.done():
                    serves.set_result(None)
                continue
            self._last = line
            say(f"drive {self._number}: {line}")
        await process.wait()

    async def session(self, timeout: float) -> AsyncDrive:
        """A session that the process has opened. NotAsked where it doesn't, or ends meanwhile."""
        opening = asyncio.ensure_future(session_at(self.door, timeout))
        try:
            waited: Set[asyncio.Future[Any]] = {opening} if self._hearing is None else {opening, self._hearing}
            await asyncio.wait(waited, return_when=asyncio.FIRST_COMPLETED)
            if opening.done():
                return opening.result()
            raise NotAsked("the service has ended")
        except BaseException:
            opening.cancel()
            opening.add_done_callback(let_go)  # it may be there already
            raise

    async def ended(self) -> str:
        """Waits until the process has ended: its last line, and its status."""
        if self._hearing is not None:
            await asyncio.wait({self._hearing})
        status = None if self._process is None else self._process.returncode
        return f"{self._last} (status {status})"

    async def stop(self) -> None:
        """Ends the process in order, and kills it where it doesn't end in time: what it replied is kept in any case."""
        await self._stop()
        self.door.close()

    async def _stop(self) -> None:
        if self._process is None or self._hearing is None:
            return
        self._say_stop()
        done, _ = await asyncio.wait({self._hearing}, timeout=STOP_SECONDS)
        if not done:
            say(f"drive {self._number}: its service didn't end in {STOP_SECONDS:g} seconds, and is killed")
            self.kill()
            await asyncio.wait({self._hearing})

    def kill(self) -> None:
        """Ends the process at once, which loses nothing that it replied."""
        if self._process is not None and self._process.returncode is None:
            with contextlib.suppress(ProcessLookupError):
                os.kill(self._process.pid, signal.SIGKILL)  # the object's own `kill` may take its status from the loop

    def _say_stop(self) -> None:
        with contextlib.suppress(OSError):  # nobody reads it: the service has ended
            door = os.open(os.path.join(self._doors, "admin", "door"), os.O_WRONLY | FLAGS)
            try:
                os.write(door, b"stop\n")
            finally:
                os.close(door)
