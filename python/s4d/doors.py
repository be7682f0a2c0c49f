"""The doors of a service, at the side of who asks.

A door is a folder with a FIFO `door`. A line there is the name of a session, whose requests and replies go through the
FIFOs `NAME.in` and `NAME.out` in that folder. Whoever writes the line makes them, and holds both open.
"""
from __future__ import annotations

import asyncio
import contextlib
import errno
import fcntl
import os
import secrets
import stat
from collections import Counter
from typing import Callable, Dict, Iterable, List, NamedTuple, Optional, Tuple
from typing import Counter as Counted

FLAGS = os.O_NONBLOCK | os.O_NOFOLLOW | os.O_CLOEXEC  # of each FIFO: nobody waits for its other end, and links are none
PIECE = 65_536  # bytes of replies that are taken at once
PREFIX = "bridge-"  # of the names of a bridge's sessions


class TurnedAway(Exception):
    """A session can't be had. `why` is one of few texts, for log and counts; the fault is what the system said of it."""

    def __init__(self, why: str, fault: Optional[str] = None) -> None:
        super().__init__(why)
        self.why, self.fault = why, fault


class Place(NamedTuple):
    """Who waits for a seat: a peer, and what says why it needs none any more."""

    peer: str
    fault: Callable[[], Optional[str]]


class Seats:
    """How many sessions a door has at once, and who waits for one: first come, first served, but for peers that have as many as one may.

    At most `most_waiting` wait, each at most `seconds` long. One peer has at most `most_of_one` seats.
    """

    def __init__(self, count: int, most_waiting: int, seconds: float, most_of_one: Optional[int] = None) -> None:
        self._free, self._most, self._seconds = count, most_waiting, seconds
        self._most_of_one = count if most_of_one is None else most_of_one
        self._held: Counted[str] = Counter()  # seats of each peer that has some
        self._waiting: Dict[asyncio.Future[None], Place] = {}  # in the order in which they came

    @property
    def waiting(self) -> int:
        """How many wait."""
        return len(self._waiting)

    async def take(self, peer: str, fault: Callable[[], Optional[str]]) -> None:
        """Takes a seat, at once or in turn. TurnedAway where too many wait, no seat was left in time, or `fault` names one."""
        if self._free and self._held[peer] < self._most_of_one:  # then nobody waits who may have it
            self._seat(peer)
            return
        self.drop_gone()
        if len(self._waiting) >= self._most:
            self._make_room(peer)
        loop = asyncio.get_running_loop()
        place: asyncio.Future[None] = loop.create_future()
        self._waiting[place] = Place(peer, fault)
        timer = loop.call_later(self._seconds, self._give_up, place, "waited too long")
        try:
            await place
        except asyncio.CancelledError:
            if place.done() and not place.cancelled() and place.exception() is None:
                self.leave(peer)  # it was handed on while the wait was being cancelled
            raise
        finally:
            timer.cancel()
            self._waiting.pop(place, None)

    def _make_room(self, peer: str) -> None:
        """Turns away who came last of the peer that waits with most, so that one peer doesn't fill the queue. TurnedAway, for who came,
        where its own has nearly as many.
        """
        count = Counter(it.peer for it in self._waiting.values())
        crowd, most = max(count.items(), key=lambda it: it[1], default=("", 0))
        if most <= count[peer] + 1:
            raise TurnedAway("queue full")
        self._give_up(next(place for place, it in reversed(list(self._waiting.items())) if it.peer == crowd), "queue full")

    def leave(self, peer: str) -> None:
        """Hands a peer's seat to who waits longest and may have it, or back."""
        self._held[peer] -= 1
        if not self._held[peer]:
            del self._held[peer]
        self._free += 1
        self.drop_gone()
        for place, it in list(self._waiting.items()):
            if self._free and self._held[it.peer] < self._most_of_one:
                del self._waiting[place]
                if not place.done():
                    self._seat(it.peer)
                    place.set_result(None)

    def _seat(self, peer: str) -> None:
        self._free -= 1
        self._held[peer] += 1

    def worth_ending(self, peers: Iterable[str]) -> List[bool]:
        """Whether a seat of each of these, which others would have before it, is one that somebody waits for who may have it then."""
        held, waiting = Counter(self._held), [it.peer for it in self._waiting.values()]
        found: List[bool] = []
        for peer in peers:
            held[peer] -= 1
            next_one = next((it for it in waiting if held[it] < self._most_of_one), None)
            found.append(next_one is not None)
            if next_one is not None:
                waiting.remove(next_one)
                held[next_one] += 1
            else:
                held[peer] += 1
        return found

    def drop_gone(self) -> None:
        """Turns away who doesn't wait any more, or may not."""
        for place, it in list(self._waiting.items()):
            why = it.fault()
            if why is not None:
                self._give_up(place, why)

    def turn_away(self, why: str) -> None:
        """Turns away all who wait, and who comes later unless a seat is free."""
        self._most = 0
        for place in list(self._waiting):
            self._give_up(place, why)

    def _give_up(self, place: asyncio.Future[None], why: str) -> None:
        self._waiting.pop(place, None)
        if not place.done():
            place.set_exception(TurnedAway(why))


class Pipes:
    """The two FIFOs of a session. They are open at this side before the service knows of them.

    The reading end of the requests is held, too, until `is_opened` is asked: so a service that opens them later finds
    a writer, and what was written isn't lost meanwhile.
    """

    def __init__(self, path: str) -> None:
        self._path = path
        self._held: Optional[int] = None
        self._sink: Optional[int] = None
        self._source: Optional[int] = None
        try:
            for end in ("in", "out"):
                os.mkfifo(f"{path}.{end}", 0o600)
                os.chmod(f"{path}.{end}", 0o660)  # whatever the umask is: the folder's mode says who gets there
            self._held = os.open(f"{path}.in", os.O_RDONLY | FLAGS)
            self._sink = os.open(f"{path}.in", os.O_WRONLY | FLAGS)
            self._source = os.open(f"{path}.out", os.O_RDONLY | FLAGS)
        except OSError:
            self.close()
            raise

    async def write(self, data: bytes) -> None:
        """Writes requests; BrokenPipeError where the service has closed them."""
        loop, sink, rest = asyncio.get_running_loop(), self._sink, memoryview(data)
        if sink is None:
            raise BrokenPipeError(errno.EPIPE, os.strerror(errno.EPIPE))
        while rest:
            try:
                rest = rest[os.write(sink, rest):]
            except BlockingIOError:
                await until(loop.add_writer, loop.remove_writer, sink)

    async def read(self) -> bytes:
        """The next bytes of replies; none once the service has closed them."""
        loop, source = asyncio.get_running_loop(), self._source
        if source is None:
            return b""
        while True:
            # Before the first byte there may be no writer yet, which a read would take for the end; a wait doesn't.
            await until(loop.add_reader, loop.remove_reader, source)
            with contextlib.suppress(BlockingIOError):
                return os.read(source, PIECE)

    def is_opened(self) -> bool:
        """Whether the service has the requests open now. From the first call on nothing else holds them open."""
        self._held = closed(self._held)
        try:
            closed(os.open(f"{self._path}.in", os.O_WRONLY | FLAGS))
        except OSError:  # nobody reads them
            return False
        return True

    def take_ends(self) -> Tuple[int, int]:
        """The descriptors that requests are written to and replies are read from, for who closes them from now on."""
        if self._sink is None or self._source is None:
            raise OSError(errno.EBADF, os.strerror(errno.EBADF))
        ends = self._sink, self._source
        self._sink = self._source = None
        return ends

    def end_requests(self) -> None:
        """The service finds the end after what was written."""
        self._sink = closed(self._sink)

    def close(self) -> None:
        """Closes both, and removes their names."""
        self.end_requests()
        self._held, self._source = closed(self._held), closed(self._source)
        for end in ("in", "out"):
            with contextlib.suppress(OSError):
                os.unlink(f"{self._path}.{end}")


class Door:
    """The door of one role, of which one bridge alone makes sessions."""

    def __init__(self, role: str, folder: str, seats: Seats) -> None:
        self.role, self.seats, self._folder = role, seats, folder
        self._lock: Optional[int] = None
        self._run, self._count = secrets.token_hex(8), 0

    def take(self) -> None:
        """Locks the folder, and removes what a bridge left there that was killed. OSError where that can't be done."""
        self._lock = os.open(self._folder, os.O_RDONLY | os.O_DIRECTORY | os.O_CLOEXEC)
        try:
            fcntl.flock(self._lock, fcntl.LOCK_EX | fcntl.LOCK_NB)
        except BlockingIOError:
            raise OSError(errno.EWOULDBLOCK, "another bridge has this door", self._folder) from None
        for name in os.listdir(self._folder):
            path = os.path.join(self._folder, name)
            if name.startswith(PREFIX) and stat.S_ISFIFO(os.lstat(path).st_mode):
                os.unlink(path)

    def new_name(self) -> str:
        """A name that no other session has, of an earlier bridge neither, whose lines may still be at the door."""
        self._count += 1
        return f"{PREFIX}{self._run}-{self._count}"

    def ask_for(self, name: str) -> Pipes:
        """A session's FIFOs, once their name is written at the door. TurnedAway where there is no service."""
        try:
            pipes = Pipes(os.path.join(self._folder, name))
        except OSError as error:
            raise TurnedAway("no pipes", str(error)) from error
        try:
            self._write_line(name)
        except OSError as error:
            pipes.close()
            raise TurnedAway("no service", str(error)) from error
        return pipes

    def _write_line(self, line: str) -> None:
        door = os.open(self._path, os.O_WRONLY | FLAGS)
        try:
            if not stat.S_ISFIFO(os.fstat(door).st_mode):
                raise OSError(errno.EINVAL, "no FIFO", self._path)
            os.write(door, f"{line}\n".encode("ascii"))  # so few bytes are written whole or not at all
        finally:
            os.close(door)

    @property
    def _path(self) -> str:
        return os.path.join(self._folder, "door")

    def has_service(self) -> bool:
        """Whether somebody reads at the door."""
        try:
            door = os.open(self._path, os.O_WRONLY | FLAGS)
        except OSError:
            return False
        try:
            return stat.S_ISFIFO(os.fstat(door).st_mode)
        finally:
            os.close(door)

    def close(self) -> None:
        """Lets go of the folder."""
        self._lock = closed(self._lock)


def closed(number: Optional[int]) -> Optional[int]:
    """Closes a descriptor, where there is one; what takes its place is none."""
    if number is not None:
        os.close(number)
    return None


async def until(watch: Callable[[int, Callable[[], None]], None], stop: Callable[[int], object], number: int) -> None:
    """Waits until the loop says of a descriptor what `watch` asks for."""
    event: asyncio.Future[None] = asyncio.get_running_loop().create_future()

    def ready() -> None:
        if not event.done():
            event.set_result(None)

    watch(number, ready)
    try:
        await event
    finally:
        stop(number)
