"""Contents of versions in pieces, over all drives of a store."""
from __future__ import annotations

import asyncio
import hashlib
from dataclasses import dataclass
from typing import AsyncIterator, Awaitable, Callable, Iterator, List, Optional, Protocol, Sequence, Set, Tuple, TypeVar

from ..async_drive import AsyncDrive, answered
from ..errors import Expired, Flushed, Future, NoMemory, NoObject, NoSpace, Refused
from ..wire import READ_BYTES
from .drives import DriveAway, StoreDrive
from .layout import INLINE_BYTES, PIECE_BYTES, Piece, list_parts, pieces_in

T = TypeVar("T")

IN_FLIGHT = 4  # pieces of one put, or of one get, that are written or read at once
CLOCKS = 2_000  # microseconds by which the moments of two drives may differ, with room
REMOTE_CLOCKS = (CLOCKS, 1_000_000, 60_000_000, 3_600_000_000)  # and those of drives of other machines: one after the other is tried
FULL = (NoSpace, NoMemory)  # then the next drive is tried


class StoreFull(Exception):
    """No drive has room for it."""


class Gone(Exception):
    """What was asked for can't be read any more: it has expired, or was flushed."""


class Life(Protocol):
    """When a version was replaced, and when it was moved last: moments, or None where it is current, and was never moved."""

    until: Optional[int]
    moved: Optional[int]


@dataclass(frozen=True)
class Contents:
    """Where the contents of a version are, as its head says it."""

    size: int
    etag: str
    inline: bytes = b""
    pieces: Tuple[Piece, ...] = ()
    depth: int = 0


class Pieces:
    """Writes, reads and deletes pieces. Each new one goes to the next drive in turn that has room."""

    def __init__(self, drives: Sequence[StoreDrive]) -> None:
        self.drives, self._turn = drives, 0

    @property
    def remote(self) -> List[int]:
        """The numbers of the drives that are on other machines, whose clocks may be others."""
        return [it.number for it in self.drives if it.is_remote]

    async def anywhere(self, first: int, work: Callable[[StoreDrive], Awaitable[T]]) -> T:
        """What comes of work on the first drive that has room for it, from this one on. StoreFull where none has; DriveAway
        where one that was asked doesn't answer, or all that might have room are away.
        """
        away: Optional[DriveAway] = None
        count = len(self.drives)
        for step in range(count):
            try:
                return await work(self.drives[(first + step) % count])
            except FULL:
                continue
            except DriveAway as error:
                if error.was_asked:
                    raise
                away = error
        raise away or StoreFull("no drive has room")

    async def put(self, attribute: bytes, data: bytes) -> Piece:
        """A new piece; the errors are those of `anywhere`."""
        self._turn += 1
        return await self.anywhere(self._turn, lambda drive: self.put_on(drive, attribute, data))

    async def put_on(self, drive: StoreDrive, attribute: bytes, data: bytes) -> Piece:
        """A new piece on this drive. What refuses it is raised, and DriveAway where it doesn't answer."""
        made = await drive.ask(lambda session: session.create(attribute))
        writes = [drive.ask(writing(made.object, start, data)) for start in range(0, len(data), READ_BYTES)]
        found = await asyncio.gather(*writes, return_exceptions=True)
        faults = [it for it in found if isinstance(it, BaseException)]
        if faults:
            await self.delete([Piece(drive.number, made.object, 0, 0)])
            raise faults[0]
        return Piece(drive.number, made.object, max(it for it in found if isinstance(it, int)), len(data))

    async def read(self, piece: Piece, life: Life) -> bytes:
        """The bytes of a piece of a version with this life. Gone where they can't be read any more."""
        for at in moments_of(piece, life, REMOTE_CLOCKS if self.remote else (CLOCKS,)):
            try:
                return await self._read_at(piece, at)
            except (Expired, Flushed, NoObject, Future):
                continue
        raise Gone(f"object {piece.object} of drive {piece.drive}")

    async def _read_at(self, piece: Piece, at: Optional[int]) -> bytes:
        drive = self.drives[piece.drive]
        reads = [drive.ask(reading(piece.object, start, at)) for start in range(0, piece.size, READ_BYTES)]
        found = await asyncio.gather(*reads, return_exceptions=True)
        data = b"".join(answered(it) for it in found)
        if len(data) != piece.size:
            raise Gone(f"object {piece.object} of drive {piece.drive} has {len(data):,} bytes, not {piece.size:,}")
        return data

    async def delete(self, pieces: Sequence[Piece]) -> None:
        """Deletes their objects, whose versions can still be read. What can't be deleted now is left for the next start."""
        await asyncio.gather(*map(self._delete, pieces))

    async def _delete(self, piece: Piece) -> None:
        try:
            await self.drives[piece.drive].ask(lambda session: session.delete(piece.object))
        except (Refused, DriveAway):
            pass

    async def all_of(self, contents: Contents, life: Life) -> Tuple[List[Piece], List[Piece]]:
        """The pieces of contents in their order, and those of the lists that name them."""
        lists: List[Piece] = []
        pieces = list(contents.pieces)
        for _ in range(contents.depth):
            lists += pieces
            data = [await self.read(piece, life) for piece in pieces]
            pieces = pieces_in(b"".join(data))
        return pieces, lists

    async def listed(self, attribute: bytes, pieces: Sequence[Piece]) -> Tuple[Tuple[Piece, ...], int]:
        """What a head names of these pieces: them, or those of a list of them; and the depth. What was put of lists is deleted
        where it can't be put whole.
        """
        named, depth = list(pieces), 0
        made: List[Piece] = []
        while (parts := list_parts(named)) is not None:
            named = []
            try:
                for part in parts:
                    named.append(await self.put(attribute, part))
            except BaseException:
                await self.delete([*made, *named])
                raise
            made += named
            depth += 1
        return tuple(named), depth


def moments_of(piece: Piece, life: Life, clocks: Sequence[int]) -> Iterator[Optional[int]]:
    """The moments at which a piece is tried to be read, one after the other; None is now.

    A piece never changes, and its object is deleted when its version is replaced. So it is read at its own moment; where that has
    expired now, if the version is current; and else just before it was replaced, or moved, which may have been meanwhile: by as
    much before as clocks may differ.
    """
    yield piece.moment
    if life.until is None:
        yield None
    for end in (life.until, life.moved):
        if end is not None:
            yield from (end - apart for apart in clocks if end - apart > piece.moment)


def writing(object: int, start: int, data: bytes) -> Callable[[AsyncDrive], Awaitable[int]]:
    return lambda session: session.write(object, start, data[start:start + READ_BYTES])


def reading(object: int, start: int, at: Optional[int]) -> Callable[[AsyncDrive], Awaitable[bytes]]:
    return lambda session: session.read(object, start, READ_BYTES, at)


class Incoming:
    """The contents of a put as they come: a few pieces are on their way to their drives at once, and no more are held.

    After an error, or where they aren't wanted, `abandon` deletes what was put.
    """

    def __init__(self, pieces: Pieces, attribute: bytes) -> None:
        self._pieces, self._attribute = pieces, attribute
        self._held = bytearray()
        self._puts: List[asyncio.Future[Piece]] = []  # in their order
        self._lists: Tuple[Piece, ...] = ()
        self.size, self._md5 = 0, hashlib.md5()

    async def add(self, data: bytes) -> None:
        """Takes the next bytes. What a piece that was put before failed by is raised."""
        self.size += len(data)
        self._md5.update(data)
        self._held += data
        while len(self._held) >= PIECE_BYTES:
            part = bytes(self._held[:PIECE_BYTES])
            del self._held[:PIECE_BYTES]
            await self._put(part)

    async def _put(self, part: bytes) -> None:
        running = {it for it in self._puts if not it.done()}
        if len(running) >= IN_FLIGHT:
            await asyncio.wait(running, return_when=asyncio.FIRST_COMPLETED)
        for it in self._puts:
            if it.done():
                it.result()
        self._puts.append(asyncio.ensure_future(self._pieces.put(self._attribute, part)))

    async def finish(self) -> Contents:
        """All contents, where they are now."""
        etag = self._md5.hexdigest()
        if not self._puts and len(self._held) <= INLINE_BYTES:
            return Contents(self.size, etag, bytes(self._held))
        pieces = await self.finish_pieces()
        named, depth = await self._pieces.listed(self._attribute, pieces)
        self._lists = named if depth else ()
        return Contents(self.size, etag, b"", named, depth)

    async def finish_pieces(self) -> List[Piece]:
        """All contents in pieces, however short they are."""
        if self._held:
            await self._put(bytes(self._held))
            self._held.clear()
        return [await it for it in self._puts]

    @property
    def etag(self) -> str:
        return self._md5.hexdigest()

    async def abandon(self) -> None:
        """Deletes the pieces that were put, once those on their way have come."""
        await self._pieces.delete(self._lists)
        if self._puts:
            done: Set[asyncio.Future[Piece]]
            done, _ = await asyncio.wait(set(self._puts))
            await self._pieces.delete([it.result() for it in done if it.exception() is None])


async def stream(pieces: Pieces, found: Sequence[Piece], life: Life, first: int, last: int) -> AsyncIterator[bytes]:
    """The bytes from the first to the last, counted from 0, of contents in pieces. A few of these are read ahead."""
    start, wanted = 0, []
    for piece in found:
        if start <= last and start + piece.size > first:
            wanted.append((piece, max(first - start, 0), min(last - start + 1, piece.size)))
        start += piece.size
    running: List[asyncio.Future[bytes]] = []
    try:
        for place, (_, begin, end) in enumerate(wanted):
            for piece, _, _ in wanted[place + len(running):place + IN_FLIGHT]:
                running.append(asyncio.ensure_future(pieces.read(piece, life)))
            yield (await running.pop(0))[begin:end]
    finally:
        for task in running:
            task.cancel()
