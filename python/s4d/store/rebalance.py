"""Moves buckets and current versions, markers among them, from the drives that have more to those that have less, as after drives were
added. Versions that were replaced can't be moved: they are in the past of their drives, and leave with the window.

A piece is put anew on another drive, then the head is written that names it there, then the piece that was is deleted. So a kill loses
nothing: until the head is written the version is where it was, and what a move that was cut leaves is deleted at the next start.
Nothing goes to a drive that is full, or away.
"""
from __future__ import annotations

import asyncio
from dataclasses import dataclass, field, replace
from typing import Dict, Iterator, List, Optional, Sequence, Set, Tuple

from ..errors import Refused
from .contents import FULL, IN_FLIGHT, Contents, Gone, StoreFull
from .drives import DriveAway, StoreDrive
from .index import Bucket, Entry
from .layout import MOVED, BadHead, Piece, Version, head_of, piece_attribute
from .store import Store, contents_of

BLOCK_BYTES = 512
KEYS_AT_ONCE = 4
SLACK = 0.05  # of what the drives have on average: those that differ by less are left


@dataclass
class Moves:
    """What was moved: buckets, versions, objects of drives, and bytes of contents. `kept` are buckets and versions that couldn't be
    moved.
    """

    buckets: int = 0
    versions: int = 0
    objects: int = 0
    size: int = 0
    kept: int = 0

    def lines(self, loads: Sequence[int]) -> List[str]:
        """What is said of them, and of what each drive has then."""
        found = [f"moved {self.objects:,} objects of {self.versions:,} versions and {self.buckets:,} buckets, {self.size:,} bytes in "
                 f"pieces; a drive has {min(loads):,} to {max(loads):,} bytes"]
        return found + ([f"{self.kept:,} versions and buckets stay: a drive is full, or doesn't answer"] if self.kept else [])


@dataclass
class Plan:
    """Where the pieces of a version go, by their places among these, and its head."""

    pieces: Dict[int, StoreDrive] = field(default_factory=dict)
    head: Optional[StoreDrive] = None
    steps: List[Tuple[int, int, int]] = field(default_factory=list)  # from a drive, to another, so many bytes

    def __bool__(self) -> bool:
        return bool(self.steps)


def taken(size: int) -> int:
    """About how many bytes of a drive an object of a size takes, with what says where it is."""
    return (-(-size // BLOCK_BYTES) + 1) * BLOCK_BYTES


BUCKET_BYTES = taken(MOVED.size)  # of what says that a bucket is there


class Rebalance:
    """`run` moves what there is to move. `loads` are about how many bytes of current versions each drive has."""

    def __init__(self, store: Store) -> None:
        self._store, self._pieces = store, store.pieces
        self.loads = [0 for _ in store.pieces.drives]
        self.moves = Moves()
        self._shut: Set[int] = set()  # the drives that nothing goes to any more

    async def run(self) -> Moves:
        """Moves what there is to move. Clients may be answered meanwhile."""
        for bucket in self._buckets():
            self.loads[bucket.place.drive] += BUCKET_BYTES
        for entry in self._entries():
            await self._count(entry)
        for bucket in self._buckets():
            while await self._is_bucket_to_try_again(bucket):
                pass
        entries = self._entries()  # which several tasks take from
        await asyncio.gather(*[self._move_all(entries) for _ in range(KEYS_AT_ONCE)])
        return self.moves

    def _buckets(self) -> Iterator[Bucket]:
        """The buckets, while they are there."""
        for name in sorted(self._store.index.buckets):
            bucket = self._store.index.buckets.get(name)
            if bucket is not None:
                yield bucket

    def _entries(self) -> Iterator[Entry]:
        """The current versions, markers among them, of the keys that were there when a bucket's turn came."""
        for bucket in self._buckets():
            for key in list(bucket.names):
                entry = bucket.current(key)
                if entry is not None:
                    yield entry

    async def _is_bucket_to_try_again(self, bucket: Bucket) -> bool:
        """Moves what says that a bucket is there. True where that failed by a drive to which nothing goes from now on."""
        plan, known = Plan(), len(self._shut)
        drive = self._better(plan, bucket.place.drive, BUCKET_BYTES)
        if drive is None:
            return False
        try:
            is_moved = await self._store.move_bucket(bucket, drive)
            self.moves.buckets += is_moved
            self.moves.objects += is_moved
            return False
        except FULL:
            self._shut.add(drive.number)
        except DriveAway as error:
            self._shut.add(error.number)
        except Refused:
            pass
        self._take_back(plan)
        is_new = len(self._shut) > known
        self.moves.kept += not is_new
        return is_new

    async def _count(self, entry: Entry) -> None:
        version = entry.version
        self.loads[entry.head.drive] += taken(len(head_of(version)))
        try:
            pieces, lists = await self._pieces.all_of(contents_of(version), entry)
        except (DriveAway, Refused, Gone, BadHead):  # it won't be moved either
            return
        for piece in pieces + lists:
            self.loads[piece.drive] += taken(piece.size)

    async def _move_all(self, entries: Iterator[Entry]) -> None:
        for entry in entries:
            while await self._is_to_try_again(entry):
                pass

    async def _is_to_try_again(self, entry: Entry) -> bool:
        """Moves a version. True where that failed by a drive to which nothing goes from now on."""
        known = len(self._shut)
        try:
            await self._move(entry)
            return False
        except DriveAway as error:
            self._shut.add(error.number)
        except (Refused, Gone, BadHead, StoreFull):
            pass
        is_new = len(self._shut) > known
        self.moves.kept += not is_new
        return is_new

    async def _move(self, entry: Entry) -> None:
        version = entry.version
        pieces, lists = await self._pieces.all_of(contents_of(version), entry)
        if entry.until is not None:
            return
        plan = self._plan(version, entry, pieces)
        if not plan:
            return
        if not await self._is_moved(plan, entry, version, pieces):
            self._take_back(plan)
            return
        if plan.pieces:
            self._count_lists(lists, entry.version)
            await self._pieces.delete([pieces[place] for place in plan.pieces] + lists)
        self.moves.versions += 1
        self.moves.objects += len(plan.steps)
        self.moves.size += sum(pieces[place].size for place in plan.pieces)

    async def _is_moved(self, plan: Plan, entry: Entry, version: Version, pieces: List[Piece]) -> bool:
        """Puts pieces anew, and writes the head. What was put is deleted where no head names it."""
        contents, made = contents_of(version), list(pieces)
        try:
            if plan.pieces:
                contents = await self._copied(plan, entry, version, made)
            is_moved = await self._written(plan, entry, version, contents)
        except BaseException:
            self._take_back(plan)
            if entry.version is version and not self._store.is_doubtful(version.bucket, version.key, contents.pieces):
                await self._delete_new(made, pieces, contents, version)
            raise
        if not is_moved:
            await self._delete_new(made, pieces, contents, version)
        return is_moved

    async def _delete_new(self, made: List[Piece], pieces: List[Piece], contents: Contents, version: Version) -> None:
        """Deletes the pieces, and those of lists, that the version hasn't."""
        lists = contents.pieces if contents.depth and contents.pieces != version.pieces else ()
        await self._pieces.delete([new for new, old in zip(made, pieces) if new != old] + list(lists))

    async def _written(self, plan: Plan, entry: Entry, version: Version, contents: Contents) -> bool:
        try:
            return await self._store.move(entry, version, contents, plan.head)
        except FULL:
            if plan.head is not None:
                self._shut.add(plan.head.number)
            raise

    async def _copied(self, plan: Plan, entry: Entry, version: Version, named: List[Piece]) -> Contents:
        """The contents with the pieces where they are to be; `named` has them then, in their order."""
        attribute, limit = piece_attribute(version.bucket, version.key), asyncio.Semaphore(IN_FLIGHT)

        async def copy(place: int, drive: StoreDrive) -> None:
            async with limit:
                data = await self._pieces.read(named[place], entry)
                try:
                    named[place] = await self._pieces.put_on(drive, attribute, data)
                except FULL:
                    self._shut.add(drive.number)
                    raise

        found = await asyncio.gather(*[copy(*it) for it in plan.pieces.items()], return_exceptions=True)
        for fault in found:
            if fault is not None:
                raise fault
        listed, depth = await self._pieces.listed(attribute, named)
        return replace(contents_of(version), pieces=listed, depth=depth)

    def _plan(self, version: Version, entry: Entry, pieces: List[Piece]) -> Plan:
        """What is to be moved of a version; the loads are as if that were done."""
        plan = Plan()
        for place, piece in enumerate(pieces):
            found = self._better(plan, piece.drive, taken(piece.size))
            if found is not None:
                plan.pieces[place] = found
        plan.head = self._better(plan, entry.head.drive, taken(len(head_of(version))))
        return plan

    def _better(self, plan: Plan, number: int, size: int) -> Optional[StoreDrive]:
        """The drive that has least, where the object is better there than where it is."""
        there = [it.number for it in self._pieces.drives if it.number not in self._shut and it.number != number]
        if not there:
            return None
        least = min(there, key=lambda it: self.loads[it])
        if self.loads[number] - self.loads[least] < max(2 * size, SLACK * sum(self.loads) / len(self.loads)):
            return None
        self._shift(number, least, size)
        plan.steps.append((number, least, size))
        return self._pieces.drives[least]

    def _count_lists(self, old: List[Piece], version: Version) -> None:
        """The lists of pieces are new, on whichever drives."""
        for piece in old:
            self.loads[piece.drive] -= taken(piece.size)
        for piece in version.pieces if version.depth else ():
            self.loads[piece.drive] += taken(piece.size)

    def _take_back(self, plan: Plan) -> None:
        """The loads are as they were before a plan, of which nothing came."""
        for number, least, size in plan.steps:
            self._shift(least, number, size)

    def _shift(self, number: int, other: int, size: int) -> None:
        self.loads[number] -= size
        self.loads[other] += size
