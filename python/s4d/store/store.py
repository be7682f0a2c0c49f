"""Buckets, keys and versions over the drives of a store."""
from __future__ import annotations

import asyncio
import contextlib
import secrets
from typing import AsyncIterator, Callable, Coroutine, Dict, Iterator, NamedTuple, Optional, Set, Tuple, Type

from ..async_drive import AsyncDrive
from ..errors import ChainFull, NoMemory, NoObject, NoSpace, Refused
from ..moments import machine_time
from ..wire import READ_BYTES
from .contents import Contents, Gone, Incoming, Pieces, stream
from .drives import DriveAway, StoreDrive
from .index import Bucket, Change, Entry, Index, Place, entry_of
from .layout import (BadHead, Piece, Version, bucket_attribute, bucket_record, first_drive, head_attribute, head_of, piece_attribute,
                     version_in)
from .locks import Locks
from .sessions import name_of

APART = 1_000  # microseconds by which the moments of two drives of a machine may differ
MOST_WAIT = 0.1  # seconds that an answer waits for the machine's time, which may have been set back
BUCKETS = 1_000
EXPIRE_SECONDS = 1.0  # between looks for what can't be read any more
HEAD_FULL: Tuple[Type[Refused], ...] = (ChainFull, NoSpace, NoMemory)  # then the key goes on in another head


class NoBucket(Exception):
    """There is no such bucket."""


class Passed(Exception):
    """The moment lies before the window."""


class BucketThere(Exception):
    """There is such a bucket."""


class TooManyBuckets(Exception):
    """As many buckets as a store may have are there."""


class BucketUsed(Exception):
    """The bucket has versions that can be read."""


class Moved(Exception):
    """The current version has been moved meanwhile: its pieces aren't where they were."""


def unchecked(_before: Optional[Entry]) -> None:
    """Takes whatever was there."""


Check = Callable[[Optional[Entry]], None]


class Doubt(NamedTuple):
    """A head that may have been written: nobody heard the reply."""

    version: Version
    place: Place


class Store:
    """What is put is kept before it is answered. One gateway has a store, so that the index is what the drives have.

    DriveAway is raised where a drive that is needed doesn't answer, StoreFull where none has room.
    """

    def __init__(self, pieces: Pieces, index: Index) -> None:
        self.pieces, self.index = pieces, index
        self._locks = Locks()
        self._doubts: Dict[Tuple[str, str], Doubt] = {}
        self._tasks: Set[asyncio.Future[None]] = set()
        self._writing: Dict[asyncio.Future[None], int] = {}  # heads and buckets on their way, and when each was begun

    def bucket(self, name: str, at: Optional[int] = None) -> Bucket:
        """The bucket of a name, now or at a moment; NoBucket where there is none, Passed where the moment has left the window."""
        found = self.index.buckets.get(name)
        if at is not None and at < self.index.floor:
            raise Passed(f"moment {at}")
        if found is None or (at is not None and found.created > at):
            raise NoBucket(name)
        return found

    async def cut(self, at: int, bucket: str) -> None:
        """Returns once nothing that isn't in the index can have this moment, or an earlier one: what is then found of a bucket at the
        moment is the same each time.
        """
        late = (at + APART - machine_time()) / 1e6
        if late > 0:
            await asyncio.sleep(min(late, MOST_WAIT))
        writing = [done for done, begun in self._writing.items() if begun <= at + APART]
        if writing:
            await asyncio.wait(writing)
        for doubtful, key in [it for it in self._doubts if it[0] == bucket]:
            await self.settle(doubtful, key)

    async def create_bucket(self, name: str) -> Bucket:
        """Makes a bucket; BucketThere where it is there, TooManyBuckets where no more may be."""
        async with self._locks.hold(name):
            if name in self.index.buckets:
                raise BucketThere(name)
            if len(self.index.buckets) >= BUCKETS:
                raise TooManyBuckets(name)
            attribute = bucket_attribute(name)

            async def make(drive: StoreDrive) -> Bucket:
                async def create(session: AsyncDrive) -> Bucket:
                    made = await session.create(attribute)
                    change = Change(drive.number, name_of(session), "create", made.object, made.moment)
                    return Bucket(name, Place(drive.number, made.object), made.moment, change=change)

                return await drive.ask(create)

            with self._written_soon():
                bucket = await self.pieces.anywhere(first_drive(name, "", len(self.pieces.drives)), make)
                self.index.buckets[name] = bucket
            return bucket

    async def delete_bucket(self, name: str) -> Change:
        """Deletes a bucket: by which change. BucketUsed where it has versions that can be read."""
        async with self._locks.hold(name):
            bucket = self.bucket(name)
            if bucket.keys or bucket.puts or any(of == name for of, _ in self._doubts):
                raise BucketUsed(name)
            del self.index.buckets[name]  # so that nothing is put there meanwhile
            try:
                await self._delete_others(bucket)
                return await self._delete_object(bucket.place)
            except (Refused, DriveAway) as error:
                if not isinstance(error, DriveAway) or not error.was_asked:  # else it may be gone, and nothing may be put there
                    self.index.buckets[name] = bucket
                raise

    async def move_bucket(self, bucket: Bucket, drive: StoreDrive) -> bool:
        """Says on another drive that the bucket is there, since when it was, and then no more where that was said up to now. False where
        the bucket isn't there any more.
        """
        async with self._locks.hold(bucket.name):
            if self.index.buckets.get(bucket.name) is not bucket:
                return False
            made = await drive.ask(lambda session: session.create(bucket_attribute(bucket.name)))
            place = Place(drive.number, made.object)
            bucket.others.append(place)  # until it is whole
            try:
                await drive.ask(lambda session: session.write(place.object, 0, bucket_record(bucket.created)))
                bucket.others[-1], bucket.place = bucket.place, place
            finally:
                with contextlib.suppress(Refused, DriveAway):  # then it is deleted with the bucket, or at the next start
                    await self._delete_others(bucket)
            return True

    async def _delete_others(self, bucket: Bucket) -> None:
        """Deletes what else may say that a bucket is there."""
        while bucket.others:
            with contextlib.suppress(NoObject):
                await self._delete_object(bucket.others[-1])
            bucket.others.pop()

    async def _delete_object(self, place: Place) -> Change:
        async def delete(session: AsyncDrive) -> Change:
            return Change(place.drive, name_of(session), "delete", place.object, await session.delete(place.object))

        return await self.pieces.drives[place.drive].ask(delete)

    async def put(self, bucket: str, key: str, body: AsyncIterator[bytes], headers: Dict[str, str],
                  check: Check = unchecked) -> Entry:
        """Makes a version of what comes the current one, and deletes the pieces of the one before. `check` is asked about that,
        and what it raises is raised, as is what the body raises; nothing is seen of the version then. TooLong where the headers
        don't fit in a head.
        """
        await self.settle(bucket, key)
        check(self.bucket(bucket).current(key))  # before a body fills the drives in vain; it is asked again in its turn
        incoming, named = Incoming(self.pieces, piece_attribute(bucket, key)), Contents(0, "")
        try:
            async for data in body:
                await incoming.add(data)
            named = await incoming.finish()
            entry = await self._commit(version_with(bucket, key, named, headers), check)
        except BaseException:
            if not self.is_doubtful(bucket, key, named.pieces):  # else they may be those of a version
                await incoming.abandon()
            raise
        await self.passed(entry)
        return entry

    def is_doubtful(self, bucket: str, key: str, pieces: Tuple[Piece, ...]) -> bool:
        """Whether a head that names these pieces may have been written without a reply. Then they aren't to be deleted."""
        doubt = self._doubts.get((bucket, key))
        return doubt is not None and pieces != () and doubt.version.pieces == pieces

    async def commit(self, bucket: str, key: str, contents: Contents, headers: Dict[str, str], check: Check = unchecked,
                     upload: str = "") -> Entry:
        """Makes a version of contents that are in pieces already the current one, as `put` does; `upload` is the id of the upload
        that they were. It isn't to be answered before `passed`. Where this raises, and the pieces aren't doubtful, no version has
        them.
        """
        return await self._commit(version_with(bucket, key, contents, headers)._replace(upload=upload), check)

    async def relabel(self, entry: Entry, headers: Dict[str, str], check: Check) -> Entry:
        """Makes a version of the contents of the current one, in the same pieces, with other headers."""
        while True:
            try:
                made = await self._relabel(entry, entry.version, headers, check)
            except Moved:
                continue
            await self.passed(made)
            return made

    async def _relabel(self, entry: Entry, version: Version, headers: Dict[str, str], check: Check) -> Entry:
        def check_place(before: Optional[Entry]) -> None:
            check(before)
            if entry.version is not version:
                raise Moved()

        return await self._commit(version_with(version.bucket, version.key, contents_of(version), headers), check_place)

    async def move(self, entry: Entry, version: Version, contents: Contents, drive: Optional[StoreDrive]) -> bool:
        """Writes the head of the current version anew, with its contents in these pieces: in a new head on a drive, where one is named.
        Id, time and sequence stay. False where the version isn't the current one any more, or is elsewhere: nothing is written.
        The pieces that it had aren't deleted.
        """
        async with self._locks.hold((version.bucket, version.key)):
            await self.settle(version.bucket, version.key)
            bucket = self.index.buckets.get(version.bucket)
            if bucket is None or bucket.current(version.key) is not entry or entry.version is not version:
                return False
            moved = version._replace(pieces=contents.pieces, depth=contents.depth, since=entry.moment)
            made = await (self._write(moved, entry.head) if drive is None else self._write_on(moved, drive))
            left = self.index.add(made)
        await self.passed(made)
        if left is not None:
            await self.pieces.delete([Piece(*left, 0, 0)])
        return True

    async def delete(self, bucket: str, key: str) -> Entry:
        """Puts a marker, so that the key isn't there any more, though its versions can be read."""
        entry = await self._commit(Version(bucket, key, 0, "", 0, is_marker=True))
        await self.passed(entry)
        return entry

    async def _commit(self, version: Version, check: Check = unchecked) -> Entry:
        """Gives the version its sequence, time and id, and writes its head."""
        async with self._locks.hold((version.bucket, version.key)):
            await self.settle(version.bucket, version.key)
            bucket = self.bucket(version.bucket)
            before = bucket.current(version.key)
            check(before)
            bucket.puts += 1
            try:
                with self._written_soon():
                    entry = await self._write(following(version, before), None if before is None else before.head)
                    self.index.add(entry)
            finally:
                bucket.puts -= 1
        if before is not None and before.version.pieces != version.pieces:
            self._later(self._delete_pieces(before))
        return entry

    @contextlib.contextmanager
    def _written_soon(self) -> Iterator[None]:
        """A head, or a bucket, is on its way in the block, and in the index, or refused, or in doubt, at its end."""
        done: asyncio.Future[None] = asyncio.get_running_loop().create_future()
        self._writing[done] = machine_time()
        try:
            yield
        finally:
            del self._writing[done]
            done.set_result(None)

    async def _write(self, version: Version, head: Optional[Place]) -> Entry:
        """Writes a head: the key's own, or where that has no room a new one on any drive."""
        data = head_of(version)
        if head is not None:
            with contextlib.suppress(*HEAD_FULL):
                return await self._write_to(version, head, data)
        first = first_drive(version.bucket, version.key, len(self.pieces.drives))
        return await self.pieces.anywhere(first, lambda drive: self._write_on(version, drive))

    async def _write_on(self, version: Version, drive: StoreDrive) -> Entry:
        """Writes a new head on a drive."""
        attribute = head_attribute(version.bucket, version.key)
        made = await drive.ask(lambda session: session.create(attribute))
        place = Place(drive.number, made.object)
        try:
            return await self._write_to(version, place, head_of(version))
        except Refused:
            await self.pieces.delete([Piece(*place, 0, 0)])
            raise

    async def _write_to(self, version: Version, place: Place, data: bytes) -> Entry:
        async def write(session: AsyncDrive) -> Entry:
            written = await session.write(place.object, 0, data)
            return entry_of(version, place, written, Change(place.drive, name_of(session), "write", place.object, written))

        try:
            return await self.pieces.drives[place.drive].ask(write)
        except Refused:
            raise
        except BaseException as error:  # a cancellation, too, doesn't take the request back
            if not isinstance(error, DriveAway) or error.was_asked:
                self._doubts[version.bucket, version.key] = Doubt(version, place)
            raise

    async def settle(self, bucket: str, key: str) -> None:
        """Looks whether a head was written whose reply was lost, if there is one of this key."""
        doubt = self._doubts.get((bucket, key))
        if doubt is None:
            return
        drive, number = self.pieces.drives[doubt.place.drive], doubt.place.object
        found = await drive.ask(lambda session: session.attributes(number))
        data = await drive.ask(lambda session: session.read(number, 0, READ_BYTES))
        if self._doubts.get((bucket, key)) is not doubt:
            return  # another task has settled it meanwhile
        del self._doubts[bucket, key]
        with contextlib.suppress(ValueError):
            if version_in(data) == doubt.version:
                self.index.add(entry_of(doubt.version, doubt.place, found.changed))

    async def stream(self, entry: Entry, first: int, last: int) -> AsyncIterator[bytes]:
        """The bytes of a version from the first to the last, counted from 0. Gone where they can't be read any more."""
        version = entry.version
        if not version.pieces:
            yield version.contents[first:last + 1]
            return
        pieces, _ = await self.pieces.all_of(contents_of(version), entry)
        async for data in stream(self.pieces, pieces, entry, first, last):
            yield data

    async def _delete_pieces(self, entry: Entry) -> None:
        """Deletes the pieces of a version that was replaced: they are kept for the window."""
        with contextlib.suppress(Refused, DriveAway, Gone, BadHead):  # what stays is deleted at the next start
            pieces, lists = await self.pieces.all_of(contents_of(entry.version), entry)
            await self.pieces.delete(pieces + lists)

    async def passed(self, entry: Entry) -> None:
        """Waits until each drive's moments are past the version's, so that a read at a moment is one cut over all of them, but for
        those of other machines.
        """
        late = (entry.written + APART - machine_time()) / 1e6
        if late > 0 and not self.pieces.drives[entry.head.drive].is_remote:
            await asyncio.sleep(min(late, MOST_WAIT))

    def _later(self, work: Coroutine[None, None, None]) -> None:
        """Does something that nobody waits for."""
        task = asyncio.ensure_future(work)
        self._tasks.add(task)
        task.add_done_callback(self._tasks.discard)

    def _is_used(self, bucket: str, key: str) -> bool:
        """Whether a head of the key may be written now, or may have been: it isn't to be deleted meanwhile."""
        return self._locks.is_wanted((bucket, key)) or (bucket, key) in self._doubts

    async def look_after(self) -> None:
        """Lets go of what can't be read any more, until it is cancelled."""
        while True:
            for place in self.index.expire(machine_time(), self._is_used):
                self._later(self.pieces.delete([Piece(*place, 0, 0)]))
            await asyncio.sleep(EXPIRE_SECONDS)

    async def close(self) -> None:
        """Waits for what was left for later."""
        if self._tasks:
            await asyncio.wait(set(self._tasks))


def version_with(bucket: str, key: str, contents: Contents, headers: Dict[str, str]) -> Version:
    """A version of these contents, before it has its sequence, time and id."""
    return Version(bucket, key, 0, "", 0, contents.size, contents.etag, False, headers, contents.inline, contents.pieces,
                   contents.depth)


def following(version: Version, before: Optional[Entry]) -> Version:
    """The version after another of its key, of this machine's time, or a later one where that was set back."""
    sequence, now = 1, machine_time()
    if before is not None:
        sequence, now = before.version.sequence + 1, max(now, before.version.time + 1)
    return version._replace(sequence=sequence, time=now, id=f"{now:016x}{secrets.token_hex(8)}")


def contents_of(version: Version) -> Contents:
    """Where the contents of a version are."""
    return Contents(version.size, version.etag, version.contents, version.pieces, version.depth)
