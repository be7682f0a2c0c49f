"""Uploads in parts. What says that they are there is on the drives before it is answered: a start finds them, and their parts."""
from __future__ import annotations

import asyncio
import contextlib
import hashlib
import secrets
from typing import AsyncIterator, Dict, Iterable, List, Optional, Sequence, Tuple

from ..moments import machine_time
from .contents import Contents, Incoming
from .drives import DriveAway
from .index import Entry
from .layout import Piece, piece_attribute
from .locks import Locks
from .store import Check, Store, unchecked
from .upload_records import Part, Upload, part_record, upload_attribute, upload_record

UPLOADS = 1_000  # at once
UPLOADS_OF_ONE = 100  # of one access key: who begins and doesn't end them leaves room for others
PARTS_OF_ONE = 100  # of one upload at once: a version has room for thirteen that aren't too small
PARTS = 10_000  # the greatest number of a part
LEAST_PART = 5 * 1_048_576  # bytes of each part but the last
DAYS = 7  # after which an upload that isn't complete goes
DAY = 86_400_000_000  # microseconds
LOOK_SECONDS = 60.0  # between looks for those


class NoUpload(Exception):
    """There is no such upload of this key."""


class NoPart(Exception):
    """A part that is named isn't there, or has another digest."""


class PartTooSmall(Exception):
    """A part that isn't the last has less than 5 MiB."""


class TooManyUploads(Exception):
    """As many as may be at once are there, of all or of one access key."""


class UploadTooLarge(Exception):
    """The parts have more bytes than a version may have, or are too many."""


class Uploads:
    """The uploads of a store, with those that its start found. A version may have at most `most` bytes. Where drives were `away` at
    the start, those that were begun before aren't known: DriveAway is raised where one of them may be asked for.
    """

    def __init__(self, store: Store, most: int, found: Iterable[Upload] = (), away: Sequence[int] = ()) -> None:
        self._store, self._most, self._away = store, most, away
        self._uploads: Dict[str, Upload] = {it.id: it for it in found}
        self._locks = Locks()

    async def begin(self, bucket: str, key: str, headers: Dict[str, str], owner: str) -> Upload:
        """A new upload; TooManyUploads where there is no room for it."""
        self._store.bucket(bucket)
        of_owner = sum(it.owner == owner for it in self._uploads.values())
        if len(self._uploads) >= UPLOADS or of_owner >= UPLOADS_OF_ONE:
            raise TooManyUploads(f"{of_owner:,} uploads of this key are there, of {len(self._uploads):,}")
        upload = Upload(secrets.token_hex(16), bucket, key, headers, owner, machine_time())
        self._uploads[upload.id] = upload
        try:
            upload.record = await self._store.pieces.put(upload_attribute(bucket, key), upload_record(upload))
        except BaseException:
            del self._uploads[upload.id]
            raise
        return upload

    def of(self, bucket: str, key: str, id: str) -> Upload:
        """The upload of this id; NoUpload where it isn't there."""
        found = self._uploads.get(id)
        if found is None or (found.bucket, found.key) != (bucket, key):
            self._check_known()
            raise NoUpload(id)
        return found

    def in_bucket(self, bucket: str) -> List[Upload]:
        """The uploads of a bucket, by key and time."""
        self._check_known()
        return sorted((it for it in self._uploads.values() if it.bucket == bucket), key=lambda it: (it.key, it.time))

    def _check_known(self) -> None:
        for number in self._away:
            raise DriveAway(number, was_asked=False)

    def version_of(self, bucket: str, key: str, id: str) -> Optional[Entry]:
        """The version that an upload has become, where it can be read."""
        found = self._store.index.buckets.get(bucket)
        known = found.keys.get(key, []) if found is not None else []
        return next((it for it in reversed(known) if id and it.version.upload == id), None)

    async def _check_open(self, upload: Upload) -> None:
        """NoUpload where the upload isn't there any more, as when the head was written whose reply was lost: its parts are a
        version's.
        """
        await self._store.settle(upload.bucket, upload.key)
        if self.version_of(upload.bucket, upload.key, upload.id) is not None and self._uploads.pop(upload.id, None) is not None:
            await self._delete_records(upload)
        self.of(upload.bucket, upload.key, upload.id)

    async def put_part(self, upload: Upload, number: int, body: AsyncIterator[bytes]) -> Part:
        """Takes a part, which replaces an earlier one of its number. What the body raises is raised. UploadTooLarge where the
        upload has no room for it.
        """
        incoming = Incoming(self._store.pieces, piece_attribute(upload.bucket, upload.key))
        try:
            async for data in body:
                await incoming.add(data)
            part = Part(number, incoming.size, incoming.etag, await incoming.finish_pieces(), machine_time())
            before = await self._take(upload, part)
        except BaseException:
            await incoming.abandon()
            raise
        if before is not None:
            await self._delete([before])
        return part

    async def _take(self, upload: Upload, part: Part) -> Optional[Part]:
        """Notes a part, on a drive too: that of its number that was there before. Parts of an upload take turns."""
        async with self._locks.hold(upload.id):
            await self._check_open(upload)
            self._check_room(upload, part)
            before = upload.parts.get(part.number)
            if before is not None:
                part.time = max(part.time, before.time + 1)
            attribute = upload_attribute(upload.bucket, upload.key)
            part.record = await self._store.pieces.put(attribute, part_record(upload, part))
            upload.parts[part.number] = part
            return before

    def _check_room(self, upload: Upload, part: Part) -> None:
        others = [it.size for number, it in upload.parts.items() if number != part.number]
        if len(others) >= PARTS_OF_ONE or sum(others) + part.size > self._most:
            raise UploadTooLarge()

    async def complete(self, upload: Upload, named: Sequence[Tuple[int, str]], check: Check = unchecked) -> Entry:
        """Makes a version of the parts that are named by number and digest, in their order. The others are deleted. Whoever asks
        again has the same version.
        """
        async with self._locks.hold(upload.id):
            await self._store.settle(upload.bucket, upload.key)
            entry, used = self.version_of(upload.bucket, upload.key, upload.id), list(upload.parts.values())
            if entry is None:
                self.of(upload.bucket, upload.key, upload.id)
                used = self._parts(upload, named)
                entry = await self._commit(upload, used, check)
            if self._uploads.pop(upload.id, None) is not None:
                await self._delete_records(upload)
                await self._delete_pieces([part for part in upload.parts.values() if part not in used])
        await self._store.passed(entry)
        return entry

    async def _commit(self, upload: Upload, parts: Sequence[Part], check: Check) -> Entry:
        digests = b"".join(bytes.fromhex(part.etag) for part in parts)
        etag = f"{hashlib.md5(digests).hexdigest()}-{len(parts)}"
        pieces = [piece for part in parts for piece in part.pieces]
        attribute = piece_attribute(upload.bucket, upload.key)
        listed, depth = await self._store.pieces.listed(attribute, pieces)
        contents = Contents(sum(part.size for part in parts), etag, b"", listed, depth)
        try:
            return await self._store.commit(upload.bucket, upload.key, contents, upload.headers, check, upload.id)
        except BaseException:
            if depth and not self._store.is_doubtful(upload.bucket, upload.key, listed):
                await self._store.pieces.delete(listed)
            raise

    def _parts(self, upload: Upload, named: Sequence[Tuple[int, str]]) -> List[Part]:
        parts = []
        for number, etag in named:
            part = upload.parts.get(number)
            if part is None or part.etag != etag:
                raise NoPart(f"part {number}")
            parts.append(part)
        if not parts:
            raise NoPart("no part is named")
        if any(part.size < LEAST_PART for part in parts[:-1]):
            raise PartTooSmall()
        if sum(part.size for part in parts) > self._most:
            raise UploadTooLarge()
        return parts

    async def abort(self, upload: Upload) -> None:
        """Ends an upload and deletes its parts."""
        async with self._locks.hold(upload.id):
            await self._check_open(upload)
            del self._uploads[upload.id]
        await self._delete_records(upload)
        await self._delete_pieces(list(upload.parts.values()))

    async def _delete_records(self, upload: Upload) -> None:
        """The upload's own first: parts without one are nobody's."""
        await self._store.pieces.delete([] if upload.record is None else [upload.record])
        await self._store.pieces.delete([part.record for part in upload.parts.values() if part.record is not None])

    async def _delete(self, parts: Sequence[Part]) -> None:
        await self._store.pieces.delete([part.record for part in parts if part.record is not None])
        await self._delete_pieces(parts)

    async def _delete_pieces(self, parts: Sequence[Part]) -> None:
        pieces: List[Piece] = [piece for part in parts for piece in part.pieces]
        await self._store.pieces.delete(pieces)

    async def look_after(self) -> None:
        """Ends uploads that weren't completed in time, until it is cancelled."""
        while True:
            for upload in [it for it in self._uploads.values() if it.time + DAYS * DAY < machine_time()]:
                with contextlib.suppress(NoUpload, DriveAway):
                    await self.abort(upload)
            await asyncio.sleep(LOOK_SECONDS)
