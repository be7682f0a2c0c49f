"""A store's index at a start, from the images and by asking, and what earlier puts left behind.

Which objects there are is in the images, and what each version of a head says. Where `s4` doesn't print that, or the image is on
another machine, versions are asked for: the current one now, each other at the moment before the change that replaced it.
"""
from __future__ import annotations

import asyncio
from typing import Dict, List, Optional, Set, Tuple

from ..errors import Expired, Flushed, NoObject
from ..moments import machine_time
from ..wire import READ_BYTES
from .contents import Gone, Pieces
from .drives import StoreDrive
from .found import Found, Seen
from .index import Bucket, Entry, Index, Place, entry_of
from .layout import BadHead, Piece, created_in, head_attribute, version_in
from .names import is_bucket_name
from .service import say
from .settings import StoreFault
from .store import contents_of
from .upload_records import Upload
from .uploads_found import FoundUploads

class Loading:
    """Makes the index of what was found, and deletes what no version needs."""

    def __init__(self, pieces: Pieces, window: int) -> None:
        self._pieces, self._window, self._now = pieces, window, machine_time()
        self._found: Dict[int, Found] = {}  # of each drive, and the versions of its heads that this says
        self._known: Dict[int, List[Entry]] = {}
        self.index = Index(window)
        self._buckets: List[Tuple[Place, Seen]] = []
        self._heads: List[Tuple[Place, bytes]] = []
        self._parts: List[Tuple[Place, bytes]] = []
        self._unread: Set[bytes] = set()  # hashes of keys, of which a head says something that isn't known here
        self._left: List[Place] = []  # what else nothing needs
        self._records: List[Tuple[Place, bytes]] = []  # of uploads and parts
        self.uploads: List[Upload] = []
        self._alone: Dict[Tuple[str, str], Entry] = {}  # the last version of keys whose bucket isn't there

    def take(self, number: int, found: Found) -> None:
        """Takes what a drive has. What its heads say is read at once: meanwhile other drives are looked at."""
        self._found[number] = found
        heads = (it for it in found.objects if it.attribute[:1] == b"H" and it.size)
        self._known[number] = [entry for it in heads for entry in self._known_versions(Place(number, it.object), it.attribute)]

    async def load(self) -> Index:
        """The index, once each drive was taken."""
        for number, found in sorted(self._found.items()):
            for row in found.objects:
                self._take(Place(number, row.object), row)
        await self._take_buckets()
        entries = sorted(await self._entries(), key=age)
        moved = self.index.fill(it for it in entries if it.version.bucket in self.index.buckets)
        self._alone = {(it.version.bucket, it.version.key): it for it in entries if it.version.bucket not in self.index.buckets}
        self._left += moved - self._heads_named() if moved else []
        return self.index

    def _heads_named(self) -> Set[Place]:
        """The heads of all versions."""
        return {it.head for bucket in self.index.buckets.values() for known in bucket.keys.values() for it in known}

    def _take(self, place: Place, row: Seen) -> None:
        """Takes an object for what its attribute says."""
        kind, rest = row.attribute[:1], row.attribute[1:]
        if kind == b"B" and is_bucket_name(rest.decode("latin-1")):
            self._buckets.append((place, row))
        elif kind == b"H" and row.size:
            self._heads.append((place, row.attribute))
        elif kind == b"H":
            self._left.append(place)  # it was made, and never written
        elif kind == b"P":
            self._parts.append((place, rest))
        elif kind == b"U":
            self._records.append((place, row.attribute))

    async def _take_buckets(self) -> None:
        """Makes the buckets. Of several objects that say of one that it is there, as where a reply was lost or a move was cut, the first
        one counts, or where that was moved to.
        """
        found = await asyncio.gather(*[self._created(place, row) for place, row in self._buckets])
        for created, _, place, name in sorted(found):
            bucket = Bucket(name, place, created)
            if self.index.buckets.setdefault(name, bucket) is not bucket:
                self._left.append(place)

    async def _created(self, place: Place, row: Seen) -> Tuple[int, bool, Place, str]:
        """When a bucket was made, as an object says it, and whether that is the first one that did."""
        created, name = None, row.attribute[1:].decode("ascii")
        if row.size:
            try:
                created = created_in(await self._data(place))
            except BadHead as error:
                say(f"{named(place)}: {error}")
        return (row.created if created is None else created), created is None, place, name

    async def _entries(self) -> List[Entry]:
        """The versions of all heads that can be read."""
        known = [entry for _, entries in sorted(self._known.items()) for entry in entries]
        asked = [self._versions(place, attribute) for place, attribute in self._heads if self._found[place.drive].versions is None]
        return known + [entry for each in await asyncio.gather(*asked) for entry in each]

    def _known_versions(self, place: Place, attribute: bytes) -> List[Entry]:
        """Those of a head that were found, whose bytes aren't kept; none where they have to be asked for."""
        known = (self._found[place.drive].versions or {}).pop(place.object, [])
        entries = [self._entry(place, attribute, data, moment) for moment, data in known]
        return [it for it in entries if it is not None]

    async def _data(self, place: Place) -> bytes:
        """What an object has now."""
        known = self._found[place.drive].versions
        if known is not None and known.get(place.object):
            return known[place.object][-1].data
        return await self._pieces.drives[place.drive].ask(lambda session: session.read(place.object, 0, READ_BYTES))

    async def _versions(self, place: Place, attribute: bytes) -> List[Entry]:
        """The versions of a head that can be read, by asking."""
        drive = self._pieces.drives[place.drive]
        moments = sorted(set(self._found[place.drive].moments.get(place.object, [])))
        points: List[Optional[int]] = [moment - 1 for moment in moments if moment > 0]
        found = await asyncio.gather(*[self._version(drive, place, attribute, at) for at in [*points, None]])
        return list({it.written: it for it in found if it is not None}.values())

    async def _version(self, drive: StoreDrive, place: Place, attribute: bytes, at: Optional[int]) -> Optional[Entry]:
        """The version of a moment, or now; None where there is none that can be read."""
        try:
            changed = (await drive.ask(lambda session: session.attributes(place.object, at))).changed
            data = await drive.ask(lambda session: session.read(place.object, 0, READ_BYTES, at))
        except (Expired, Flushed, NoObject):
            return None
        return self._entry(place, attribute, data, changed)

    def _entry(self, place: Place, attribute: bytes, data: bytes, changed: int) -> Optional[Entry]:
        """The version that a head has since a change; None where it has none, or none that is understood."""
        if not data:
            return None  # it was made, and not written yet
        try:
            version = version_in(data)
            if head_attribute(version.bucket, version.key) != attribute:
                raise BadHead("its attribute isn't that of its key")
        except BadHead as error:
            say(f"{named(place)}: {error}; the pieces of its key are left as they are")
            self._unread.add(attribute[1:])
            return None
        return entry_of(version, place, changed)

    async def collect(self) -> int:
        """Deletes live pieces that no current version names, and heads that no version needs: how many that were. Where a head
        can't be read, nobody knows which pieces it names: all of its key stay.
        """
        kept: Set[Place] = set()
        left = self._left + self.index.expire(self._now) + self._markers_alone()
        for bucket in self.index.buckets.values():
            current = (bucket.keys[key][-1] for key in bucket.live)
            for entry in (it for it in current if it.version.pieces):
                kept.update(await self._named(entry))
        for entry in self._alone.values():
            kept.update(await self._named(entry))  # whoever makes the bucket again has them
        found = FoundUploads(self.index, {place for place, _ in self._parts} - kept)
        await asyncio.gather(*[self._take_record(found, place, attribute) for place, attribute in self._records])
        left += found.choose()
        self.uploads = found.uploads()
        kept.update(found.pieces())
        left += [place for place, key in self._parts if place not in kept and key not in self._unread]
        await self._pieces.delete([Piece(*place, 0, 0) for place in left])
        return len(left)

    async def _take_record(self, found: FoundUploads, place: Place, attribute: bytes) -> None:
        """Takes what an object says of an upload. Where that isn't understood, the pieces of its key stay, and so does it."""
        data = await self._data(place)
        try:
            found.take(place, data, attribute)
        except BadHead as error:
            say(f"{named(place)}: {error}; the pieces of its key are left as they are")
            self._unread.add(attribute[1:])

    def _markers_alone(self) -> List[Place]:
        """Heads of a bucket that was deleted, which say that their key was deleted before."""
        heads = []
        for entry in self._alone.values():
            if entry.version.is_marker and entry.moment + self._window < self._now:
                heads.append(entry.head)
            else:
                say(f"{named(entry.head)}: its bucket {entry.version.bucket} isn't there")
        return heads

    async def _named(self, entry: Entry) -> List[Place]:
        """The pieces of a current version, and those of their lists."""
        try:
            pieces, lists = await self._pieces.all_of(contents_of(entry.version), entry)
        except (Gone, BadHead) as error:
            raise StoreFault(f"the pieces of {entry.version.key!r} in {entry.version.bucket} can't be found: {error}") from error
        return [Place(piece.drive, piece.object) for piece in pieces + lists]


def age(entry: Entry) -> Tuple[int, int]:
    """By what the versions of a key ascend. A key that was deleted, and put again once its marker was past the window, counts
    from 1 again, and the head of that marker may be there still. Times ascend in any case. Where a version was moved, its
    last Write says where it is.
    """
    return entry.version.time, entry.written


def named(place: Place) -> str:
    return f"object {place.object} of drive {place.drive}"
