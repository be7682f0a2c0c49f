"""The uploads that a start finds on the drives, and what of them nobody needs. Nothing here asks a drive."""
from __future__ import annotations

from typing import Dict, List, Set, Tuple

from .index import Index, Place
from .layout import BadHead, Piece
from .upload_records import PartOf, Upload, record_in, upload_attribute


class FoundUploads:
    """Takes records, and chooses among them. `free` are live pieces that no current version names."""

    def __init__(self, index: Index, free: Set[Place]) -> None:
        self._index, self._free = index, free
        self._complete = {it.version.upload for bucket in index.buckets.values() for known in bucket.keys.values() for it in known}
        self._uploads: Dict[str, Upload] = {}
        self._parts: List[Tuple[bytes, PartOf]] = []
        self._left: List[Place] = []

    def take(self, place: Place, data: bytes, attribute: bytes) -> None:
        """Takes what an object holds; BadHead where it is no record of an upload of this attribute."""
        if not data:
            self._left.append(place)  # it was made, and never written
            return
        found, record = record_in(data), Piece(*place, 0, len(data))
        if isinstance(found, PartOf):
            found.part.record = record
            self._parts.append((attribute, found))
            return
        if upload_attribute(found.bucket, found.key) != attribute:
            raise BadHead("its attribute isn't that of its key")
        if found.id in self._complete or found.bucket not in self._index.buckets:
            self._left.append(place)
        else:
            found.record = record
            self._uploads[found.id] = found

    def choose(self) -> List[Place]:
        """Gives each upload its parts, of each number the newest that is whole: the records that nobody needs."""
        for attribute, it in sorted(self._parts, key=lambda it: it[1].part.time):
            upload = self._uploads.get(it.upload)
            is_whole = self._free.issuperset(Place(piece.drive, piece.object) for piece in it.part.pieces)
            if upload is None or not is_whole or upload_attribute(upload.bucket, upload.key) != attribute:
                self._leave(it)
                continue
            before = upload.parts.get(it.part.number)
            if before is not None:
                self._leave(PartOf(it.upload, before))
            upload.parts[it.part.number] = it.part
        return self._left

    def _leave(self, it: PartOf) -> None:
        if it.part.record is not None:
            self._left.append(Place(it.part.record.drive, it.part.record.object))

    def uploads(self) -> List[Upload]:
        return list(self._uploads.values())

    def pieces(self) -> Set[Place]:
        """The pieces that they need."""
        return {Place(piece.drive, piece.object) for upload in self._uploads.values() for part in upload.parts.values()
                for piece in part.pieces}
