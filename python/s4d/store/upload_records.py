"""What says of uploads in parts that they are there: an object for each upload, and one for each part that has come whole.

Each is one Write, so that it is there whole or not at all. Nothing here asks a drive.
"""
from __future__ import annotations

import json
from dataclasses import dataclass, field
from typing import Any, Dict, List, Optional, Union

from .layout import FRONT, HEAD_BYTES, BadHead, Piece, TooLong, hash_of, list_of, number, pieces_in, text

UPLOAD, PART = b"S4U1", b"S4V1"  # the marks


@dataclass
class Part:
    """A part that has come whole: its contents, when, and the object that says so."""

    number: int
    size: int
    etag: str
    pieces: List[Piece]
    time: int
    record: Optional[Piece] = field(default=None, compare=False)


@dataclass
class Upload:
    """An upload that isn't complete, and the object that says so."""

    id: str
    bucket: str
    key: str
    headers: Dict[str, str]
    owner: str  # the access key that began it
    time: int
    parts: Dict[int, Part] = field(default_factory=dict)
    record: Optional[Piece] = field(default=None, compare=False)


@dataclass(frozen=True)
class PartOf:
    """A part, and the upload that it belongs to."""

    upload: str
    part: Part


def upload_attribute(bucket: str, key: str) -> bytes:
    return b"U" + hash_of(bucket, key)


def record_of(mark: bytes, said: Dict[str, Any], rest: bytes) -> bytes:
    """The bytes of a record; TooLong where they are more than one Write has."""
    words = json.dumps(said, ensure_ascii=False, separators=(",", ":")).encode()
    data = FRONT.pack(mark, len(words), len(rest)) + words + rest
    if len(data) > HEAD_BYTES:
        raise TooLong(f"a record has at most {HEAD_BYTES:,} bytes, this one {len(data):,}")
    return data


def upload_record(it: Upload) -> bytes:
    said = {"id": it.id, "bucket": it.bucket, "key": it.key, "owner": it.owner, "time": it.time, "headers": it.headers}
    return record_of(UPLOAD, said, b"")


def part_record(upload: Upload, part: Part) -> bytes:
    said = {"upload": upload.id, "number": part.number, "size": part.size, "etag": part.etag, "time": part.time}
    return record_of(PART, said, list_of(part.pieces))


def record_in(data: bytes) -> Union[Upload, PartOf]:
    """What a record says; BadHead where it is none."""
    if len(data) < FRONT.size or data[:4] not in (UPLOAD, PART):
        raise BadHead("no record of an upload begins there")
    mark, length, rest = FRONT.unpack_from(data)
    if len(data) != FRONT.size + length + rest:
        raise BadHead(f"the record has {FRONT.size + length + rest:,} bytes, and {len(data):,} are there")
    words, rest = data[FRONT.size:FRONT.size + length], data[FRONT.size + length:]
    try:
        return upload_of(json.loads(words)) if mark == UPLOAD else part_of(json.loads(words), pieces_in(rest))
    except (KeyError, TypeError, ValueError, AttributeError) as error:
        raise BadHead(f"the record lacks what belongs there: {error!r}") from error


def upload_of(said: Dict[str, Any]) -> Upload:
    headers = {text(name): text(value) for name, value in said["headers"].items()}
    return Upload(text(said["id"]), text(said["bucket"]), text(said["key"]), headers, text(said["owner"]), number(said["time"]))


def part_of(said: Dict[str, Any], pieces: List[Piece]) -> PartOf:
    part = Part(number(said["number"]), number(said["size"]), text(said["etag"]), pieces, number(said["time"]))
    if part.size != sum(piece.size for piece in pieces):
        raise ValueError("size and pieces don't agree")
    return PartOf(text(said["upload"]), part)
