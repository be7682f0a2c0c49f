"""What a store's objects hold: attributes, heads, and lists of pieces. Nothing here asks a drive.

An attribute says what an object is, and never changes: `B` and the bucket's name; `H` or `P`, head or piece, and the hash of
bucket and key; `S`, the store's id and the drive's number. A bucket is there from the moment on at which its object was made; where
that was moved it says the moment of the first one. A version of a key is one Write of its head, so it is seen whole or not at all.
Contents that are short are in the head; longer ones are in pieces, each of which the head names by drive, object and that object's
own moment. A list that is too long for a head is in pieces itself, and so on: the depth says how often.
"""
from __future__ import annotations

import base64
import hashlib
import json
import struct
from typing import Any, Dict, List, NamedTuple, Optional, Sequence, Tuple

from ..wire import OBJECT_BYTES, READ_BYTES

INLINE_BYTES = 400  # of contents that are in the head: with its other members it has two blocks of 512 bytes
NAMED_PIECES = 8  # that a head names itself, so that it stays short and its journal takes many versions
PIECE_BYTES = OBJECT_BYTES
HEAD_BYTES = READ_BYTES  # the most bytes of a head, so that one Write puts it and one Read gives it
MOST_DEPTH = 4  # of lists; more pieces than any store has need two

MAGIC = b"S4H1"
MOVED = struct.Struct(">4sQ")  # of a bucket that was moved: the mark, and the moment at which the bucket was made
BUCKET = b"S4B1"
FRONT = struct.Struct(">4sII")  # the mark, and the lengths of the JSON and of the contents after it
NAMED = struct.Struct(">HQQI")  # a piece in a list: drive, object, moment, size
LISTED_PIECES = PIECE_BYTES // NAMED.size  # that one piece of a list names


class BadHead(ValueError):
    """The bytes are no head, or no list of pieces."""


class TooLong(ValueError):
    """What is said of a version doesn't fit in a head."""


class Piece(NamedTuple):
    """A part of a version's contents, or of the list of its pieces: its drive, its object, that one's moment, its bytes."""

    drive: int
    object: int
    moment: int
    size: int


class Version(NamedTuple):
    """A version of a key, as its head has it. A marker says that the key was deleted.

    `sequence` counts the key's versions from 1 on; `time` is in microseconds since 1970. `contents` are those that are in
    the head; else `pieces` are theirs where the depth is 0, and those of the list of their pieces where it is above. Where
    a version was moved, its head was written anew: `since` is the moment of its first one. `upload` is the id of the upload
    that it was, if it was one.
    """

    bucket: str
    key: str
    sequence: int
    id: str
    time: int
    size: int = 0
    etag: str = ""
    is_marker: bool = False
    headers: Dict[str, str] = {}  # which nobody changes
    contents: bytes = b""
    pieces: Tuple[Piece, ...] = ()
    depth: int = 0
    since: Optional[int] = None
    upload: str = ""


def bucket_attribute(name: str) -> bytes:
    return b"B" + name.encode("ascii")


def bucket_record(created: int) -> bytes:
    """What the object of a bucket says that was moved."""
    return MOVED.pack(BUCKET, created)


def created_in(data: bytes) -> Optional[int]:
    """The moment at which a bucket was made, by what its object says; None where that was never moved. BadHead where it says another
    thing.
    """
    if not data:
        return None
    if len(data) != MOVED.size or data[:4] != BUCKET:
        raise BadHead("it says no moment of a bucket")
    return number(MOVED.unpack(data)[1])


def mark_attribute(store: str, drive: int) -> bytes:
    """Of the object that says which drive of which store this is."""
    return f"S{store}/{drive}".encode("ascii")


def head_attribute(bucket: str, key: str) -> bytes:
    return b"H" + hash_of(bucket, key)


def piece_attribute(bucket: str, key: str) -> bytes:
    return b"P" + hash_of(bucket, key)


def hash_of(bucket: str, key: str) -> bytes:
    """43 bytes, whatever the names' lengths."""
    digest = hashlib.sha256(bucket.encode() + b"\0" + key.encode()).digest()
    return base64.urlsafe_b64encode(digest).rstrip(b"=")


def first_drive(bucket: str, key: str, drives: int) -> int:
    """The number of the drive that a new key's head is tried on first, from 0 on."""
    digest = hashlib.sha256(bucket.encode() + b"\0" + key.encode()).digest()
    return int.from_bytes(digest[:8], "big") % drives


def head_of(version: Version) -> bytes:
    """The bytes of a head; TooLong where one hasn't room for all that is said of the version."""
    said: Dict[str, Any] = {"bucket": version.bucket, "key": version.key, "sequence": version.sequence, "id": version.id,
                            "time": version.time}
    if version.is_marker:
        said["marker"] = True
    else:
        said.update(size=version.size, etag=version.etag, headers=version.headers, pieces=version.pieces,
                    depth=version.depth)
        if version.upload:
            said["upload"] = version.upload
    if version.since is not None:
        said["since"] = version.since
    text = json.dumps(said, ensure_ascii=False, separators=(",", ":")).encode()
    length = FRONT.size + len(text) + len(version.contents)
    if length > HEAD_BYTES:
        raise TooLong(f"a head has at most {HEAD_BYTES:,} bytes, this one {length:,}")
    return FRONT.pack(MAGIC, len(text), len(version.contents)) + text + version.contents


def version_in(data: bytes) -> Version:
    """The version that a head has. What follows it, of a longer one that was there before, says nothing. BadHead where it is
    none.
    """
    if len(data) < FRONT.size or data[:4] != MAGIC:
        raise BadHead("no head begins there")
    _, length, inline = FRONT.unpack_from(data)
    end = FRONT.size + length
    if len(data) < end + inline:
        raise BadHead(f"the head has {end + inline:,} bytes, and {len(data):,} are there")
    try:
        return version_of(json.loads(data[FRONT.size:end].decode()), data[end:end + inline])
    except (KeyError, TypeError, ValueError, AttributeError) as error:
        raise BadHead(f"the head lacks what belongs there: {error!r}") from error


def version_of(said: Dict[str, Any], contents: bytes) -> Version:
    """The version that a head's JSON says."""
    shared = (text(said["bucket"]), text(said["key"]), number(said["sequence"]), text(said["id"]), number(said["time"]))
    since = number(said["since"]) if "since" in said else None
    if said.get("marker", False):
        return Version(*shared, is_marker=True, since=since)
    headers = {text(name): text(value) for name, value in said["headers"].items()}
    pieces = tuple(Piece(*map(number, row)) for row in members(said["pieces"]))
    size, depth = number(said["size"]), number(said["depth"])
    if depth > MOST_DEPTH or (depth == 0 and size != len(contents) + sum(piece.size for piece in pieces)):
        raise ValueError("size and pieces don't agree")
    return Version(*shared, size, text(said["etag"]), False, headers, contents, pieces, depth, since, text(said.get("upload", "")))


def text(value: Any) -> str:
    if not isinstance(value, str):
        raise TypeError(f"{value!r} is no text")
    return value


def number(value: Any) -> int:
    if not isinstance(value, int) or isinstance(value, bool) or value < 0:
        raise TypeError(f"{value!r} is no number")
    return value


def members(value: Any) -> List[Any]:
    if not isinstance(value, list):
        raise TypeError(f"{value!r} is no list")
    return value


def list_of(pieces: Sequence[Piece]) -> bytes:
    """The bytes of a list of pieces."""
    return b"".join(NAMED.pack(*piece) for piece in pieces)


def pieces_in(data: bytes) -> List[Piece]:
    """The pieces that a list names; BadHead where it is none."""
    if len(data) % NAMED.size:
        raise BadHead(f"a list of pieces has no {len(data):,} bytes")
    return [Piece(*row) for row in NAMED.iter_unpack(data)]


def list_parts(pieces: Sequence[Piece]) -> Optional[List[bytes]]:
    """What the pieces of a list of these pieces hold, or None where a head can name them itself."""
    if len(pieces) <= NAMED_PIECES:
        return None
    step = LISTED_PIECES
    return [list_of(pieces[start:start + step]) for start in range(0, len(pieces), step)]
