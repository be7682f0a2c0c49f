"""What `s4 --json` prints of an image. Each class has the names of its JSON, attributes as bytes, and times in UTC.

A time is None where the drive's clock counts requests and not microseconds since 1970.
"""
from __future__ import annotations

import json
from dataclasses import dataclass, fields
from datetime import datetime
from enum import Enum
from typing import Any, Callable, Dict, List, Optional, Tuple, TypeVar, Union

from .errors import BadReply
from .wire import AuditKind, AuditRow

T = TypeVar("T")
Json = Dict[str, Any]

# By the kind that a row of `audit` prints: what it is here, and the names of its numbers.
AUDIT_KINDS: Dict[str, Tuple[AuditKind, Tuple[str, ...]]] = {
    "create": (AuditKind.CREATE, ("attribute_length",)),
    "delete": (AuditKind.DELETE, ()),
    "write": (AuditKind.WRITE, ("offset", "length")),
    "truncate": (AuditKind.TRUNCATE, ("size",)),
    "setattr": (AuditKind.SET_ATTRIBUTE, ("attribute_length",)),
    "setwindow": (AuditKind.SET_WINDOW, ("window",)),
    "flush": (AuditKind.FLUSH, ("first", "last")),
    "flusho": (AuditKind.FLUSH_OBJECT, ("first", "last")),
}


class ChangeKind(Enum):
    """What a change did."""

    MADE = "made"
    DELETED = "deleted"
    WRITTEN = "written"
    CUT = "cut"
    LENGTHENED = "lengthened"
    ATTRIBUTE = "attribute"
    TOUCHED = "touched"  # the moment of the last change alone
    CONTINUED = "continued"  # more blocks of the change before it


@dataclass(frozen=True)
class ListedVersion:
    """A version of an object: the first moment at which it can be read, when it was changed to it, its size in bytes.

    The contents are None where they weren't asked for.
    """

    moment: int
    time: Optional[datetime]
    changed: int
    changed_time: Optional[datetime]
    size: int
    attribute: bytes
    contents: Optional[bytes]


@dataclass(frozen=True)
class Listed:
    """An object at a moment: `live` or `deleted`, its size in bytes. The text is None where the attribute is no UTF-8.

    It has no versions where these weren't asked for.
    """

    object: int
    state: str
    size: int
    created: int
    created_time: Optional[datetime]
    changed: int
    changed_time: Optional[datetime]
    attribute: bytes
    attribute_text: Optional[str]
    versions: Tuple[ListedVersion, ...] = ()


@dataclass(frozen=True)
class Change:
    """A change of an object: sizes in bytes, and the first and the last of the blocks of 512 bytes that it wrote.

    Blocks and attributes are None where it changed none.
    """

    moment: int
    time: Optional[datetime]
    object: int
    kind: ChangeKind
    size_before: int
    size_after: int
    first_block: Optional[int]
    last_block: Optional[int]
    attribute_before: Optional[bytes]
    attribute_after: Optional[bytes]


@dataclass(frozen=True)
class Hidden:
    """Moments from `moment` to `last` that a flush hid, of one object, or of all (object 0)."""

    moment: int
    time: Optional[datetime]
    last: int
    last_time: Optional[datetime]
    object: int


@dataclass(frozen=True)
class Flush:
    """A flush at a moment, which hid those from `first` to `last`, of one object, or of all (object 0)."""

    moment: int
    time: Optional[datetime]
    object: int
    first: int
    first_time: Optional[datetime]
    last: int
    last_time: Optional[datetime]


@dataclass(frozen=True)
class Stat:
    """How many changes an object has, and the moments of the first and the last of them."""

    object: int
    changes: int
    first: int
    first_time: Optional[datetime]
    last: int
    last_time: Optional[datetime]


@dataclass(frozen=True)
class Range:
    """Bytes that differ, from `first` to `last` counted from 0; with a patch also what they were before and after."""

    first: int
    last: int
    before: Optional[bytes]
    after: Optional[bytes]


@dataclass(frozen=True)
class Difference:
    """What differs of an object between two moments: `made`, `deleted` or `changed`, sizes in bytes, and ranges.

    Attributes are None where they are the same. The text, where it was asked for, is a unified difference of lines; it
    is None where a version is no UTF-8.
    """

    object: int
    kind: str
    size_before: int
    size_after: int
    attribute_before: Optional[bytes]
    attribute_after: Optional[bytes]
    ranges: Tuple[Range, ...]
    text: Optional[str]


@dataclass(frozen=True)
class Times:
    """The times of a drive's clock and floor."""

    clock: Optional[datetime]
    floor: Optional[datetime]


@dataclass(frozen=True)
class HiddenCounts:
    """How many runs of moments are hidden of all objects, and of how many objects some are hidden alone."""

    runs: int
    objects: int


@dataclass(frozen=True)
class Info:
    """The numbers of a drive: its frames, those that are free, and the blocks of 512 bytes that changes may append.

    Retired frames hold nothing and are written no more; they aren't among the free ones.
    Then objects that are live and deleted, the next object's number, clock and window in moments, and the earliest
    moment that can be read.
    """

    frames: int
    free: int
    retired: int
    room: int
    live: int
    deleted: int
    next: int
    clock: int
    window: int
    floor: int
    time: Optional[Times]
    hidden: HiddenCounts


@dataclass(frozen=True)
class Restored:
    """What was done to an object: `changed`, `deleted`, `made anew`, with its new number, or `not restored`."""

    object: int
    done: str
    number: Optional[int]


@dataclass(frozen=True)
class HiddenVersions:
    """The moments of an object that were hidden to restore it, from the first to the last."""

    object: int
    first: int
    last: int


@dataclass(frozen=True)
class Widened:
    """The window, in moments, before a restore that had to widen it, and since. `Drive.set_window` puts it back."""

    before: int
    after: int


@dataclass(frozen=True)
class Aged:
    """How many versions that could be read before a restore ended by the drive's floor after it, where any did."""

    versions: int


@dataclass(frozen=True)
class Checked:
    """How many versions can be read, their bytes in all, and the SHA-256 of these in hex."""

    versions: int
    bytes: int
    sha256: str


@dataclass(frozen=True)
class Compacted:
    """What `compact` did, as its manual page says: room in blocks of 512 bytes, free frames, how it ended, and what is held."""

    room_before: int
    room_after: int
    free_before: int
    free_after: int
    turns: int
    rewritten: int
    removed: int
    emptied: int
    moves: int
    cleaning: str
    ending: str
    full_pass: str
    data: int
    past: int


@dataclass(frozen=True)
class Exported:
    """An object whose bytes `export` wrote: its file in the folder, and the SHA-256 of its bytes in hex.

    Moments are numbers here. The text is None where the attribute is no UTF-8.
    """

    object: int
    file: str
    size: int
    created: int
    changed: int
    attribute: bytes
    attribute_text: Optional[str]
    sha256: str


def rows_of(printed: bytes, meaning: Callable[[Json], T]) -> List[T]:
    """The rows that lines of JSON are; BadReply where one isn't what it should be."""
    return [row_of(line, meaning) for line in printed.splitlines()]


def row_of(line: bytes, meaning: Callable[[Json], T]) -> T:
    """The row that one JSON object is."""
    try:
        return meaning(json.loads(line))
    except (ValueError, KeyError, TypeError, AttributeError) as error:
        raise BadReply(f"s4 printed {line[:100]!r}, which lacks what belongs there: {error!r}") from error


def bytes_of(digits: Optional[str]) -> Optional[bytes]:
    return None if digits is None else bytes.fromhex(digits)


def time_of(text: Optional[str]) -> Optional[datetime]:
    """The time of RFC 3339; None where there is none, and past the year 9999, where the text is the moment's number."""
    if text is None or text.isdigit():
        return None
    return datetime.fromisoformat(text.replace("Z", "+00:00"))


def listed(row: Json) -> Listed:
    return Listed(row["object"], row["state"], row["size"], row["created"], time_of(row["created_time"]), row["changed"],
                  time_of(row["changed_time"]), bytes.fromhex(row["attribute"]), row["attribute_text"],
                  tuple(listed_version(it) for it in row.get("versions", ())))


def listed_version(row: Json) -> ListedVersion:
    return ListedVersion(row["moment"], time_of(row["time"]), row["changed"], time_of(row["changed_time"]), row["size"],
                         bytes.fromhex(row["attribute"]), bytes_of(row.get("contents")))


def logged(row: Json) -> Union[Change, Hidden, Flush]:
    if row["kind"] == "hidden":
        return Hidden(row["moment"], time_of(row["time"]), row["last"], time_of(row["last_time"]), row["object"])
    if row["kind"] in ("flush", "flusho"):
        hid = row["what"]
        return Flush(row["moment"], time_of(row["time"]), row["object"], hid["first"], time_of(hid["first_time"]),
                     hid["last"], time_of(hid["last_time"]))
    return Change(row["moment"], time_of(row["time"]), row["object"], ChangeKind(row["kind"]), row["size_before"],
                  row["size_after"], row["first_block"], row["last_block"], bytes_of(row["attribute_before"]),
                  bytes_of(row["attribute_after"]))


def audited(row: Json) -> AuditRow:
    kind, names = AUDIT_KINDS[row["kind"]]
    first, second = [*(row["what"][name] for name in names), 0, 0][:2]
    return AuditRow(row["moment"], kind, row["object"], first, second)


def stat(row: Json) -> Stat:
    return Stat(row["object"], row["changes"], row["first"], time_of(row["first_time"]), row["last"],
                time_of(row["last_time"]))


def range_of(row: Json) -> Range:
    return Range(row["first"], row["last"], bytes_of(row.get("before")), bytes_of(row.get("after")))


def difference(row: Json) -> Difference:
    return Difference(row["object"], row["kind"], row["size_before"], row["size_after"], bytes_of(row["attribute_before"]),
                      bytes_of(row["attribute_after"]), tuple(map(range_of, row["ranges"])), row.get("text"))


def restored(row: Json) -> Union[Restored, HiddenVersions, Widened, Aged]:
    if row["done"] == "hidden":
        return HiddenVersions(**named(row, HiddenVersions))
    if row["done"] == "aged":
        return Aged(row["versions"])
    if row["done"] == "widened":
        return Widened(row["from"], row["to"])
    return Restored(row["object"], row["done"], row.get("number"))


def exported(row: Json) -> Exported:
    return Exported(row["object"], row["file"], row["size"], row["created"], row["changed"], bytes.fromhex(row["attribute"]),
                    row["attribute_text"], row["sha256"])


def info(row: Json) -> Info:
    time = row["time"]
    times = None if time is None else Times(time_of(time["clock"]), time_of(time["floor"]))
    return Info(row["frames"], row["free"], row["retired"], row["room"], row["live"], row["deleted"], row["next"],
                row["clock"], row["window"], row["floor"], times, HiddenCounts(**named(row["hidden"], HiddenCounts)))


def checked(row: Json) -> Checked:
    return Checked(**named(row, Checked))


def compacted(row: Json) -> Compacted:
    return Compacted(**named(row, Compacted))


def named(row: Json, kind: Any) -> Json:
    """What a row has by the names of a class."""
    return {field.name: row[field.name] for field in fields(kind)}
