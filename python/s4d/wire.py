"""The encoding of requests and the reading of replies, by docs/FORMATS.md. Nothing here reads or writes a stream."""
from __future__ import annotations

from dataclasses import dataclass
from enum import Enum
from typing import Callable, Generic, List, NamedTuple, Optional, TypeVar, Union

from .errors import REFUSALS, BadReply, Refused
from .moments import When, moment_of, moment_or_none

OBJECT_BYTES = 98_304  # the greatest size of an object
READ_BYTES = 24_576  # the most bytes of one read
ATTRIBUTE_BYTES = 64  # the longest attribute
AUDIT_ROWS = 512  # the most rows of one audit
AUDIT_ROW_BYTES = 33
BODY_BYTES = 32_768  # the longest body of a frame
WRITE_BYTES = BODY_BYTES - 17  # the most bytes of one write, after its kind, object and offset
LAST = 2**64 - 1  # the last moment, and the greatest number of an object
TURNED_AWAY = b"\0\xff"  # a body by which a bridge says that it has no session any more, and passes nothing on; no drive gives it

T = TypeVar("T")


class Created(NamedTuple):
    """A new object's number, and the moment of its creation."""

    object: int
    moment: int


class Attributes(NamedTuple):
    """What GetAttr answers: size in bytes, the moments of creation and of the last change, and the attribute."""

    size: int
    created: int
    changed: int
    attribute: bytes


class AuditKind(Enum):
    """What an accepted change was; an Append is the write that it came to."""

    CREATE = 1
    DELETE = 2
    WRITE = 4
    TRUNCATE = 6
    SET_ATTRIBUTE = 8
    SET_WINDOW = 9
    FLUSH = 10
    FLUSH_OBJECT = 11


class AuditRow(NamedTuple):
    """An accepted change. The object is 0 of SET_WINDOW and FLUSH.

    The numbers are of CREATE and SET_ATTRIBUTE the length of the attribute and 0, of WRITE offset and length, of TRUNCATE the size
    and 0, of SET_WINDOW the window and 0, of the flushes the first and the last moment.
    """

    moment: int
    kind: AuditKind
    object: int
    first: int
    second: int


@dataclass(frozen=True)
class Request(Generic[T]):
    """A request: its bytes, what it names for errors, and how the reply to it is read."""

    name: str
    body: bytes
    meaning: Callable[[int, bytes], T]
    object: Optional[int] = None
    at: Optional[int] = None

    def frame(self) -> bytes:
        """The bytes that go over the wire."""
        return len(self.body).to_bytes(4, "big") + self.body

    def answer(self, reply: bytes) -> Union[T, Refused]:
        """What a reply's body says; BadReply where it is no reply to this request."""
        kind, rest = reply[0], reply[1:]
        if kind != 0:
            return self.meaning(kind, rest)
        if len(rest) != 1 or rest[0] not in REFUSALS:
            raise BadReply("a refusal without a number that is known")
        return REFUSALS[rest[0]](self.name, self.object, self.at)


def number(value: int, size: int) -> bytes:
    """A number with its highest byte first; ValueError where it has no such size."""
    try:
        return value.to_bytes(size, "big")
    except OverflowError:
        raise ValueError(f"{value} is no number of {size} bytes") from None


def numbers(*values: int) -> bytes:
    return b"".join(number(value, 8) for value in values)


def moment_or_now(at: Optional[int]) -> bytes:
    return b"\0" if at is None else b"\1" + numbers(at)


def counted(attribute: bytes) -> bytes:
    return number(len(attribute), 1) + bytes(attribute)


def read_changed(kind: int, rest: bytes) -> int:
    if kind != 1 or len(rest) != 8:
        raise BadReply("no Changed came")
    return int.from_bytes(rest, "big")


def read_nothing(_kind: int, _rest: bytes) -> None:
    raise BadReply("an empty request was answered")


def read_created(kind: int, rest: bytes) -> Created:
    if kind != 2 or len(rest) != 16:
        raise BadReply("no Created came")
    return Created(int.from_bytes(rest[:8], "big"), int.from_bytes(rest[8:], "big"))


def read_data(kind: int, rest: bytes) -> bytes:
    if kind != 3 or len(rest) > READ_BYTES:
        raise BadReply("no Data came")
    return rest


def read_attributes(kind: int, rest: bytes) -> Attributes:
    if kind != 4 or len(rest) < 21 or rest[20] > ATTRIBUTE_BYTES or len(rest) != 21 + rest[20]:
        raise BadReply("no Attr came")
    size, created, changed = (int.from_bytes(part, "big") for part in (rest[:4], rest[4:12], rest[12:20]))
    return Attributes(size, created, changed, rest[21:])


def read_audit_row(row: bytes) -> AuditRow:
    moment, object, first, second = (int.from_bytes(part, "big") for part in (row[:8], row[9:17], row[17:25], row[25:]))
    try:
        return AuditRow(moment, AuditKind(row[8]), object, first, second)
    except ValueError:
        raise BadReply("a row of no kind that is known") from None


def read_audit_rows(kind: int, rest: bytes) -> List[AuditRow]:
    count, left = divmod(len(rest), AUDIT_ROW_BYTES)
    if kind != 5 or left or count > AUDIT_ROWS:
        raise BadReply("no AuditRows came")
    return [read_audit_row(rest[AUDIT_ROW_BYTES * i:AUDIT_ROW_BYTES * (i + 1)]) for i in range(count)]


def change(name: str, body: bytes, object: Optional[int] = None) -> Request[int]:
    """A request that is answered by the moment of its change."""
    if len(body) > BODY_BYTES:
        raise ValueError(f"a request has at most {BODY_BYTES:,} bytes, this one {len(body):,}")
    return Request(name, body, read_changed, object)


def create(attribute: bytes) -> Request[Created]:
    return Request("create", b"\x01" + counted(attribute), read_created)


def delete(object: int) -> Request[int]:
    return change("delete", b"\x02" + numbers(object), object)


def read(object: int, offset: int, length: int, at: Optional[When]) -> Request[bytes]:
    moment = moment_or_none(at)
    body = b"\x03" + numbers(object, offset) + number(length, 4) + moment_or_now(moment)
    return Request("read", body, read_data, object, moment)


def write(object: int, offset: int, data: bytes) -> Request[int]:
    return change("write", b"\x04" + numbers(object, offset) + bytes(data), object)


def append(object: int, data: bytes) -> Request[int]:
    return change("append", b"\x05" + numbers(object) + bytes(data), object)


def truncate(object: int, size: int) -> Request[int]:
    return change("truncate", b"\x06" + numbers(object, size), object)


def attributes(object: int, at: Optional[When]) -> Request[Attributes]:
    moment = moment_or_none(at)
    return Request("attributes", b"\x07" + numbers(object) + moment_or_now(moment), read_attributes, object, moment)


def audit(first: When, most: int) -> Request[List[AuditRow]]:
    return Request("audit", b"\x0c" + numbers(moment_of(first)) + number(most, 2), read_audit_rows)


def set_attribute(object: int, attribute: bytes) -> Request[int]:
    return change("set_attribute", b"\x08" + numbers(object) + counted(attribute), object)


def set_window(moments: int) -> Request[int]:
    return change("set_window", b"\x09" + numbers(moments))


def flush(first: When, last: When) -> Request[int]:
    return change("flush", b"\x0a" + numbers(moment_of(first), moment_of(last)))


def flush_object(object: int, first: When, last: When) -> Request[int]:
    return change("flush_object", b"\x0b" + numbers(object, moment_of(first), moment_of(last)), object)


def nothing() -> Request[None]:
    """An empty frame, which is refused as BadFrame, changes nothing and draws no moment."""
    return Request("nothing", b"", read_nothing)
