"""A drive as a list of versions in memory, which answers the bytes of requests by docs/FORMATS.md. It never lacks room."""
from dataclasses import dataclass, replace
from typing import Dict, List, Optional, Tuple

OBJECT_BYTES, READ_BYTES, ATTRIBUTE_BYTES, AUDIT_ROWS = 98_304, 24_576, 64, 512
NO_OBJECT, NOT_ADMIN, EXPIRED, FUTURE, FLUSHED, TOO_LARGE, BAD_SPAN, BAD_ATTR, BAD_FRAME = 1, 2, 3, 4, 5, 6, 7, 13, 15
ADMIN_KINDS = (9, 10, 11, 12)
QUESTIONS = (3, 7, 12)


class Refusal(Exception):
    """The request is refused by this number."""


@dataclass(frozen=True)
class Version:
    """An object from a moment on, up to its next version."""

    moment: int
    is_live: bool
    data: bytes
    attribute: bytes
    created: int


class Body:
    """The bytes of a request, taken from their front. What they lack makes it a bad frame."""

    def __init__(self, data: bytes) -> None:
        self.data = data

    def take(self, count: int) -> bytes:
        if len(self.data) < count:
            raise Refusal(BAD_FRAME)
        taken, self.data = self.data[:count], self.data[count:]
        return taken

    def number(self, size: int = 8) -> int:
        return int.from_bytes(self.take(size), "big")

    def attribute(self) -> bytes:
        return self.take(self.number(1))

    def at(self) -> Optional[int]:
        mark = self.number(1)
        if mark > 1:
            raise Refusal(BAD_FRAME)
        return self.number() if mark else None

    def rest(self) -> bytes:
        return self.take(len(self.data))

    def end(self) -> None:
        if self.data:
            raise Refusal(BAD_FRAME)


class PlainDrive:
    """`answer` gives the reply's body. A session draws no moments: changes alone move the clock."""

    def __init__(self, window: int = 1_000_000) -> None:
        self.clock, self.floor, self.window = 0, 0, window
        self.versions: Dict[int, List[Version]] = {}
        self.hidden: List[Tuple[int, int, int]] = []
        self.rows: List[Tuple[int, int, int, int, int]] = []

    def answer(self, role: str, data: bytes) -> bytes:
        try:
            kind, arguments = self._parsed(data)
            if kind in ADMIN_KINDS and role != "admin":
                raise Refusal(NOT_ADMIN)
            if kind in QUESTIONS:
                return {3: self._read, 7: self._attributes, 12: self._audit}[kind](*arguments)
            return self._changed(kind, *arguments)
        except Refusal as refusal:
            return bytes([0, refusal.args[0]])

    @staticmethod
    def _parsed(data: bytes):
        body = Body(data)
        kind = body.number(1)
        shapes = {
            1: (body.attribute,), 2: (body.number,), 3: (body.number, body.number, lambda: body.number(4), body.at),
            4: (body.number, body.number, body.rest), 5: (body.number, body.rest), 6: (body.number, body.number),
            7: (body.number, body.at), 8: (body.number, body.attribute), 9: (body.number,),
            10: (body.number, body.number), 11: (body.number, body.number, body.number),
            12: (body.number, lambda: body.number(2)),
        }
        if kind not in shapes:
            raise Refusal(BAD_FRAME)
        arguments = [part() for part in shapes[kind]]
        body.end()
        return kind, arguments

    def _version(self, number: int, at: Optional[int] = None) -> Version:
        """The live version of a moment, or now. The refusals come in their order."""
        if at is not None:
            if at > self.clock:
                raise Refusal(FUTURE)
            if at < self.floor:
                raise Refusal(EXPIRED)
            if any(first <= at <= last for of, first, last in self.hidden if of in (0, number)):
                raise Refusal(FLUSHED)
        past = self.versions.get(number, [])
        past = past[-1:] if at is None else [one for one in past if one.moment <= at]
        if not past or not past[-1].is_live:
            raise Refusal(NO_OBJECT)
        return past[-1]

    def _read(self, number: int, offset: int, length: int, at: Optional[int]) -> bytes:
        if length > READ_BYTES:
            raise Refusal(TOO_LARGE)
        return b"\x03" + self._version(number, at).data[offset:offset + length]

    def _attributes(self, number: int, at: Optional[int]) -> bytes:
        found = self._version(number, at)
        parts = len(found.data).to_bytes(4, "big"), found.created.to_bytes(8, "big"), found.moment.to_bytes(8, "big")
        return b"\x04" + b"".join(parts) + bytes([len(found.attribute)]) + found.attribute

    def _audit(self, first: int, most: int) -> bytes:
        if most > AUDIT_ROWS:
            raise Refusal(TOO_LARGE)
        rows = [row for row in self.rows if row[0] >= first][:most]
        return b"\x05" + b"".join(moment.to_bytes(8, "big") + bytes([kind]) + b"".join(n.to_bytes(8, "big") for n in rest)
                                  for moment, kind, *rest in rows)

    def _changed(self, kind: int, *arguments) -> bytes:
        moment = self.clock + 1
        made = {1: self._create, 9: self._set_window, 10: self._flush, 11: self._flush}.get(kind)
        if kind == 10:
            arguments = (0, *arguments)
        number, *numbers = made(moment, *arguments) if made else self._change(moment, kind, *arguments)
        self.rows.append((moment, 4 if kind == 5 else kind, number, *numbers))
        self.clock = moment
        self.floor = max(self.floor, self.clock - self.window)
        if kind == 1:
            return b"\x02" + number.to_bytes(8, "big") + moment.to_bytes(8, "big")
        return b"\x01" + moment.to_bytes(8, "big")

    def _create(self, moment: int, attribute: bytes):
        if len(attribute) > ATTRIBUTE_BYTES:
            raise Refusal(BAD_ATTR)
        number = len(self.versions) + 1
        self.versions[number] = [Version(moment, True, b"", attribute, moment)]
        return number, len(attribute), 0

    def _set_window(self, _moment: int, window: int):
        self.window = window
        return 0, window, 0

    def _flush(self, _moment: int, number: int, first: int, last: int):
        if first > last or last > self.clock:
            raise Refusal(BAD_SPAN)
        if number and number not in self.versions:
            raise Refusal(NO_OBJECT)
        self.hidden.append((number, first, last))
        return number, first, last

    def _change(self, moment: int, kind: int, number: int, *arguments):
        if kind == 8 and len(arguments[0]) > ATTRIBUTE_BYTES:
            raise Refusal(BAD_ATTR)
        if kind == 4 and arguments[0] + len(arguments[1]) > OBJECT_BYTES or kind == 6 and arguments[0] > OBJECT_BYTES:
            raise Refusal(TOO_LARGE)
        found = self._version(number)
        data, numbers = found.data, (0, 0)
        if kind == 5:
            kind, arguments = 4, (len(data), *arguments)
            if len(data) + len(arguments[1]) > OBJECT_BYTES:
                raise Refusal(TOO_LARGE)
        if kind == 4:
            offset, put = arguments
            data = data.ljust(offset, b"\0")[:offset] + put + data[offset + len(put):] if put else data
            numbers = offset, len(put)
        elif kind == 6:
            data, numbers = data[:arguments[0]].ljust(arguments[0], b"\0"), (arguments[0], 0)
        elif kind == 8:
            found, numbers = replace(found, attribute=arguments[0]), (len(arguments[0]), 0)
        self.versions[number].append(replace(found, moment=moment, data=data, is_live=kind != 2))
        return (number, *numbers)
