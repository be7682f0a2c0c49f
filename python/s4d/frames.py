"""What frames say of a request and of its reply, for the log and the counts of a bridge, which passes them as they are."""
from __future__ import annotations

from dataclasses import dataclass
from typing import Dict, List, Optional, Tuple, Union

from .errors import REFUSALS
from .wire import AUDIT_ROW_BYTES, BODY_BYTES

LENGTH_BYTES = 4  # of the length before each body
BAD_FRAME = b"\0\0\0\2\0\x0f"  # the whole reply to what is no request
BAD = "bad frame"

KINDS = {1: "create", 2: "delete", 3: "read", 4: "write", 5: "append", 6: "truncate", 7: "attributes",
         8: "set_attribute", 9: "set_window", 10: "flush", 11: "flush_object", 12: "audit"}
READING = ("read", "attributes", "audit")
WITHOUT_OBJECT = (1, 9, 10, 12)
MOMENT_AT = {3: 21, 7: 9}  # where the byte is that says whether a moment follows
SPAN_AT = {10: 1, 11: 9}  # where the first and the last moment of a flush are

Said = Dict[str, Union[int, str]]


@dataclass(frozen=True)
class Asked:
    """A request that was passed on: its kind, what it names, and when that was, in seconds of the monotonic clock."""

    kind: str
    named: Said
    since: float

    @property
    def is_change(self) -> bool:
        """Whether it would change the drive; what is no request counts as if it did."""
        return self.kind not in READING


def number_at(body: bytes, at: int) -> Optional[int]:
    """The number of eight bytes there, or None where the body ends before."""
    return int.from_bytes(body[at:at + 8], "big") if len(body) >= at + 8 else None


def asked(body: bytes, now: float) -> Asked:
    """What a request's body says. The drive alone judges it: here a part that is missing is left out."""
    kind = body[0] if body else 0
    places: List[Tuple[str, int]] = []
    if kind in KINDS and kind not in WITHOUT_OBJECT:
        places.append(("object", 1))
    if kind in MOMENT_AT and body[MOMENT_AT[kind]:MOMENT_AT[kind] + 1] == b"\1":
        places.append(("at", MOMENT_AT[kind] + 1))
    if kind in SPAN_AT:
        places += [("first", SPAN_AT[kind]), ("last", SPAN_AT[kind] + 8)]
    if kind == 9:
        places.append(("window", 1))
    found = ((name, number_at(body, at)) for name, at in places)
    return Asked(KINDS.get(kind, BAD), {name: value for name, value in found if value is not None}, now)


def answered(body: bytes) -> Said:
    """What a reply's body says: a moment, a new object, a refusal, or how much came."""
    kind = body[0]
    if kind == 0:
        known = REFUSALS.get(body[1]) if len(body) == 2 else None
        return {"refusal": known.__name__ if known else "unknown"}
    if kind == 2:
        places: Tuple[Tuple[str, int], ...] = ("object", 1), ("moment", 9)
    else:
        places = (("moment", 1),) if kind == 1 else ()
    found = ((name, number_at(body, at)) for name, at in places)
    said: Said = {name: value for name, value in found if value is not None}
    if kind == 3:
        said["bytes"] = len(body) - 1
    if kind == 5:
        said["rows"] = (len(body) - 1) // AUDIT_ROW_BYTES
    return said


class Replies:
    """Takes the bytes that a service wrote apart into whole frames."""

    def __init__(self) -> None:
        self._rest = b""

    def take(self, data: bytes) -> List[bytes]:
        """The frames that are whole with these bytes; ValueError where a length is none that a reply has."""
        held, at, frames = self._rest + data, 0, []
        while len(held) - at >= LENGTH_BYTES:
            length = int.from_bytes(held[at:at + LENGTH_BYTES], "big")
            if not 1 <= length <= BODY_BYTES:
                raise ValueError(f"a reply has no {length:,} bytes")
            end = at + LENGTH_BYTES + length
            if len(held) < end:
                break
            frames.append(held[at:end])
            at = end
        self._rest = held[at:]
        return frames
