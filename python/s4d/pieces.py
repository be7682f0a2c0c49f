"""Objects that are larger than a request or a reply, in pieces. Nothing here sends requests: sessions follow the steps."""
from __future__ import annotations

from typing import Any, Generator, List, Optional, TypeVar

from . import wire
from .errors import Expired, Flushed
from .moments import When, moment_of
from .wire import READ_BYTES, Request

IN_FLIGHT = 8  # changes of a large write that are asked before the first of them is answered

T = TypeVar("T")

Steps = Generator[Request[Any], Any, T]  # yields requests, is sent their answers, or their refusals are thrown into it


def starts(data: bytes) -> range:
    """Where the pieces of a large write begin: they are whole blocks each, if the write begins at a block's start."""
    return range(0, max(len(data), 1), READ_BYTES)


def write_batches(object: int, offset: int, data: bytes) -> List[List[Request[int]]]:
    """The changes that put bytes at an offset, in their order. Those of a batch are sent together."""
    requests = [wire.write(object, offset + start, data[start:start + READ_BYTES]) for start in starts(data)]
    return [requests[first:first + IN_FLIGHT] for first in range(0, len(requests), IN_FLIGHT)]


def read_all(object: int, offset: int, at: Optional[When]) -> Steps[bytes]:
    """All bytes from an offset on, of one version: that of a moment, or the present one."""
    if at is not None:
        return (yield from read_on(object, offset, moment_of(at)))
    data: bytes = yield wire.read(object, offset, READ_BYTES, None)
    return data if len(data) < READ_BYTES else (yield from read_version(object, offset))


def read_on(object: int, offset: int, at: Optional[int]) -> Steps[bytes]:
    """All bytes from an offset on; where no moment is given each piece is of a moment of its own."""
    pieces = [(yield wire.read(object, offset, READ_BYTES, at))]
    while len(pieces[-1]) == READ_BYTES:
        offset += READ_BYTES
        pieces.append((yield wire.read(object, offset, READ_BYTES, at)))
    return b"".join(pieces)


def read_version(object: int, offset: int) -> Steps[bytes]:
    """All bytes of the present version from an offset on.

    The pieces are of one version where the last change is the same before and after them. Else another session
    changed the object meanwhile: it is read at that change, or anew where that moment can't be read.
    """
    changed = (yield wire.attributes(object, None)).changed
    data = yield from read_on(object, offset, None)
    while (later := (yield wire.attributes(object, None)).changed) != changed:
        changed = later
        try:
            return (yield from read_on(object, offset, changed))
        except (Expired, Flushed):
            data = yield from read_on(object, offset, None)
    return data
