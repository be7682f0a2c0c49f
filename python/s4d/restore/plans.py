"""What has to be done to an object, so that it holds what it held: the fewest requests, and the smallest. Nothing here sends them."""
from __future__ import annotations

from typing import Any, List, NamedTuple, Tuple

from .. import wire
from ..wire import WRITE_BYTES, AuditKind, AuditRow, Request

BLOCK_BYTES = 512  # in which the drive keeps an object's bytes


class Content(NamedTuple):
    """What an object holds: its bytes and its attribute."""

    data: bytes
    attribute: bytes


class Change(NamedTuple):
    """A request for a change, and the row that an audit gets of it, but for its moment."""

    request: Request[Any]
    row: AuditRow


def create(attribute: bytes) -> Change:
    return Change(wire.create(attribute), AuditRow(0, AuditKind.CREATE, 0, len(attribute), 0))


def delete(object: int) -> Change:
    return Change(wire.delete(object), AuditRow(0, AuditKind.DELETE, object, 0, 0))


def write(object: int, offset: int, data: bytes) -> Change:
    return Change(wire.write(object, offset, data), AuditRow(0, AuditKind.WRITE, object, offset, len(data)))


def truncate(object: int, size: int) -> Change:
    return Change(wire.truncate(object, size), AuditRow(0, AuditKind.TRUNCATE, object, size, 0))


def set_attribute(object: int, attribute: bytes) -> Change:
    return Change(wire.set_attribute(object, attribute), AuditRow(0, AuditKind.SET_ATTRIBUTE, object, len(attribute), 0))


def set_window(moments: int) -> Change:
    return Change(wire.set_window(moments), AuditRow(0, AuditKind.SET_WINDOW, 0, moments, 0))


def hide(object: int, first: int, last: int) -> Change:
    return Change(wire.flush_object(object, first, last), AuditRow(0, AuditKind.FLUSH_OBJECT, object, first, last))


def differing(data: bytes, now: bytes) -> Tuple[int, int]:
    """The first place at which two texts of one length differ, and the one after the last."""
    places = [place for place, (one, other) in enumerate(zip(data, now)) if one != other]
    return places[0], places[-1] + 1


def runs_between(data: bytes, now: bytes) -> List[Tuple[int, int]]:
    """The runs of neighbouring blocks that differ, each from its first byte that differs to after its last. A text that is too
    short has zeros.
    """
    runs: List[Tuple[int, int]] = []
    for start in range(0, len(data), BLOCK_BYTES):
        block = data[start:start + BLOCK_BYTES]
        there = now[start:start + len(block)].ljust(len(block), b"\0")
        if block == there:
            continue
        first, end = differing(block, there)
        if runs and runs[-1][1] > start - BLOCK_BYTES:
            runs[-1] = runs[-1][0], start + end
        else:
            runs.append((start + first, start + end))
    return runs


def pieces_of(first: int, end: int) -> List[Tuple[int, int]]:
    """A run in pieces that a Write takes, which meet where blocks do."""
    pieces: List[Tuple[int, int]] = []
    while end - first > WRITE_BYTES:
        cut = (first + WRITE_BYTES) // BLOCK_BYTES * BLOCK_BYTES
        pieces.append((first, cut))
        first = cut
    return pieces + [(first, end)]


def needs_size(data: bytes, now: bytes) -> bool:
    """Whether a Truncate is needed: to cut, or for zeros at the end that no Write brings."""
    return len(data) < len(now) or len(now) < len(data) and data[-1] == 0


def byte_changes(object: int, data: bytes, now: bytes) -> List[Change]:
    """The changes by which an object gets its bytes, in their order."""
    size = [truncate(object, len(data))] if needs_size(data, now) else []
    pieces = [piece for run in runs_between(data, now) for piece in pieces_of(*run)]
    return size + [write(object, first, data[first:end]) for first, end in pieces]


def changes_between(object: int, then: Content, now: Content) -> List[Change]:
    """The changes by which an object that is there is made what it was, in their order; none where it is that."""
    named = [] if then.attribute == now.attribute else [set_attribute(object, then.attribute)]
    return byte_changes(object, then.data, now.data) + named
