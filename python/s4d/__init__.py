"""A client of s4d, the object drive that keeps every version of every object, with the standard library alone.

    import s4d

    with s4d.Drive.pipe("PATH/TO/s4d", "admin", tick=0, window=1_000) as drive:
        note = drive.create(b"note").object
        before = drive.write(note, 0, b"meet at the mill")
        drive.write(note, 0, b"meet at the moor")                 # an intruder, with a client's rights
        drive.at(before).read(note)                               # b"meet at the mill"
        drive.write(note, 0, drive.at(before).read(note))         # restored
        for span in drive.history(note):
            print(span.kind, span.first, span.last, span.size)
        with drive.pipeline() as batch:                           # many requests, one trip
            replies = [batch.append(note, b"!") for _ in range(3)]
        replies[-1].result()

A drive that is served over sockets is reached by `s4d.Drive.connect("unix:client.sock")`, or `tls:HOST:PORT`, and by
`s4d.AsyncDrive` for the tasks of an event loop; `python3 -m s4d.bridge` serves it.

A drive that lasts is a file: `s4d.Image(path).session()`. What it has of the past is in `Image.log`, `diff` and others.
A refusal is raised as an exception of its own class (`NoObject`, `Expired`, ..), all of them `Refused`; it names the
request, the object and the moment.
"""
from .async_drive import AsyncDrive, AsyncPast
from .connection import Peer, Reader, Writer
from .drive import Drive, Past
from .errors import (REFUSALS, BadAttr, BadFrame, BadReply, BadSpan, Busy, ChainFull, ClockEnd, Disconnected, Ended,
                     Error, Expired, Flushed, Future, ImageServed, InUse, NoMemory, NoObject, NoRoom, NoSpace, NotAdmin,
                     NotAsked, ProgramFailed, Refused, ReplyLost, Stale, TooLarge, TooManySpans)
from .history import Kind, Span
from .image import Export, Facts, Image, Moment
from .moments import When
from .pipeline import Pipeline, Reply
from .retry import NEVER, Retry
from .rows import (Aged, Change, ChangeKind, Checked, Compacted, Difference, Exported, Flush, Hidden,
                   HiddenCounts, HiddenVersions, Info, Listed, ListedVersion, Range, Restored, Stat,
                   Times, Widened)
from .tls import Tls
from .wire import ATTRIBUTE_BYTES, AUDIT_ROWS, BODY_BYTES, LAST, OBJECT_BYTES, READ_BYTES, WRITE_BYTES
from .wire import Attributes, AuditKind, AuditRow, Created

__version__ = "0.1.0"

__all__ = [
    "ATTRIBUTE_BYTES", "AUDIT_ROWS", "Aged", "AsyncDrive", "AsyncPast", "Attributes", "AuditKind", "AuditRow",
    "BODY_BYTES", "BadAttr", "BadFrame", "BadReply", "BadSpan", "Busy", "ChainFull", "Change", "ChangeKind", "Checked",
    "ClockEnd",
    "Compacted", "Created", "Difference", "Disconnected", "Drive", "Ended", "Error", "Expired", "Export", "Exported", "Facts", "Flush",
    "Flushed", "Future", "Hidden", "HiddenCounts", "HiddenVersions", "Image", "ImageServed", "InUse", "Info", "Kind", "LAST",
    "Listed", "ListedVersion", "Moment", "NEVER", "NoMemory", "NoObject", "NoRoom", "NoSpace", "NotAdmin", "NotAsked", "OBJECT_BYTES",
    "Past", "Peer", "Pipeline", "ProgramFailed", "READ_BYTES", "REFUSALS", "Range", "Reader", "Refused", "Reply", "ReplyLost",
    "Restored", "Retry", "Span", "Stale", "Stat", "Times", "Tls", "TooLarge", "TooManySpans", "WRITE_BYTES",
    "When", "Widened", "Writer",
]
