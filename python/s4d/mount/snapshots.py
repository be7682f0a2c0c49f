"""The objects of a moment, as `s4 export` wrote them into a folder."""
from __future__ import annotations

import os
import shutil
import time
from enum import Enum
from typing import Callable, List, NamedTuple, Optional, Tuple

from ..history import TIMES
from ..image import Export, Image
from ..rows import Exported
from .names import BY_NUMBER, Names

TICK_NANOSECONDS = 100_000_000  # after a file's change, in which a further one may leave the file's times as they are
FILE_BLOCK = 4_096  # bytes that a file takes of a disk, at the least, where it has any
LARGEST = 2**63 // 1_000  # the last microsecond that a file's time can be

Seen = Tuple[int, ...]


class Kind(Enum):
    """What a path is."""

    FOLDER = "folder"
    FILE = "file"
    LINK = "link"


class Entry(NamedTuple):
    """What a path is, its size in bytes, the nanoseconds from 1970 to its last change, and the target of a link."""

    kind: Kind
    size: int
    time: int
    target: bytes = b""


class Stored(NamedTuple):
    """An object's file: its name in the snapshot's folder, its size, and the time of the object's last change."""

    file: str
    size: int
    time: int


class Snapshot:
    """The objects of one moment. Its folder is its own."""

    def __init__(self, folder: str, export: Export, seen: Optional[Seen], time: int) -> None:
        self.folder, self.is_clock, self.seen = folder, export.is_clock, seen
        self._names = Names((row.object, row.attribute) for row in export.objects)
        self._stored = {row.object: stored(row, time) for row in export.objects}
        self._time = max((it.time for it in self._stored.values()), default=time)
        self.size = sum(-(-it.size // FILE_BLOCK) * FILE_BLOCK for it in self._stored.values())

    def entry(self, path: bytes) -> Optional[Entry]:
        """What a path is in this moment's folder, whose own path is empty; None where nothing is there."""
        folder, slash, number = path.partition(b"/")
        if folder == BY_NUMBER:
            return self._link(number) if slash else self._folder()
        object = self._names.object_at(path)
        if object is not None:
            return Entry(Kind.FILE, self._stored[object].size, self._stored[object].time)
        return self._folder() if self._names.is_folder(path) else None

    def in_folder(self, path: bytes) -> List[bytes]:
        """The names in a folder. `by-number` isn't among them, so that who compares or copies all has each object once."""
        if path == BY_NUMBER:
            return [b"%d" % object for object in self._names.numbers()]
        return self._names.in_folder(path)

    def open(self, path: bytes) -> int:
        """A descriptor of an object's bytes. FileNotFoundError where they are gone, or no object has this path."""
        object = self._names.object_at(path)
        if object is None:
            raise FileNotFoundError(path)
        return os.open(os.path.join(self.folder, self._stored[object].file), os.O_RDONLY | os.O_NOFOLLOW)

    def remove(self) -> None:
        """Removes the folder: what is open stays."""
        shutil.rmtree(self.folder, ignore_errors=True)

    def _folder(self) -> Entry:
        return Entry(Kind.FOLDER, 0, self._time)

    def _link(self, number: bytes) -> Optional[Entry]:
        object = int(number) if number.isdigit() and len(number) <= 20 else 0
        path = self._names.of(object)
        if path is None or number != b"%d" % object:
            return None
        target = b"../" + path
        return Entry(Kind.LINK, len(target), self._stored[object].time, target)


def stored(row: Exported, time: int) -> Stored:
    """An object's file. Its time is another where the object's moment is none."""
    return Stored(row.file, row.size, row.changed * 1_000 if TIMES <= row.changed < LARGEST else time)


def seen_of(path: str, now: int) -> Optional[Seen]:
    """What shows that a file was changed, as long as it stays the same. None where the file isn't there, or was changed so
    short a time ago that a further change may not show.
    """
    try:
        found = os.stat(path)
    except OSError:
        return None
    if now - found.st_mtime_ns < TICK_NANOSECONDS:
        return None
    return found.st_dev, found.st_ino, found.st_size, found.st_mtime_ns, found.st_ctime_ns


def made(image: Image, folder: str, at: Optional[str], is_ended: Callable[[], bool]) -> Snapshot:
    """The objects of a moment, in a folder that isn't there yet, and isn't there afterwards where this fails, as it does
    where `is_ended` says so.
    """
    now = time.time_ns()
    seen = seen_of(image.path, now)
    try:
        return Snapshot(folder, image.export(folder, at, is_ended), seen, now if seen is None else seen[3])
    except BaseException:
        shutil.rmtree(folder, ignore_errors=True)
        raise
