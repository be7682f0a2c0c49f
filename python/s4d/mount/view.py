"""The moments of an image as folders, made when they are asked for."""
from __future__ import annotations

import errno
import os
import re
import shutil
import tempfile
import threading
import time
from collections import OrderedDict
from typing import Callable, Dict, List, NamedTuple, NoReturn, Optional

from ..errors import Error, ProgramFailed
from ..image import Image
from ..moments import machine_time
from .asked import NOW, NOW_SECONDS, Asked, asked_by
from .snapshots import Entry, Kind, Snapshot, made, seen_of

MOST_MOMENTS = 8  # that are kept: where another is asked for, that one goes for which nobody asked for longest
MOST_BYTES = 512 * 2**20  # that the files of all kept moments take, where there is more than one
MOST_OPEN = 1_024  # files at once
MOST_FAILURES = 64  # that are remembered, so that each has one line
TRIES = 3  # to open a file of a moment that goes meanwhile
LINE = 500  # characters that are said at most of what `s4` said
PAUSE = 1.25  # of the time that a moment took to make, after its beginning: until then it isn't made again

# What `s4` says of a moment that can't be read, of an image that can.
NO_MOMENT = re.compile(r"moment \S+ is (to come|hidden or expired);|its moments are numbers,")


class Failure(NamedTuple):
    """Why a moment wasn't to be had, and until when that isn't asked again."""

    until: float
    number: int
    why: str


class Kept(NamedTuple):
    """A snapshot, and until when it serves without a look at the image."""

    snapshot: Snapshot
    until: float


class Place(NamedTuple):
    """A path of a moment: the rest of it, and what it is there."""

    asked: Asked
    snapshot: Snapshot
    path: bytes
    entry: Entry


class View:
    """All that FUSE shows. Its paths are bytes, begin with `/`, and have no other at their end. What isn't there is raised
    as an OSError with its number. Methods may be called by many threads at once. Where `is_ended` says so no moment is
    made any more, which is asked in the thread that makes it.
    """

    def __init__(self, image: Image, say: Callable[[str], None], is_ended: Callable[[], bool] = lambda: False,
                 clock: Callable[[], float] = time.monotonic) -> None:
        self._image, self._say, self._is_ended, self._clock, self._begun = image, say, is_ended, clock, time.time_ns()
        self._lock = threading.Lock()
        self._making = {True: threading.Lock(), False: threading.Lock()}  # whether it is `now`: so two programs run at most
        self._kept: OrderedDict[Asked, Kept] = OrderedDict()
        self._failed: OrderedDict[Asked, Failure] = OrderedDict()
        self._opened: Dict[int, Entry] = {}
        self._folder: Optional[str] = None
        self._count = 0

    def entry(self, path: bytes) -> Entry:
        """What a path is."""
        return Entry(Kind.FOLDER, 0, self._begun) if path == b"/" else self._place(path).entry

    def in_folder(self, path: bytes) -> List[bytes]:
        """The names in a folder: at the top `now`, and the times and numbers that are kept."""
        if path == b"/":
            with self._lock:
                return [NOW.name, *(asked.name for asked in self._kept if asked.moment is not None)]
        place = self._place(path)
        if place.entry.kind is not Kind.FOLDER:
            raise failure(errno.ENOTDIR)
        return place.snapshot.in_folder(place.path)

    def target(self, path: bytes) -> bytes:
        """The target of a link."""
        entry = self.entry(path)
        if entry.kind is not Kind.LINK:
            raise failure(errno.EINVAL)
        return entry.target

    def open(self, path: bytes) -> int:
        """A handle of an object's bytes, which stay the same until it is closed."""
        for _ in range(TRIES):
            place = self._place(path)
            if place.entry.kind is not Kind.FILE:
                raise failure(errno.EISDIR if place.entry.kind is Kind.FOLDER else errno.ELOOP)
            try:
                return self._open(place)
            except FileNotFoundError:
                self._drop(place)  # others have made room of it, or cleaned the folder of temporary files
        raise failure(errno.EAGAIN)

    def read(self, handle: int, size: int, offset: int) -> bytes:
        return os.pread(handle, size, offset)

    def opened(self, handle: int) -> Entry:
        """What is open."""
        return self._opened[handle]

    def close(self, handle: int) -> None:
        with self._lock:
            del self._opened[handle]
            os.close(handle)

    def end(self) -> None:
        """Closes and removes all."""
        with self._lock:
            for handle in self._opened:
                os.close(handle)
            self._opened.clear()
            self._kept.clear()
            if self._folder is not None:
                shutil.rmtree(self._folder, ignore_errors=True)

    def _place(self, path: bytes) -> Place:
        name, _, rest = path[1:].partition(b"/")
        asked = asked_by(name)
        if asked is None:
            raise failure(errno.ENOENT)
        snapshot = self._snapshot(asked)
        entry = snapshot.entry(rest)
        if entry is None:
            raise failure(errno.ENOENT)
        return Place(asked, snapshot, rest, entry)

    def _open(self, place: Place) -> int:
        with self._lock:
            if len(self._opened) >= MOST_OPEN:
                raise failure(errno.ENFILE)
            handle = place.snapshot.open(place.path)
            self._opened[handle] = place.entry
            return handle

    def _snapshot(self, asked: Asked) -> Snapshot:
        """The objects of a moment: those that are kept, else they are made."""
        found = self._found(asked)
        if found is not None:
            return found
        with self._making[asked == NOW]:
            found = self._found(asked)  # another may have made it meanwhile
            return self._made(asked) if found is None else found

    def _found(self, asked: Asked) -> Optional[Snapshot]:
        """What is kept of a moment and still serves, or None. Raises what it failed by a short time ago."""
        now = self._clock()
        with self._lock:
            failed, kept = self._failed.get(asked), self._kept.get(asked)
            if failed is not None and now < failed.until:
                raise failure(failed.number)
            if kept is None or now >= kept.until and self._may_differ(asked, kept.snapshot):
                return None
            self._kept.move_to_end(asked)
            return kept.snapshot

    def _may_differ(self, asked: Asked, snapshot: Snapshot) -> bool:
        """Whether a moment may have other objects than when it was made."""
        return asked.age is not None or snapshot.seen is None or snapshot.seen != seen_of(self._image.path, time.time_ns())

    def _made(self, asked: Asked) -> Snapshot:
        begun = self._clock()
        try:
            snapshot = made(self._image, self._new_folder(), asked.at(), self._is_ended)
        except (Error, OSError, ValueError) as error:
            self._fail(asked, number_of(error), why_of(error))
        if snapshot.is_clock and asked.moment is not None and asked.moment > machine_time():
            snapshot.remove()
            self._fail(asked, errno.ENOENT, "it lies ahead")
        self._keep(asked, snapshot, begun)
        return snapshot

    def _new_folder(self) -> str:
        """The path of a folder that isn't there, in one that nobody else may look into."""
        with self._lock:
            if self._folder is None or not os.path.isdir(self._folder):
                self._folder = tempfile.mkdtemp(prefix="s4d-mount-")
            self._count += 1
            return os.path.join(self._folder, str(self._count))

    def _keep(self, asked: Asked, snapshot: Snapshot, begun: float) -> None:
        """Keeps a snapshot in place of an older one, and removes those for which there is no room any more."""
        now = self._clock()
        seconds = NOW_SECONDS if snapshot.is_clock else asked.seconds
        until = begun + max(seconds, PAUSE * (now - begun))
        gone = []
        with self._lock:
            self._failed.pop(asked, None)
            old = self._kept.pop(asked, None)
            if old is not None:
                gone.append(old)
            self._kept[asked] = Kept(snapshot, until)
            while len(self._kept) > MOST_MOMENTS or len(self._kept) > 1 and self._bytes() > MOST_BYTES:
                gone.append(self._kept.popitem(last=False)[1])
        for kept in gone:
            kept.snapshot.remove()

    def _bytes(self) -> int:
        return sum(kept.snapshot.size for kept in self._kept.values())

    def _drop(self, place: Place) -> None:
        """A snapshot whose files are gone isn't kept."""
        with self._lock:
            kept = self._kept.get(place.asked)
            if kept is not None and kept.snapshot is place.snapshot:
                del self._kept[place.asked]
        place.snapshot.remove()

    def _fail(self, asked: Asked, number: int, why: str) -> NoReturn:
        """Says why a moment isn't to be had, once, and keeps nothing of it."""
        with self._lock:
            before, old = self._failed.pop(asked, None), self._kept.pop(asked, None)
            self._failed[asked] = Failure(self._clock() + NOW_SECONDS, number, why)
            if len(self._failed) > MOST_FAILURES:
                self._failed.popitem(last=False)
        if old is not None:
            old.snapshot.remove()
        if before is None or before.why != why:
            self._say(f"{asked.name.decode()}: {why}")
        raise failure(number)


def failure(number: int) -> OSError:
    return OSError(number, os.strerror(number))


def why_of(error: Exception) -> str:
    """What is said of something that couldn't be had."""
    said = str(error)
    if isinstance(error, OSError) and error.filename is not None:
        said = f"{os.fsdecode(error.filename)}: {error.strerror}"
    elif isinstance(error, ProgramFailed) and error.ended.said:
        said = error.ended.said
    return " ".join(said.split())[:LINE]


def number_of(error: Exception) -> int:
    """The number by which a moment that couldn't be made isn't there, or isn't to be read."""
    if isinstance(error, ValueError):
        return errno.ENOENT
    if isinstance(error, ProgramFailed) and NO_MOMENT.search(error.ended.said):
        return errno.ENOENT
    return errno.EIO
