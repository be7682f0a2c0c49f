"""A log of JSON lines: who asked for what, and what became of it."""
from __future__ import annotations

import asyncio
import contextlib
import errno
import json
import os
import stat
import sys
import threading
from collections import deque
from datetime import datetime, timezone
from typing import Any, Deque, List, Optional, Tuple, Union

MOST_LINES = 10_000  # that wait for the disk
LOG_BYTES = 33_554_432  # of the log's file, before it is turned
LOG_FILES = 8  # of the log: FILE, and FILE.1 to FILE.7, of which the last is the oldest
LATE_SECONDS = 0.1  # that replies wait for their lines, once, where the disk is slow
CLOSE_SECONDS = 5.0  # that the end of a log waits for it


class AccessLog:
    """Appends lines to a file, or writes them to standard output where no path is given. OSError where it isn't there.

    A thread writes them, so that a slow disk doesn't slow sessions. A line that can't be written, or for which there is
    no room among those that wait, is lost, counted in `lost`, and said once on standard error: sessions go on.

    A file that would have more than `most_bytes` is turned: FILE becomes FILE.1, that FILE.2, and so on, and the oldest goes.
    """

    def __init__(self, path: Optional[str] = None, most: int = MOST_LINES, most_bytes: int = LOG_BYTES) -> None:
        self._path, self._most, self._most_bytes, self.lost = path, most, most_bytes, 0
        self._is_failing, self._is_cut, self._is_full, self._is_late = False, False, False, False
        self._file = standard_output() if path is None else opened(path)
        self._size = size_of(self._file)
        self._changed = threading.Condition()
        self._waiting: Deque[Union[bytes, int, None]] = deque()  # lines, files that those after them go to, and the end
        self._put, self._taken = 0, 0  # of them, how many there were, and how many of them the thread is done with
        self._settling: List[Tuple[int, asyncio.Future[None]]] = []
        self._thread = threading.Thread(target=self._write_all, daemon=True)
        self._thread.start()

    def reopen(self) -> None:
        """Later lines go to the file that has the path now. OSError where it can't be opened; then the earlier one stays."""
        if self._path is not None:
            self._add(opened(self._path))

    def write(self, **members: Any) -> None:
        """Takes a line with the time, in UTC, and these members; those that are None are left out."""
        now = datetime.now(timezone.utc).isoformat(timespec="microseconds").replace("+00:00", "Z")
        said = {name: value for name, value in members.items() if value is not None}
        line = json.dumps({"time": now, **said}).encode() + b"\n"
        waiting = len(self._waiting)
        if waiting < self._most:
            self._add(line)
            self._note_room(self._is_full and waiting > self._most // 2)
        else:
            self._note_lost()
            self._note_room(True)

    async def settle(self) -> None:
        """Waits until the lines so far are written, so that no reply goes out before its line. Where that takes long, nobody
        waits any more until the log has caught up.
        """
        if self._is_late or self._taken == self._put:
            return
        written: asyncio.Future[None] = asyncio.get_running_loop().create_future()
        with self._changed:
            if self._taken == self._put:
                return
            self._settling.append((self._put, written))
        try:
            await asyncio.wait_for(written, LATE_SECONDS)
        except asyncio.TimeoutError:
            self._is_late = True

    def _add(self, item: Union[bytes, int, None]) -> None:
        with self._changed:
            self._waiting.append(item)
            self._put += 1
            self._changed.notify()

    def _write_all(self) -> None:
        """What the thread does."""
        while True:
            with self._changed:
                while not self._waiting:
                    self._is_late = False
                    self._changed.wait()
                item = self._waiting[0]
            if item is None:
                break
            if isinstance(item, int):
                earlier, self._file, self._is_cut = self._file, item, False
                os.close(earlier)
                self._size = size_of(self._file)
            else:
                self._append(item)
            with self._changed:
                self._waiting.popleft()
                self._taken += 1
                settled = [it for count, it in self._settling if count <= self._taken]
                self._settling = [it for it in self._settling if it[0] > self._taken]
            for future in settled:
                wake(future)
        if self._path is not None:
            os.close(self._file)

    def _append(self, line: bytes) -> None:
        try:
            data = b"\n" + line if self._is_cut else line  # what a full disk has cut stays a line of its own
            if self._path is not None and self._size + len(data) > self._most_bytes:
                self._turn(self._path)
            written = os.write(self._file, data)
            self._size += written
            self._is_cut = written < len(data)
            self._note(OSError("cut") if self._is_cut else None)
        except OSError as error:
            self._note(error)

    def _turn(self, path: str) -> None:
        """Begins the file anew. What the path names that isn't this file, or is no file, as a link or a FIFO, stays as it is."""
        found = os.lstat(path) if os.path.lexists(path) else None
        if found is not None and not stat.S_ISREG(found.st_mode):
            return
        if found is not None and os.path.samestat(found, os.fstat(self._file)):
            for number in range(LOG_FILES - 1, 0, -1):
                with contextlib.suppress(FileNotFoundError):
                    os.replace(path if number == 1 else f"{path}.{number - 1}", f"{path}.{number}")
        earlier, self._file = self._file, opened(path)
        os.close(earlier)
        self._size, self._is_cut = size_of(self._file), False

    def _note(self, error: Optional[OSError]) -> None:
        if error is not None:
            self._note_lost()
        if self._is_failing != (error is not None):
            self._is_failing = error is not None
            say(f"access log: {f'{error.strerror or error}: lines are lost' if error else 'lines are written again'}")

    def _note_room(self, is_full: bool) -> None:
        if self._is_full != is_full:
            self._is_full = is_full
            say(f"access log: {f'{self._most:,} lines wait for its disk: more are lost' if is_full else 'lines are taken again'}")

    def _note_lost(self) -> None:
        with self._changed:
            self.lost += 1

    def close(self) -> None:
        """Closes the file once all lines are written, or some seconds are over."""
        self._add(None)
        self._thread.join(CLOSE_SECONDS)


def wake(future: asyncio.Future[None]) -> None:
    """Wakes who waits for it in another thread's loop, where that still runs."""

    def end() -> None:
        if not future.done():
            future.set_result(None)

    try:
        future.get_loop().call_soon_threadsafe(end)
    except RuntimeError:
        pass  # the loop has ended


def standard_output() -> int:
    if sys.stdout is None:  # it was closed, so its number is that of some other file, or of a socket
        raise OSError(errno.EBADF, "it is closed; give --log", "standard output")
    return sys.stdout.fileno()


def opened(path: str) -> int:
    return os.open(path, os.O_WRONLY | os.O_APPEND | os.O_CREAT | os.O_CLOEXEC, 0o640)


def size_of(number: int) -> int:
    """How many bytes a file has that is open: none where it is no file."""
    found = os.fstat(number)
    return found.st_size if stat.S_ISREG(found.st_mode) else 0


def say(line: str) -> None:
    """Writes a line for whoever looks after the bridge."""
    try:
        if sys.stderr is not None:
            print(f"s4d.bridge: {line}", file=sys.stderr, flush=True)
    except OSError:
        pass  # nobody reads it
