"""The program `s4d` as the other end of a session, and commands of `s4d` and `s4` that end by themselves."""
from __future__ import annotations

import io
import os
import re
import select
import signal
import subprocess
import tempfile
import threading
import time
import warnings
import weakref
from typing import IO, Any, Callable, NamedTuple, Optional, Sequence, Tuple

from .connection import Peer, Reader, Writer
from .errors import Ended, ProgramFailed

SECONDS_TO_END = 10  # that a program has to end by itself once its session is over
ASKING_SECONDS = 0.2  # between two questions whether a command is to end
NOTE = re.compile(r"s4: \S+ is \S+Z(, where the clock is)?")  # says as which moment a time is read


class TimedReader(io.RawIOBase):
    """The end of a pipe that is read from. Each wait for bytes ends after some seconds with TimeoutError."""

    def __init__(self, pipe: IO[bytes], seconds: float) -> None:
        os.set_blocking(pipe.fileno(), False)
        self._pipe, self._seconds = pipe, seconds

    def readable(self) -> bool:
        return True

    def readinto(self, buffer: Any) -> int:
        while True:
            wait_for(self._pipe, select.POLLIN, self._seconds)
            try:
                found = os.read(self._pipe.fileno(), len(buffer))
            except BlockingIOError:
                continue
            buffer[:len(found)] = found
            return len(found)

    def close(self) -> None:
        super().close()
        self._pipe.close()


class TimedWriter:
    """The end of a pipe that is written to. Each wait for room ends after some seconds with TimeoutError."""

    def __init__(self, pipe: IO[bytes], seconds: float) -> None:
        os.set_blocking(pipe.fileno(), False)
        self._pipe, self._seconds = pipe, seconds

    def write(self, data: bytes) -> int:
        rest = memoryview(data)
        while rest:
            wait_for(self._pipe, select.POLLOUT, self._seconds)
            try:
                rest = rest[os.write(self._pipe.fileno(), rest):]
            except BlockingIOError:
                continue
        return len(data)

    def flush(self) -> None:
        """Nothing is kept back."""

    def close(self) -> None:
        self._pipe.close()


def wait_for(pipe: IO[bytes], event: int, seconds: float) -> None:
    """Waits until a pipe can be read or written, or its other end is closed."""
    poll = select.poll()
    poll.register(pipe, event)
    if not poll.poll(seconds * 1_000):
        raise TimeoutError(f"timed out after {seconds:g} seconds")


class Running(NamedTuple):
    """A program that was started, the streams to it, and its text on standard error."""

    process: subprocess.Popen[bytes]
    writer: IO[bytes]
    reader: IO[bytes]
    errors: IO[bytes]

    def close(self) -> None:
        """Closes the streams: first its output, so that a program ends that waits for its replies to be read."""
        self.reader.close()
        try:
            self.writer.close()
        except OSError:
            pass  # what was still to be written is refused by a program that has ended

    def wait(self, seconds: Optional[float]) -> Ended:
        """How the program ended. One that takes longer than that is killed."""
        try:
            self.process.wait(seconds)
        except subprocess.TimeoutExpired:
            self.process.kill()
            return killed(self.process.wait(), seconds)
        self.errors.seek(0)
        return Ended(self.process.returncode, text_of(self.errors.read()))


class Program(Peer):
    """A running `s4d` whose standard streams are a session's.

    With a timeout each wait for a reply, or for a request to be taken, ends after that many seconds. A program that is
    dropped without `close` is ended then, and at the latest when Python ends.
    """

    def __init__(self, words: Sequence[str], timeout: Optional[float] = None) -> None:
        self._running, self._timeout = started(words, timeout is not None), timeout
        self.reader: Reader = self._running.reader
        self.writer: Writer = self._running.writer
        if timeout is not None:
            self.reader = io.BufferedReader(TimedReader(self._running.reader, timeout))
            self.writer = TimedWriter(self._running.writer, timeout)
        self._ended: Optional[Ended] = None
        self._lock = threading.Lock()  # a pipeline's two threads may both find that it has ended
        self._drop = weakref.finalize(self, end_dropped, self._running)

    def close(self) -> Ended:
        """Ends the session's input, and waits until the program has saved what it saves.

        With a timeout that wait ends too: after as long, and after ten seconds at the least, the program is killed.
        """
        self._running.close()
        return self._take(None if self._timeout is None else max(self._timeout, SECONDS_TO_END))

    def outcome(self) -> Optional[Ended]:
        try:
            self._running.process.wait(SECONDS_TO_END)
        except subprocess.TimeoutExpired:
            return None
        return self._take(None)

    def _take(self, seconds: Optional[float]) -> Ended:
        with self._lock:
            if self._ended is None:
                self._ended = self._running.wait(seconds)
                self._running.errors.close()
                self._drop.detach()
            return self._ended


def started(words: Sequence[str], is_timed: bool) -> Running:
    """Starts a program, with streams that keep nothing back where each wait is timed."""
    errors = tempfile.TemporaryFile()
    try:
        process = subprocess.Popen(words, bufsize=0 if is_timed else -1, stdin=subprocess.PIPE, stdout=subprocess.PIPE,
                                   stderr=errors)
    except OSError:
        errors.close()
        raise
    return Running(process, opened(process.stdin), opened(process.stdout), errors)


def end_dropped(running: Running) -> None:
    """Ends the program of a session that nobody closed, so that its image doesn't stay locked, and warns of it."""
    running.close()
    ended = running.wait(SECONDS_TO_END)
    running.errors.close()
    warnings.warn(f"a session was dropped and not closed: {ended}", ResourceWarning, stacklevel=2)


def opened(stream: Optional[IO[bytes]]) -> IO[bytes]:
    """A stream of a program that was started with one."""
    if stream is None:
        raise ValueError("the program has no such stream")
    return stream


def text_of(said: bytes) -> str:
    return said.decode("utf-8", "replace").strip()


def killed(status: int, seconds: Optional[float]) -> Ended:
    return Ended(status, f"killed after {seconds:g} seconds")


def output_of(words: Sequence[str], timeout: Optional[float] = None, differs: Optional[int] = None) -> bytes:
    """What a command prints; ProgramFailed where its status isn't 0, or it takes longer than the timeout and is killed.

    The status `differs` isn't a failure either, where the command has no line on standard error but such notes.
    """
    return outputs_of(words, timeout, differs)[0]


def outputs_of(words: Sequence[str], timeout: Optional[float] = None, differs: Optional[int] = None,
               is_ended: Optional[Callable[[], bool]] = None) -> Tuple[bytes, str]:
    """The same, and its text on standard error. ProgramFailed too where `is_ended`, which is asked from time to time, says so."""
    with subprocess.Popen(words, stdin=subprocess.DEVNULL, stdout=subprocess.PIPE, stderr=subprocess.PIPE) as process:
        try:
            printed, said = communicated(process, timeout, is_ended)
        except subprocess.TimeoutExpired:
            process.kill()
            raise ProgramFailed(killed(-signal.SIGKILL, timeout)) from None
        except BaseException:
            process.kill()
            raise
    ended = Ended(process.returncode, text_of(said))
    has_complaint = not all(NOTE.fullmatch(line) for line in ended.said.splitlines())
    if ended.status and (ended.status != differs or has_complaint):
        raise ProgramFailed(ended)
    return printed, ended.said


def communicated(process: subprocess.Popen[bytes], timeout: Optional[float],
                 is_ended: Optional[Callable[[], bool]]) -> Tuple[bytes, bytes]:
    """What a command writes on both streams; TimeoutExpired where it takes longer."""
    if is_ended is None:
        return process.communicate(timeout=timeout)
    end = None if timeout is None else time.monotonic() + timeout
    while True:
        try:
            return process.communicate(timeout=ASKING_SECONDS)
        except subprocess.TimeoutExpired:
            if is_ended():
                raise ProgramFailed(Ended(-signal.SIGKILL, "killed since nobody waits for it any more")) from None
            if end is not None and time.monotonic() > end:
                raise
