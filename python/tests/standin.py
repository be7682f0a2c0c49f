"""A stand-in for the service `s4serve`, for tests of its bridge: doors over FIFOs, and a plain drive that nothing keeps.

    python3 -m tests.standin DOORS [ROLE..]      serves DOORS/ROLE/door of each role until an administrator's door says stop
"""
import contextlib
import os
import pathlib
import re
import stat
import sys
import threading
from typing import Dict, List

from .plain_drive import PlainDrive

BODY_BYTES = 32_768
BAD_FRAME = bytes([0, 15])
WORKERS = {"client": 16, "admin": 4}
NAME = re.compile(r"[A-Za-z0-9-]{1,64}")


def frame(body: bytes) -> bytes:
    return len(body).to_bytes(4, "big") + body


def opened(path: str, direction: int) -> int:
    """A FIFO that is open in one direction, without waiting for who is at its other end."""
    both = os.open(path, os.O_RDWR | os.O_NOFOLLOW | os.O_CLOEXEC)
    try:
        if not stat.S_ISFIFO(os.fstat(both).st_mode):
            raise OSError("no FIFO")
        return os.open(path, direction | os.O_NOFOLLOW | os.O_CLOEXEC)
    finally:
        os.close(both)


class Service:
    """Serves the doors of a folder by threads. `opens` says whether the
    sessions that are named at the doors are opened at all; while `may_answer` is cleared no reply is given.
    """

    def __init__(self, folder: pathlib.Path, roles=("client", "admin")) -> None:
        self.folder, self.drive, self.lock = folder, PlainDrive(), threading.Lock()
        self.may_answer, self.opens, self.ended = threading.Event(), True, threading.Event()
        self.may_answer.set()
        self.names: List[str] = []
        self.asked = 0  # requests that came whole
        self.cut: List[str] = []  # sessions whose requests ended inside a frame
        self.open_sessions: Dict[str, int] = {}
        self.most_open: Dict[str, int] = {}
        for role in roles:
            self.attend(role)

    def attend(self, role: str) -> None:
        """Serves the door of a role."""
        self.open_sessions[role] = self.most_open[role] = 0
        path = self.folder / role
        path.mkdir(parents=True, exist_ok=True)
        with contextlib.suppress(FileExistsError):
            os.mkfifo(path / "door")
        door = os.open(path / "door", os.O_RDWR | os.O_CLOEXEC)
        threading.Thread(target=self._attend, args=(role, path, door), daemon=True).start()

    def _attend(self, role: str, path: pathlib.Path, door: int) -> None:
        """Takes the lines of a door; each names a session."""
        workers = threading.Semaphore(WORKERS[role])
        with open(door, encoding="ascii", newline="\n") as lines:
            for line in lines:
                name = line[:-1]
                if name == "stop" and role == "admin":
                    self.ended.set()
                if self.ended.is_set():
                    return
                if NAME.fullmatch(name):
                    self.names.append(name)
                    if self.opens:
                        threading.Thread(target=self._work, args=(workers, role, path / name), daemon=True).start()

    def _work(self, workers: threading.Semaphore, role: str, path: pathlib.Path) -> None:
        with workers, contextlib.suppress(OSError):
            source = opened(f"{path}.in", os.O_RDONLY)
            try:
                sink = opened(f"{path}.out", os.O_WRONLY)
                self._count(role, 1)
                try:
                    self._serve(role, path.name, source, sink)
                finally:
                    self._count(role, -1)
                    os.close(sink)
            finally:
                os.close(source)

    def _count(self, role: str, more: int) -> None:
        with self.lock:
            self.open_sessions[role] += more
            self.most_open[role] = max(self.most_open[role], self.open_sessions[role])

    def _serve(self, role: str, name: str, source: int, sink: int) -> None:
        while True:
            head = self._bytes(source, 4)
            length = int.from_bytes(head, "big")
            if len(head) < 4 or length > BODY_BYTES:
                if head:
                    self.cut.append(name)
                return
            body = self._bytes(source, length)
            if len(body) < length:
                self.cut.append(name)
                return
            with self.lock:
                self.asked += 1
            self.may_answer.wait()
            with self.lock:
                reply = self.drive.answer(role, body) if body else BAD_FRAME
            rest = frame(reply)
            while rest:
                rest = rest[os.write(sink, rest):]

    @staticmethod
    def _bytes(source: int, count: int) -> bytes:
        found = b""
        while len(found) < count:
            more = os.read(source, count - len(found))
            if not more:
                break
            found += more
        return found

    def stop(self) -> None:
        for role in self.open_sessions:
            with open(self.folder / role / "door", "w", encoding="ascii") as door:
                self.ended.set()
                door.write("stop\n")


if __name__ == "__main__":
    Service(pathlib.Path(sys.argv[1]), sys.argv[2:] or ("client", "admin")).ended.wait()
