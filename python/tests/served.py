"""A service `s4serve` over an image in a folder of its own, with sessions at its doors, or through a bridge."""
import contextlib
import io
import os
import pathlib
import select
import shutil
import subprocess
import sys
import tempfile
import time
import unittest

import s4d

from .bridged import PACKAGE, PATIENCE, words_of
from .built import S4SERVE


class Replies(io.RawIOBase):
    """What comes from the FIFO that a service writes: an end once the service has had it open and has closed it."""

    def __init__(self, path):
        super().__init__()
        self.file = os.open(path, os.O_RDONLY | os.O_NONBLOCK)

    def read(self, count=-1):
        found = select.poll()
        found.register(self.file, select.POLLIN)
        end = time.monotonic() + PATIENCE
        while found.poll(max(0, end - time.monotonic()) * 1_000):
            with contextlib.suppress(BlockingIOError):
                return os.read(self.file, 65_536 if count < 0 else count)
        raise TimeoutError("no reply")

    def close(self):
        if not self.closed:
            os.close(self.file)
        super().close()


class Pipes(s4d.Peer):
    """The two FIFOs of a session, which are removed at its end."""

    def __init__(self, folder, name):
        self.paths = [folder / f"{name}.in", folder / f"{name}.out"]
        for path in self.paths:
            os.mkfifo(path)
        self.replies = Replies(self.paths[1])
        self.requests = open(os.open(self.paths[0], os.O_RDWR), "wb", 0)  # so that opening it waits for nobody
        with open(folder / "door", "wb", 0) as door:
            door.write(name.encode() + b"\n")

    def close(self):
        self.requests.close()
        self.replies.close()
        for path in self.paths:
            path.unlink(missing_ok=True)


class Served(unittest.TestCase):
    """A service that each test starts as it needs it."""

    def setUp(self):
        folder = tempfile.TemporaryDirectory()
        self.addCleanup(folder.cleanup)
        self.folder = pathlib.Path(folder.name)
        self.image, self.count, self.children = self.folder / "image", 0, []
        self.addCleanup(self.end)

    def start(self, frames=24, keep="30d", *more):
        """Makes a drive and serves it, or serves the one that is there."""
        new = [] if self.image.exists() else ["--create", str(frames), "--keep", keep]
        doors = []
        for role in ("client", "admin"):
            folder = self.folder / "doors" / role
            folder.mkdir(parents=True, exist_ok=True)
            if not (folder / "door").exists():
                os.mkfifo(folder / "door")
            doors += ["--door", f"{role}={folder}"]
        self.begin([S4SERVE, *new, *more, *doors, str(self.image)], "serves")

    def start_bridge(self):
        """Sockets client.sock and admin.sock in the folder, for the service that runs."""
        sockets = [word for role in ("client", "admin") for word in ("--unix", f"{role}={self.folder}/{role}.sock")]
        self.begin(words_of(self.folder, *sockets, "--log", self.folder / "access.log"), "ready\n")

    def begin(self, words, said):
        """Starts a program, and waits until it says something."""
        path = self.folder / f"log{len(self.children)}"
        with open(path, "wb") as log:
            child = subprocess.Popen(words, cwd=PACKAGE, stdin=subprocess.DEVNULL, stdout=log, stderr=log)
        self.children.append(child)
        end = time.monotonic() + PATIENCE
        while said not in path.read_text(encoding="utf-8"):
            if child.poll() is not None or time.monotonic() > end:
                raise AssertionError(f"{words[0]}: {path.read_text(encoding='utf-8')}")
            time.sleep(0.01)

    def session(self, role="client"):
        self.count += 1
        pipes = Pipes(self.folder / "doors" / role, f"test-{self.count}")
        return s4d.Drive(pipes.replies, pipes.requests, pipes)

    def stop(self):
        """Ends the service in order."""
        with open(self.folder / "doors" / "admin" / "door", "wb", 0) as door:
            door.write(b"stop\n")
        self.assertEqual(self.children[0].wait(PATIENCE), 0)

    def end(self):
        for child in reversed(self.children):
            if child.poll() is None:
                child.kill()
            child.wait()
        self.children.clear()

    def begin_anew(self):
        """Nothing is served, and no image is there."""
        self.end()
        self.image.unlink(missing_ok=True)

    def copy(self, name="copy"):
        """A copy of the image as it was kept last: of all that was replied."""
        path = self.folder / name
        shutil.copyfile(self.image, path)
        return path


def restore_words(address, *more):
    """The words of a restore's call."""
    return [sys.executable, "-B", "-m", "s4d.restore", "--connect", address, *map(str, more)]
