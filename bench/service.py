"""A service `s4serve` and its clients, for tests and measurements: sessions over FIFOs at its doors."""
import io
import os
import select
import signal
import subprocess
import sys
import tempfile
import time

TOP = os.path.dirname(os.path.dirname(os.path.abspath(__file__)))
sys.path.insert(0, os.path.join(TOP, "python"))

import s4d  # noqa: E402

PATIENCE = 120  # seconds for what takes far less, on a slow machine too


def program(name):
    """The path of a program: the environment's, the one on the path, or the built one."""
    from shutil import which
    return os.environ.get(name.upper()) or which(name) or os.path.join(TOP, "crates", name, "out", name)


def preloaded(source):
    """The environment in which a program has these functions of C in the place of the library's."""
    sys.path.append(os.path.join(TOP, "tests"))
    from refused import compiler
    folder = subprocess.run(["mktemp", "-d"], capture_output=True, text=True, check=True).stdout.strip()
    library = os.path.join(folder, "calls.so")
    subprocess.run([*compiler(), "-shared", "-fPIC", "-O1", "-w", "-x", "c", "-", "-o", library], input=source, text=True, check=True)
    return {**os.environ, "LD_PRELOAD": library}


def without_waits():
    """The environment in which a service that begins after a kill doesn't wait for the machine's time, and so goes on from what was kept
    alone: ten seconds less for each kill of a trial."""
    return preloaded("int nanosleep(const void *asked, void *left) { return 0; }")


class Ended(Exception):
    """The service has closed a session's streams."""


class Replies(io.RawIOBase):
    """What comes from the FIFO that a service writes: an end once the service has had it open and has closed it."""

    def __init__(self, path):
        super().__init__()
        self.file = os.open(path, os.O_RDONLY | os.O_NONBLOCK)

    def read(self, count=-1):
        found = select.poll()
        found.register(self.file, select.POLLIN)
        latest = time.monotonic() + PATIENCE
        while found.poll(max(0, latest - time.monotonic()) * 1000):
            try:
                return os.read(self.file, 65_536 if count < 0 else count)
            except BlockingIOError:
                continue  # A poll may report what a read then finds to be nothing yet.
        raise TimeoutError("no reply")

    def waits(self, seconds):
        """Whether nothing comes for so long, not even an end."""
        found = select.poll()
        found.register(self.file, select.POLLIN)
        return not found.poll(seconds * 1000)

    def close(self):
        if not self.closed:
            os.close(self.file)
        super().close()


class Streams:
    """The two FIFOs of a session in a door's folder, opened by its client. `ask` writes its line."""

    def __init__(self, folder, name):
        self.folder, self.name = folder, name
        self.paths = [os.path.join(folder, f"{name}.in"), os.path.join(folder, f"{name}.out")]
        for path in self.paths:
            os.mkfifo(path)
        self.replies = Replies(self.paths[1])
        # For both directions, so that opening it and writing wait for nobody.
        self.requests = open(os.open(self.paths[0], os.O_RDWR), "wb", 0)

    def ask(self):
        write_line(self.folder, self.name)
        return self

    def end(self):
        """The client is gone: nothing of it is open any more, and its FIFOs are removed."""
        self.requests.close()
        self.replies.close()
        for path in self.paths:
            if os.path.exists(path):
                os.unlink(path)

    def outcome(self):
        return None

    def close(self):
        self.end()


def write_line(folder, text):
    """Writes a line at a door."""
    with open(os.path.join(folder, "door"), "wb", 0) as door:
        door.write(text.encode() + b"\n")


class Service:
    """A service over an image, with a door for clients and one for administrators, each in a folder beside the image."""

    def __init__(self, folder=None, image="image", new=("--create", "64", "--keep", "30d"), words=(), before=(), env=None):
        self.held = None if folder else tempfile.TemporaryDirectory(prefix="service-")
        self.folder = folder or self.held.name
        self.image = os.path.join(self.folder, image)
        self.doors = {role: os.path.join(self.folder, role) for role in ("client", "admin")}
        for door in self.doors.values():
            os.makedirs(door, exist_ok=True)
            if not os.path.exists(os.path.join(door, "door")):
                os.mkfifo(os.path.join(door, "door"))
        self.new, self.words, self.before, self.env = new, words, before, env
        self.number, self.child = 0, None

    def command(self):
        made = [] if os.path.exists(self.image) else self.new
        doors = [it for role, door in self.doors.items() for it in ("--door", f"{role}={door}")]
        return [*self.before, program("s4serve"), *made, *self.words, *doors, self.image]

    def begin(self):
        """Starts it, and waits until it says that it serves."""
        self.log = open(os.path.join(self.folder, "log"), "ab+")
        at = self.log.seek(0, os.SEEK_END)
        self.child = subprocess.Popen(self.command(), stdin=subprocess.DEVNULL, stderr=self.log, env=self.env, start_new_session=True)
        end = time.monotonic() + PATIENCE
        while time.monotonic() < end:
            with open(self.log.name, "rb") as log:
                log.seek(at)
                said = log.read().decode()
            if "serves" in said:
                return self
            if self.child.poll() is not None:
                raise RuntimeError(f"the service didn't begin: {said}")
            time.sleep(0.01)
        raise TimeoutError("the service doesn't begin")

    def streams(self, role="client", name=None):
        self.number += 1
        return Streams(self.doors[role], name or f"{os.getpid()}-{self.number}")

    def session(self, role="client", name=None):
        """A session of a role, as the Python package has it."""
        streams = self.streams(role, name).ask()
        return s4d.Drive(streams.replies, streams.requests, streams)

    def kill(self):
        os.killpg(self.child.pid, signal.SIGKILL)
        self.child.wait()

    def stop(self):
        """Ends it by the line, and gives its status."""
        write_line(self.doors["admin"], "stop")
        return self.child.wait(PATIENCE)

    def said(self):
        with open(os.path.join(self.folder, "log"), encoding="utf-8") as log:
            return log.read()

    def close(self):
        if self.child and self.child.poll() is None:
            self.kill()
        if self.held:
            self.held.cleanup()

    def __enter__(self):
        return self

    def __exit__(self, *_):
        self.close()
