"""A bridge that runs as a program of its own before a stand-in for the service, and certificates for its clients."""
import contextlib
import itertools
import json
import os
import pathlib
import re
import shutil
import signal
import socket
import subprocess
import sys
import tempfile
import threading
import time
import unittest
import urllib.error
import urllib.request
from typing import List

import s4d

from .standin import Service

PACKAGE = pathlib.Path(__file__).resolve().parents[1]
PATIENCE = 300  # seconds for what takes none on a machine without other work
PORTS = itertools.count(20_000)  # below those that the system gives to who asks for any
CLAIMS: List[socket.socket] = []  # for the ports that this process has been given

needs_openssl = unittest.skipUnless(shutil.which("openssl"), "openssl isn't installed")


def wait_until(holds, what):
    """Waits for what another thread or program does."""
    end = time.monotonic() + PATIENCE
    while not holds():
        if time.monotonic() > end:
            raise AssertionError(f"never: {what}")
        time.sleep(0.01)


def free_port():
    """A port for a program that this one starts. No other of these tests gets it as long as this process lives, also where they run
    side by side: each keeps a socket of the port's name. Nor does the system give it to who asks for any.
    """
    while True:
        port = next(PORTS)
        claim = socket.socket(socket.AF_UNIX, socket.SOCK_DGRAM)
        with contextlib.suppress(OSError), socket.create_server(("127.0.0.1", port)):
            claim.bind(f"\0s4-tests-port-{port}")
            CLAIMS.append(claim)
            return port
        claim.close()


def words_of(folder, *more):
    """The words of a bridge's call."""
    return [sys.executable, "-B", "-m", "s4d.bridge", "--doors", f"{folder}/doors", *map(str, more)]


class Bridged(unittest.TestCase):
    """A folder, a service in this process, and a bridge before it, which each test starts as it needs it."""

    def setUp(self):
        folder = tempfile.TemporaryDirectory()
        self.addCleanup(folder.cleanup)
        self.folder = pathlib.Path(folder.name)
        self.service, self.process, self.printed, self.said = None, None, [], []
        self.addCleanup(self.end)

    def start(self, *more, unix=True, **environment):
        """Starts service and bridge, and waits until it is ready. Its log is access.log in the folder."""
        self.service = self.service or Service(self.folder / "doors")
        self.begin_bridge(*more, unix=unix, **environment)
        wait_until(lambda: self.printed or self.process.poll() is not None, "the bridge is ready")
        self.assertIsNone(self.process.poll(), self.said)
        self.assertEqual(self.printed, ["ready"])

    def start_without_service(self, *more, pass_fds=()):
        """Starts a bridge, and waits until it listens."""
        with self.systemd() as systemd:
            self.begin_bridge(*more, pass_fds=pass_fds, NOTIFY_SOCKET=systemd.getsockname())
            self.assertEqual(systemd.recv(100), b"READY=1")

    def begin_bridge(self, *more, unix=True, pass_fds=(), **environment):
        sockets = ["--unix", f"client={self.folder}/client.sock:660", "--unix", f"admin={self.folder}/admin.sock"] if unix else []
        waits = [word for name in ("--wait", "--handshake") if name not in more for word in (name, PATIENCE)]
        words = words_of(self.folder, "--log", self.folder / "access.log", *sockets, *waits, *more)
        self.process = subprocess.Popen(words, cwd=PACKAGE, env={**os.environ, **environment}, stdout=subprocess.PIPE,
                                        stderr=subprocess.PIPE, text=True, pass_fds=pass_fds)
        self.printed, self.said = [], []
        for lines, heard in ((self.process.stdout, self.printed), (self.process.stderr, self.said)):
            threading.Thread(target=self.hear, args=(lines, heard), daemon=True).start()

    def systemd(self):
        """A socket at which a program's state is said to systemd."""
        link = socket.socket(socket.AF_UNIX, socket.SOCK_DGRAM)
        link.bind(f"{self.folder}/systemd")
        link.settimeout(PATIENCE)
        return link

    @staticmethod
    def hear(lines, said):
        with lines:
            said += (line.rstrip("\n") for line in iter(lines.readline, ""))

    def end(self):
        if self.service is not None:
            self.service.may_answer.set()
        if self.process is not None:
            if self.process.poll() is None:
                self.process.kill()
            self.process.wait()
            self.process = None

    def stop(self):
        """Ends the bridge in order: its status."""
        self.process.send_signal(signal.SIGTERM)
        status = self.process.wait(PATIENCE)
        self.process = None
        return status

    def connect(self, role="client", timeout=PATIENCE):
        return s4d.Drive.connect(f"unix:{self.folder}/{role}.sock", timeout)

    def raw(self, role="client"):
        """A socket to the bridge."""
        link = socket.socket(socket.AF_UNIX)
        self.addCleanup(link.close)
        link.settimeout(PATIENCE)
        link.connect(f"{self.folder}/{role}.sock")
        return link

    def lines(self, name="access.log", **wanted):
        """The lines of the log that have these members."""
        try:
            text = (self.folder / name).read_text(encoding="utf-8")
        except FileNotFoundError:
            return []
        found = [json.loads(line) for line in text.splitlines(True) if line.endswith("\n")]  # the last may still be written
        return [line for line in found if all(line.get(key) == value for key, value in wanted.items())]

    def wait_for_line(self, count=1, **wanted):
        """Waits for this number of lines that have these members, and gives the last."""
        wait_until(lambda: len(self.lines(**wanted)) >= count, f"{count} lines with {wanted}")
        return self.lines(**wanted)[-1]

    def turned_away(self, why, **wanted):
        """How many the log says were turned away for this: by a line of its own, or counted with others of the same peer."""
        return sum(line.get("why") == why or line.get("more", {}).get(why, 0) for line in self.lines(event="turned away", **wanted))

    def wait_for_turned_away(self, count, why, **wanted):
        """Waits until the log says that this many were turned away for this."""
        wait_until(lambda: self.turned_away(why, **wanted) >= count, f"{count} that were turned away: {why}")

    def pipes(self, role="client"):
        """The pipes of sessions that are in a door's folder."""
        return [path.name for path in (self.folder / "doors" / role).iterdir() if path.name != "door"]


def got(port, path):
    """Status and text of a page of this machine."""
    try:
        with urllib.request.urlopen(f"http://127.0.0.1:{port}{path}", timeout=PATIENCE) as page:
            return page.status, page.read().decode()
    except urllib.error.HTTPError as error:
        return error.code, error.read().decode()


def value_of(text, name, **labels):
    """The value of a metric's sample, or None."""
    wanted = ",".join(f'{key}="{value}"' for key, value in labels.items())
    found = re.search(rf"(?m)^{re.escape(name)}{re.escape('{' + wanted + '}') if wanted else ''} (\S+)$", text)
    return float(found[1]) if found else None


class Certificates:
    """An authority, and what it certifies, in a folder."""

    def __init__(self, folder, authority="ca"):
        self.folder, self.authority = folder, folder / f"{authority}.pem"
        self.key = folder / f"{authority}.key"
        extensions = ["basicConstraints=critical,CA:TRUE", "keyUsage=critical,keyCertSign", "subjectKeyIdentifier=hash"]
        self._openssl("req", "-x509", *self._new(self.key, authority), "-days", "2", "-out", self.authority,
                      *(word for extension in extensions for word in ("-addext", extension)))

    def make(self, name, file=None):
        """A certificate of this common name, for 127.0.0.1 too: the client's side of TLS with it."""
        cert, key, asked = (self.folder / f"{file or name}.{end}" for end in ("pem", "key", "csr"))
        extensions = self.folder / "extensions"
        extensions.write_text("subjectAltName=IP:127.0.0.1\nauthorityKeyIdentifier=keyid\nsubjectKeyIdentifier=hash\n"
                              "keyUsage=critical,digitalSignature\nextendedKeyUsage=serverAuth,clientAuth\n", encoding="ascii")
        self._openssl("req", *self._new(key, name), "-out", asked)
        self._openssl("x509", "-req", "-in", asked, "-CA", self.authority, "-CAkey", self.key, "-CAcreateserial", "-days", "2",
                      "-extfile", extensions, "-out", cert)
        return s4d.Tls(self.authority, cert, key)

    @staticmethod
    def _new(key, name):
        return ["-newkey", "ec", "-pkeyopt", "ec_paramgen_curve:P-256", "-nodes", "-keyout", key, "-subj", f"/CN={name}"]

    @staticmethod
    def _openssl(*words):
        subprocess.run(["openssl", *map(str, words)], check=True, capture_output=True, env={**os.environ, "OPENSSL_CONF": "/dev/null"})
