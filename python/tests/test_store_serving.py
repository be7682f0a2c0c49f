"""A store's program: reads at a moment, TLS, its numbers, what SIGHUP reads again, and how SIGTERM ends it."""
import contextlib
import json
import os
import pathlib
import signal
import socket
import ssl
import subprocess
import tempfile
import time
import unittest

from s4d.moments import machine_time
from s4d.s3.keys import keys_in
from s4d.store import Programs, Settings, make_store
from s4d.store.settings import keys_path

from .bridged import needs_openssl, wait_until
from .built import PROGRAM, S4, S4SERVE, needs_program, needs_s4, needs_s4serve
from .s3_blocking import BlockingClient
from .s3_client import Signer
from .store_kills import Serving
from .store_standin import programs


class Served(unittest.TestCase):
    def serve(self, *more):
        """A program that serves a new store, until the test ends."""
        folder = tempfile.TemporaryDirectory()
        self.addCleanup(folder.cleanup)
        self.folder = f"{folder.name}/store"
        self.programs = self.programs_in(folder.name)
        make_store(self.folder, Settings(2, 64, "1d"), self.programs)
        return self.begin(*more)

    def programs_in(self, folder):
        return Programs(**programs(folder))

    def begin(self, *more):
        serving = Serving(self.folder, self.programs, *more)
        self.addCleanup(self.end, serving)
        serving.start()
        return serving

    @staticmethod
    def end(serving):
        if serving.process.poll() is None:
            serving.stop()


class Moments(Served):
    def test_reads_at_a_moment(self):
        serving = self.serve()
        it = serving.client()
        for data in (b"", b"mill"):
            it.ask("PUT", "/one" if not data else "/one/k", data)
        time.sleep(0.01)
        before = machine_time()
        time.sleep(0.01)
        it.ask("PUT", "/one/k", b"moor")
        self.assertEqual((it.ask("GET", "/one/k", x_s4_at=str(before)).body, it.ask("GET", "/one/k").body), (b"mill", b"moor"))
        self.assertEqual(serving.stop(), 0)
        serving = self.begin("--at", str(before), "127.0.0.1:0", "--at", "1h", "127.0.0.1:0")
        past, early = (BlockingClient(port, serving.key) for port in serving.past)
        self.assertEqual((past.ask("GET", "/one/k").body, past.ask("GET", "/one").all("Key")), (b"mill", ["k"]))
        self.assertEqual(past.ask("PUT", "/one/k", b"more").code, "MethodNotAllowed")
        self.assertEqual((early.ask("GET", "/one").code, early.ask("GET", "/").all("Name")), ("NoSuchBucket", []))
        self.assertEqual(serving.client().ask("GET", "/one/k").body, b"moor")
        self.assertEqual(serving.stop(), 0)

    def test_moments_that_are_none(self):
        self.serve().stop()
        for moment, listen, status, line in (("soon", "127.0.0.1:0", 2, "--at: 'soon' is no moment"),
                                             ("1h", "9000", 2, "--at: '9000' is no HOST:PORT"),
                                             ("2d", "127.0.0.1:0", 1, "--at: The moment .* lies before the window")):
            serving = Serving(self.folder, self.programs, "--at", moment, listen)
            with self.assertRaisesRegex(AssertionError, line):
                serving.start()
            self.assertEqual(serving.process.returncode, status)


class Numbers(Served):
    def test_numbers(self):
        serving = self.serve("--log", "/dev/full")
        it = serving.client()
        for path, data in (("/one", b""), ("/one/k", b"mill"), ("/one/k", b"moor")):
            it.ask("PUT", path, data)
        it.ask("GET", "/one/none")
        self.assertEqual(serving.status("/health"), (200, "ok\n"))
        status, text = serving.status("/metrics")
        self.assertEqual(status, 200)
        for line in ('s4_store_requests_total{method="PUT",status="200"} 3', 's4_store_errors_total{code="NoSuchKey"} 1',
                     "s4_store_taken_bytes_total 8", "s4_store_buckets 1", "s4_store_keys 1", 's4_store_drive_served{drive="01"} 1',
                     "s4_store_answer_seconds_count 4", "s4_store_connections 1", "s4_store_log_lines_lost_total 4", *self.of_images):
            self.assertIn(f"{line}\n", text)
        self.assertEqual(serving.status("/other")[0], 404)
        with self.no_start():
            serving.kill_service(1)
            wait_until(lambda: serving.status("/health") == (503, "drive 1 isn't served\n"), "a drive that is away")
        wait_until(lambda: serving.status("/health")[0] == 200, "a drive that is served again")

    @contextlib.contextmanager
    def no_start(self):
        """No service can be started meanwhile, so that whoever looks late sees it, too."""
        os.rename(self.programs.s4serve, f"{self.programs.s4serve}.away")
        yield
        os.rename(f"{self.programs.s4serve}.away", self.programs.s4serve)

    of_images = ('s4_store_drive_readable{drive="00"} 0',)  # of a stand-in nothing can be read


@needs_program
@needs_s4
@needs_s4serve
class RealNumbers(Numbers):
    of_images = ('s4_store_drive_readable{drive="00"} 1', 's4_store_drive_readable{drive="01"} 1')

    def programs_in(self, _folder):
        return Programs(PROGRAM, S4, os.path.join(self.linked(), "s4serve"))

    def linked(self):
        """A folder with a link to the service's program."""
        folder = tempfile.TemporaryDirectory()
        self.addCleanup(folder.cleanup)
        os.symlink(S4SERVE, f"{folder.name}/s4serve")
        return folder.name


class Signals(Served):
    def test_hangup(self):
        """The log is opened anew and the keys are read again; a file of keys that is none leaves them as they were."""
        serving = self.serve("--log", "log")
        log, keys = pathlib.Path(f"{self.folder}.log"), pathlib.Path(keys_path(self.folder))
        serving.client().ask("PUT", "/one")
        keys.write_text(keys.read_text(encoding="utf-8") + "another another-secret-of-it read one\n", encoding="utf-8")
        another = keys_in(str(keys))["another"]
        self.assertEqual(BlockingClient(serving.port, another).ask("GET", "/one").code, "InvalidAccessKeyId")
        os.rename(log, f"{log}.1")
        serving.process.send_signal(signal.SIGHUP)
        wait_until(lambda: BlockingClient(serving.port, another).ask("GET", "/one").status == 200, "a key that is read again")
        self.assertEqual({json.loads(line)["key"] for line in log.read_text(encoding="utf-8").splitlines()[-1:]}, {"another"})
        keys.write_text("none\n", encoding="utf-8")
        serving.process.send_signal(signal.SIGHUP)
        wait_until(lambda: "the file of keys stays as it was: " in serving.said(), "keys that can't be read")
        self.assertEqual(serving.client().ask("GET", "/one").status, 200)

    def begin(self, *more):
        return super().begin(*(f"{self.folder}.log" if word == "log" else word for word in more))

    def test_a_put_in_flight_at_the_end(self):
        """What was begun is answered, and kept; who comes later isn't served."""
        serving = self.serve()
        serving.client().ask("PUT", "/one")
        data = bytes(range(256)) * 1_200
        headers = {**Signer(serving.key).headers("PUT", "/one/k", [], data, {}), "content-length": str(len(data))}
        with socket.create_connection(("127.0.0.1", serving.port)) as client:
            lines = ["PUT /one/k HTTP/1.1", "expect: 100-continue", *(f"{name}: {value}" for name, value in headers.items()), "", ""]
            client.sendall("\r\n".join(lines).encode())
            self.assertEqual(client.recv(65_536), b"HTTP/1.1 100 Continue\r\n\r\n")  # so it was begun
            client.sendall(data[:200_000])
            serving.process.send_signal(signal.SIGTERM)
            wait_until(lambda: not self.is_open(serving.port), "a gateway that accepts no more")
            self.assertIsNone(serving.process.poll())
            client.sendall(data[200_000:])
            reply = b""
            while part := client.recv(65_536):
                reply += part
        self.assertRegex(reply, rb"^HTTP/1.1 200 OK\r\n")
        self.assertIn(b"\r\nConnection: close\r\n", reply)
        self.assertEqual(serving.ended(), 0)
        self.assertEqual(self.begin().client().ask("GET", "/one/k").body, data)

    @staticmethod
    def is_open(port):
        try:
            socket.create_connection(("127.0.0.1", port)).close()
        except OSError:
            return False
        return True


@needs_openssl
class Certificates(Served):
    def test_tls(self):
        folder = tempfile.TemporaryDirectory()
        self.addCleanup(folder.cleanup)
        cert, key = f"{folder.name}/cert", f"{folder.name}/key"
        subprocess.run(["openssl", "req", "-x509", "-newkey", "rsa:2048", "-nodes", "-days", "2", "-subj", "/CN=store", "-addext",
                        "subjectAltName=IP:127.0.0.1", "-out", cert, "-keyout", key], check=True, capture_output=True)
        serving = self.serve("--cert", cert, "--key", key)
        it = serving.client(tls=ssl.create_default_context(cafile=cert))
        for path, data in (("/one", b""), ("/one/k", b"mill")):
            self.assertEqual(it.ask("PUT", path, data).status, 200)
        self.assertEqual(it.ask("GET", "/one/k").body, b"mill")
        with self.assertRaises(ssl.SSLError):
            serving.client(tls=ssl.create_default_context()).ask("GET", "/one/k")


if __name__ == "__main__":
    unittest.main()
