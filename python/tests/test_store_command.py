"""The commands of a store: what they print, and their statuses."""
import asyncio
import contextlib
import io
import json
import os
import pathlib
import resource
import signal
import subprocess
import sys
import tempfile
import time
import unittest
from unittest import mock

from s4d.image import Image
from s4d.s3 import command as s3
from s4d.s3.keys import keys_in
from s4d.open_files import OPEN_FILES, allow_open_files
from s4d.store.command import main
from s4d.store.opening import locked
from s4d.store.settings import image_path

from .bridged import PACKAGE, PATIENCE
from .s3_client import Client, Signer
from .store_standin import programs


class Commands(unittest.TestCase):
    def setUp(self):
        folder = tempfile.TemporaryDirectory()
        self.addCleanup(folder.cleanup)
        self.store, self.programs = f"{folder.name}/store", programs(folder.name)

    def run_command(self, *words, main=main):
        """The status, what is printed, and what is said on standard error."""
        printed, said = io.StringIO(), io.StringIO()
        with contextlib.redirect_stdout(printed), contextlib.redirect_stderr(said):
            try:
                status = main(words)
            except SystemExit as end:
                status = end.code
        return status, printed.getvalue(), said.getvalue()

    def init(self, *more):
        return self.run_command("init", self.store, "--drives", "1", "--frames", "24", "--keep", "1d", "--s4d", self.programs["s4d"], *more)

    def add(self, count, *more):
        return self.run_command("add", self.store, "--drives", str(count), "--s4d", self.programs["s4d"], "--s4", self.programs["s4"], *more)

    def test_words_that_are_wrong(self):
        for words, line in ((["init", self.store, "--drives", "0"], "'0' is no number from 1 to 64"),
                            (["init", self.store, "--frames", "x"], "'x' is no number from 24 to 1024"),
                            (["init", self.store, "--keep", "soon"], "'soon' is no duration, as 30d"),
                            (["init", self.store, "--keep", "36501d"], "36501d is longer than 36,500 days"),
                            (["serve", self.store, "--listen", "9000"], "'9000' is no HOST:PORT"),
                            (["serve", self.store, "--cert", "x"], "--cert and --key need each other"),
                            (["add", self.store], "--drives --remote is required"), (["add", self.store, "--drives", "65"], "'65' is no number"),
                            (["add", self.store, "--remote", "host:1"], "'host:1' is no tls:HOST:PORT"),
                            (["remake", self.store], "invalid choice: 'remake'"), ([], "command")):
            status, printed, said = self.run_command(*words)
            self.assertEqual((status, printed, said.count("\n")), (2, "", 1), words)
            self.assertRegex(said, f"^s4store: .*{line}")

    def test_init(self):
        synced, fsync = [], os.fsync
        with mock.patch("os.fsync", lambda number: synced.append(os.readlink(f"/proc/self/fd/{number}")) or fsync(number)):
            status, printed, said = self.init()
        self.assertEqual((status, said), (0, ""))
        self.assertEqual([os.path.relpath(path, os.path.dirname(self.store)) for path in synced],
                         ["store/drives/00/doors", "store/drives/00", "store/keys", "store/drives", "store", ".",
                          "store/store.json.new", "store"])
        self.assertIn(f"serve it by: python3 -m s4d.store serve {self.store}", printed)
        folder = pathlib.Path(self.store)
        said = json.loads((folder / "store.json").read_text())
        self.assertRegex(said.pop("id"), "^[0-9a-f]{16}$")
        self.assertEqual(said, {"version": 1, "drives": 1, "frames": 24, "keep": "1d"})
        self.assertEqual([(folder / name).stat().st_mode & 0o777 for name in (".", "keys", "drives", "drives/00/doors/client")],
                         [0o700, 0o600, 0o700, 0o700])
        self.assertEqual([key.may_write for key in keys_in(str(folder / "keys")).values()], [True])
        self.assertEqual(self.init()[::2], (1, f"s4store: {self.store} isn't empty: name another folder, or remove what is there\n"))

    def test_add(self):
        """Drives count once all are made. What a program left that was killed is made anew, and what was used stays."""
        self.init()
        settings, drives = pathlib.Path(self.store, "store.json"), pathlib.Path(self.store, "drives")
        before = json.loads(settings.read_text())
        with mock.patch("s4d.store.adding.write_settings", side_effect=KeyboardInterrupt), self.assertRaises(KeyboardInterrupt):
            self.add(2)
        self.assertEqual(json.loads(settings.read_text())["drives"], 1)
        self.assertEqual(len(list(drives.iterdir())), 3)
        (drives / "02/image").unlink()
        pathlib.Path(self.store, "store.json.new").write_text("half of it")
        status, printed, said = self.add(2)
        self.assertEqual((status, said), (0, ""))
        self.assertIn(f"{self.store} has 3 drives; what it has is moved to the new ones by: ", printed)
        self.assertEqual(json.loads(settings.read_text()), {**before, "drives": 3})
        self.assertEqual(sorted(it.name for it in pathlib.Path(self.store).iterdir()), ["drives", "keys", "store.json"])
        self.assertEqual((drives / "02/doors/client").stat().st_mode & 0o777, 0o700)
        self.assertEqual(self.add(62)[::2], (1, f"s4store: {self.store} has 3 drives: it may have 64\n"))
        (drives / "03").mkdir()
        (drives / "03/image").write_text((drives / "00/image").read_text() + "5 0100\n", encoding="ascii")
        self.assertEqual(self.add(1)[::2],
                         (1, f"s4store: {drives}/03 is a drive with a past, and none of the store's: move it elsewhere\n"))
        self.addCleanup(os.close, locked(self.store))
        self.assertEqual(self.add(1)[::2], (1, f"s4store: {self.store}: another program serves this store: end that one\n"))

    def test_rebalance(self):
        """By the command, by a server, and by one that is killed: all keys are there, on both drives."""
        self.init()
        self.fill()
        self.add(1)
        words = [sys.executable, "-B", "-m", "s4d.store", "rebalance", self.store, "--s4", self.programs["s4"],
                 "--s4serve", self.programs["s4serve"]]
        with subprocess.Popen(words, cwd=PACKAGE, stdout=subprocess.PIPE, stderr=subprocess.DEVNULL, text=True) as moving:
            while len(self.heads(1)) < 3 and moving.poll() is None:
                time.sleep(0.01)
            moving.kill()
        ran = subprocess.run(words, cwd=PACKAGE, stdout=subprocess.PIPE, text=True, check=True)
        self.assertRegex(ran.stdout, r"^moved [0-9]+ objects of [0-9]+ versions and [01] buckets, 0 bytes in pieces; a drive has [0-9,]+ to [0-9,]+ bytes\n$")
        self.assertIn([len(self.heads(number)) for number in (0, 1)], [[14, 16], [15, 15], [16, 14]])
        self.add(1)
        self.fill("--rebalance", wanted=lambda: len(self.heads(2)) >= 9)
        self.assertEqual(sum(len(self.heads(number)) for number in range(3)), 30)
        self.assertEqual(len(set().union(*[self.heads(number) for number in range(3)])), 30)

    def heads(self, number):
        """The attributes of a drive's heads."""
        rows = Image(image_path(self.store, number), s4=self.programs["s4"]).list()
        return {row.attribute for row in rows if row.attribute[:1] == b"H"}

    def fill(self, *more, wanted=lambda: True):
        """Puts thirty keys, or looks that they are there, while the store is served, and until it is as wanted."""
        words = [sys.executable, "-B", "-m", "s4d.store", "serve", self.store, "--listen", "127.0.0.1:0", "--s4", self.programs["s4"],
                 "--s4serve", self.programs["s4serve"], *more]
        key, = keys_in(f"{self.store}/keys").values()

        async def ask_all(port):
            client = await Client.connect(port)
            rows = [("PUT", "/one", b""), *(("PUT", f"/one/{number}", b"mill") for number in range(30))] if not more else []
            rows += [("GET", f"/one/{number}", b"") for number in range(30)]
            replies = [await client.ask(method, path, body, signer=Signer(key)) for method, path, body in rows]
            client.writer.close()
            self.assertEqual({it.status for it in replies}, {200})
            self.assertEqual([it.body for it in replies[-30:]], [b"mill"] * 30)

        with subprocess.Popen(words, cwd=PACKAGE, stdout=subprocess.PIPE, stderr=subprocess.DEVNULL, text=True) as serving:
            try:
                port = int(serving.stdout.readline().rpartition(":")[2])
                end = time.monotonic() + PATIENCE
                while not wanted() and time.monotonic() < end:
                    time.sleep(0.05)
                asyncio.run(ask_all(port))
            finally:
                serving.send_signal(signal.SIGTERM)

    def test_open_files(self):
        before = resource.getrlimit(resource.RLIMIT_NOFILE)
        self.addCleanup(resource.setrlimit, resource.RLIMIT_NOFILE, before)
        resource.setrlimit(resource.RLIMIT_NOFILE, (min(256, before[1]), before[1]))
        allow_open_files()
        self.assertEqual(resource.getrlimit(resource.RLIMIT_NOFILE)[0], min(OPEN_FILES, before[1]))

    def test_what_can_not_be_had(self):
        self.assertEqual(self.run_command("serve", self.store)[::2],
                         (1, f"s4store: {self.store} is no store: make one by `python3 -m s4d.store init {self.store}`\n"))
        status, _, said = self.init("--s4d", "/nowhere/s4d")
        self.assertEqual((status, said), (1, "s4store: /nowhere/s4d: No such file or directory\n"))
        self.assertEqual(self.run_command("serve", self.store)[0], 1)  # what is half made is no store

    def test_a_certificate_that_is_none(self):
        self.init()
        status, _, said = self.run_command("serve", self.store, "--cert", "/nowhere/cert", "--key", "/nowhere/key")
        self.assertEqual((status, said.count("\n")), (1, 1))
        self.assertIn("s4store: /nowhere/cert and /nowhere/key are no certificate with its key: ", said)

    def test_serve(self):
        self.serve("s4d.store", "serve", self.store)

    def test_the_gateway_by_its_own_name(self):
        """The same program, by the folder or by the file in it."""
        self.serve("s4d.s3", "--store", f"{self.store}/store.json")
        with mock.patch("s4d.store.command.serve", mock.AsyncMock(return_value=3)) as serve:
            self.assertEqual(self.run_command(self.store, "--listen", "[::1]:80", "--at", "2h", "127.0.0.1:0", main=s3.main), (3, "", ""))
            self.run_command("serve", self.store, "--listen", "[::1]:80", "--at", "2h", "127.0.0.1:0")
        (ours,), (theirs,) = [call[0] for call in serve.call_args_list]
        self.assertEqual({**vars(ours), "store": None}, {**vars(theirs), "store": None})
        for words, line in (([], "DIR --store is required"), ([self.store, "--store", "store.json"], "not allowed with argument DIR"),
                            (["--store", self.store], "'.*/store' is no store.json"),
                            ([self.store, "--cert", "x"], "--cert and --key need each other"),
                            ([self.store, "--at", "soon", "127.0.0.1:0"], "--at: "), ([self.store, "--frames", "24"], "--frames")):
            status, printed, said = self.run_command(*words, main=s3.main)
            self.assertEqual((status, printed, said.count("\n")), (2, "", 1), words)
            self.assertRegex(said, f"^s4store: .*{line}")
        self.assertEqual(self.run_command("--store", "store.json", main=s3.main)[::2],
                         (1, "s4store: . is no store: make one by `python3 -m s4d.store init .`\n"))

    def serve(self, program, *named):
        """Serves a new store by a program, and ends it in order."""
        self.init()
        words = [sys.executable, "-B", "-m", program, *named, "--listen", "127.0.0.1:0", "--log", f"{self.store}/log",
                 "--s4", self.programs["s4"], "--s4serve", self.programs["s4serve"]]
        key, = keys_in(f"{self.store}/keys").values()

        async def ask(port):
            client = await Client.connect(port)
            replies = [await client.ask(method, path, body, signer=Signer(key))
                       for method, path, body in (("PUT", "/one", b""), ("PUT", "/one/k", b"mill"), ("GET", "/one/k", b""))]
            client.writer.close()
            return [(it.status, it.body) for it in replies]

        with subprocess.Popen(words, cwd=PACKAGE, stdout=subprocess.PIPE, text=True) as serving:
            ready = serving.stdout.readline()
            self.assertRegex(ready, r"^ready: http://127\.0\.0\.1:[0-9]+\n$")
            self.assertEqual(asyncio.run(ask(int(ready.rpartition(":")[2]))), [(200, b""), (200, b""), (200, b"mill")])
            serving.send_signal(signal.SIGTERM)
            self.assertEqual(serving.wait(PATIENCE), 0)
        lines = [json.loads(line) for line in pathlib.Path(f"{self.store}/log").read_text(encoding="utf-8").splitlines()]
        self.assertEqual([(it["method"], it["path"], it["key"], it["status"]) for it in lines],
                         [("PUT", "/one", key.access, 200), ("PUT", "/one/k", key.access, 200), ("GET", "/one/k", key.access, 200)])
        with self.assertRaises(OSError):  # nobody reads at the drive's door any more
            os.open(f"{self.store}/drives/00/doors/client/door", os.O_WRONLY | os.O_NONBLOCK)


if __name__ == "__main__":
    unittest.main()
