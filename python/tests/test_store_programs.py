"""A store whose drives are programs, of a stand-in and, where they are built, of the drive itself: starts, ends, kills."""
import asyncio
import json
import os
import pathlib
import signal
import subprocess
import sys
import tempfile
import unittest
from unittest import mock

from s4d.errors import SERVED
from s4d.store import OpenStore, Programs, Settings, StoreFault, make_store
from s4d.store.adding import add_drives
from s4d.store.drives import DriveAway
from s4d.store.layout import first_drive
from s4d.store.rebalance import Rebalance
from s4d.store.sessions import OPEN_SECONDS
from s4d.store.settings import image_path

from .bridged import PACKAGE, PATIENCE
from .built import PROGRAM, S4, S4SERVE, needs_program, needs_s4, needs_s4serve
from .store_standin import programs
from .test_store import BYTES, body, got


class Served(unittest.TestCase):
    """A store of two drives of a stand-in."""

    def setUp(self):
        folder = tempfile.TemporaryDirectory()
        self.addCleanup(folder.cleanup)
        self.folder = f"{folder.name}/store"
        self.programs = self.programs_in(folder.name)
        make_store(self.folder, Settings(2, 64, "30d"), self.programs)

    def programs_in(self, folder):
        return Programs(**programs(folder))

    def run_store(self, *works):
        """Each work has the store between a start and an end of it."""
        for work in works:
            asyncio.run(asyncio.wait_for(self.served(work), 5 * PATIENCE))

    async def served(self, work):
        opened = OpenStore(self.folder, self.programs)
        try:
            await work(await opened.start())
        finally:
            await opened.stop()


class Starts(Served):
    def test_services_that_are_killed_start_again(self):
        async def put(store):
            await store.create_bucket("one")
            old = await store.put("one", "k", body(BYTES[:100_000]), {})
            await store.put("one", "k", body(b"new"), {})
            with self.assertRaisesRegex(StoreFault, "another program serves this store: end that one"):
                OpenStore(self.folder, self.programs)
            for drive in store.pieces.drives:
                drive._service.kill()
            self.assertEqual(await self.once_served(lambda: got(store, old)), BYTES[:100_000])
            await self.once_served(lambda: store.put("one", "k", body(b"newer"), {}))

        async def get(store):
            entries = store.bucket("one").keys["k"]
            self.assertEqual([it.version.sequence for it in entries], list(range(1, len(entries) + 1)))
            self.assertEqual([await got(store, it) for it in entries][:2], [BYTES[:100_000], b"new"])
            self.assertEqual(await got(store, entries[-1]), b"newer")

        self.run_store(put, get)

    def test_moments_of_two_drives(self):
        """Whatever was answered before a put was begun has an earlier moment, on whichever drive: a moment is one cut over both."""
        async def put(store):
            await store.create_bucket("one")
            keys = [next(key for key in map(str, range(100)) if first_drive("one", key, 2) == number) for number in (0, 1)]
            entries = [await store.put("one", keys[count % 2], body(b"mill"), {}) for count in range(20)]
            self.assertEqual({it.head.drive for it in entries}, {0, 1})
            moments = [it.moment for it in entries]
            self.assertEqual(moments, sorted(set(moments)))

        self.run_store(put)

    def test_a_service_that_ends_before_it_opens_a_session(self):
        """Nobody waits for it; and an end while it starts again leaves no process."""
        async def ask(store):
            drive = store.pieces.drives[0]
            while drive._idle:  # the start asked which drive it is
                await drive._idle.pop().close()
            os.kill(drive._service._process.pid, signal.SIGSTOP)
            asking = asyncio.ensure_future(drive.ask(lambda session: session.attributes(0)))
            while len(os.listdir(f"{self.folder}/drives/00/doors/client")) < 3:  # the door, and a session's pipes
                await asyncio.sleep(0.01)
            drive._service.kill()
            with self.assertRaises(DriveAway):
                await asyncio.wait_for(asking, OPEN_SECONDS / 2)
            killed = drive._service._process
            while drive._service._process is killed:
                await asyncio.sleep(0.01)
            started.append(drive._service._process)

        started = []
        self.run_store(ask)
        self.assertEqual([it.returncode is not None for it in started], [True])

    def test_a_drive_more(self):
        """What there is is moved to it, though services are killed meanwhile, and stays as it was."""
        async def put(store):
            await store.create_bucket("one")
            for number in range(9):
                for size in (40_000, 7):
                    await store.put("one", f"k{number}", body(BYTES[:size * (number % 2) + number]), {})
            known.extend([(it.version.id, it.moment, await got(store, it)) for it in all_of(store)])

        async def move(store):
            moving = asyncio.ensure_future(Rebalance(store).run())
            for drive in store.pieces.drives:
                await asyncio.sleep(0.01)
                drive._service.kill()
            await moving

        async def go_on(store):
            while (await Rebalance(store).run()).kept:
                await asyncio.sleep(0.3)
            self.assertGreater(len({it.head for it in all_of(store) if it.head.drive == 2}), 1)

        async def look(store):
            self.assertEqual([(it.version.id, it.moment, await got(store, it)) for it in all_of(store)], known)

        def all_of(store):
            return [it for key in store.bucket("one").names for it in store.bucket("one").keys[key]]

        known = []
        self.run_store(put)
        self.assertEqual(add_drives(self.folder, 1, self.programs), 3)
        self.run_store(move, look, go_on, look)

    def test_drives_that_are_not_in_their_places(self):
        """Nothing is deleted, and what is wrong is said; in their places they are served again."""
        async def put(store):
            if "one" not in store.index.buckets:
                await store.create_bucket("one")
            await store.put("one", "k", body(BYTES[:200_000]), {})

        async def get(store):
            self.assertEqual(await got(store, store.bucket("one").current("k")), BYTES[:200_000])

        def swap():
            for old, new in ((places[0], "other"), (places[1], places[0]), ("other", places[1])):
                os.rename(f"{self.folder}/{old}", f"{self.folder}/{new}")

        places = ["drives/00/image", "drives/01/image"]
        self.run_store(put)
        swap()
        with self.assertRaisesRegex(StoreFault, "drive 0: .*drives/00/image is drive 1 of this store: put it where it belongs"):
            self.run_store(get)
        swap()
        self.run_store(get)
        os.rename(f"{self.folder}/store.json", f"{self.folder}/kept")
        said = json.loads(pathlib.Path(self.folder, "kept").read_text(encoding="utf-8"))
        for id in ("", "0" * 16):  # that of a store that was made before there were any, and another one's
            pathlib.Path(self.folder, "store.json").write_text(json.dumps({**said, "id": id}), encoding="utf-8")
            if id:
                with self.assertRaisesRegex(StoreFault, "drives/00/image is a drive of another store: put it where it belongs"):
                    self.run_store(get)
            else:
                self.run_store(get)

    @staticmethod
    async def once_served(work):
        """What comes of work once the drives answer again."""
        while True:
            try:
                return await work()
            except DriveAway:
                await asyncio.sleep(0.3)

    def test_what_is_no_store(self):
        with self.assertRaisesRegex(StoreFault, "is no store: make one by"):
            OpenStore("/", self.programs)
        with self.assertRaisesRegex(StoreFault, "isn't empty"):
            make_store(self.folder, Settings(1, 64, "1d"), self.programs)
        pathlib.Path(self.programs.s4serve).write_text("#!/bin/sh\necho 's4serve: cannot serve it' >&2\nexit 1\n", encoding="ascii")
        with self.assertRaisesRegex(StoreFault, "drive 0 isn't served: s4serve: cannot serve it"):
            self.run_store(None)
        os.unlink(f"{self.folder}/drives/01/image")
        with self.assertRaisesRegex(StoreFault, "drives/01/image: "):
            self.run_store(None)


class Kills(Served):
    """A program that has a store is killed while it puts, and its services go on alone."""

    PUTS = """
import asyncio, sys
from s4d.store import OpenStore, Programs
async def body(data):
    yield data
async def main():
    store = await OpenStore(sys.argv[1], Programs(*sys.argv[2:])).start()
    if "one" not in store.index.buckets:
        await store.create_bucket("one")
    print("started", flush=True)
    async def put(name):
        for number in range(10**9):
            it = await store.put("one", name, body((name + str(number)).encode() * (30 if number % 2 else 10_000)), {})
            print(name, it.version.id, it.version.size, it.version.etag, flush=True)
    await asyncio.gather(*map(put, "abc"))
asyncio.run(main())
"""
    KILLS = int(os.environ.get("STORE_KILLS", 2))

    def test_kills(self):
        acknowledged = [line for count in range(self.KILLS) for line in self.killed(3 + count % 4)]

        async def look(store):
            entries = {it.version.id: it for known in store.bucket("one").keys.values() for it in known}
            for key, id, size, etag in acknowledged:
                version = entries[id].version
                self.assertEqual((version.key, version.size, version.etag), (key, int(size), etag))
            for entry in entries.values():
                self.check_contents(entry, await got(store, entry))

        self.run_store(look)

    def killed(self, puts):
        """What a program acknowledged that was killed after some puts, while the next ones were on their way."""
        words = [sys.executable, "-S", "-B", "-c", self.PUTS, self.folder, self.programs.s4d, self.programs.s4, self.programs.s4serve]
        with subprocess.Popen(words, cwd=PACKAGE, stdout=subprocess.PIPE, text=True) as program:
            self.assertEqual(program.stdout.readline(), "started\n")
            lines = [program.stdout.readline() for _ in range(puts)]
            program.send_signal(signal.SIGKILL)
            lines += program.stdout.readlines()
        return [line.split() for line in lines if line.endswith("\n")]

    def check_contents(self, entry, data):
        self.assertEqual(len(data), entry.version.size)
        count = 30 if entry.version.size < 1_000 else 10_000
        self.assertEqual(data, data[:len(data) // count] * count)
        self.assertEqual(data[:1].decode(), entry.version.key)


class Real:
    """The drive's own programs."""

    def programs_in(self, _folder):
        return Programs(PROGRAM, S4, S4SERVE)


@needs_program
@needs_s4
@needs_s4serve
class RealStarts(Real, Served):
    test_services_that_are_killed_start_again = Starts.test_services_that_are_killed_start_again
    test_moments_of_two_drives = Starts.test_moments_of_two_drives
    test_a_drive_more = Starts.test_a_drive_more
    test_drives_that_are_not_in_their_places = Starts.test_drives_that_are_not_in_their_places

    def test_a_service_that_has_no_door_yet(self):
        """A start that was killed left it, while it waited for the machine's time: the next start waits for it, ends it, and serves."""
        async def put(store):
            await store.create_bucket("one")
            await store.put("one", "k", body(b"mill"), {})
            for drive in store.pieces.drives:
                drive._service.kill()  # so that the next one waits ten seconds

        async def get(store):
            self.assertEqual(await got(store, store.bucket("one").current("k")), b"mill")
            self.assertEqual(await asyncio.get_running_loop().run_in_executor(None, left.wait, PATIENCE), 0)

        def hear(line):
            """Lets it go on once it is seen that it has the image."""
            said.append(line)
            if line.endswith(SERVED):
                left.send_signal(signal.SIGCONT)

        said = []
        self.run_store(put)
        left = self.waiting_service()
        with mock.patch("s4d.store.service.say", hear):
            self.run_store(get)
        self.assertTrue([line for line in said if line.endswith(SERVED)])

    def waiting_service(self):
        """A service that waits for the machine's time, and is held there, however late the next start comes."""
        doors = [f"--door={role}={self.folder}/drives/00/doors/{role}" for role in ("client", "admin")]
        service = subprocess.Popen([S4SERVE, *doors, image_path(self.folder, 0)], stderr=subprocess.PIPE, text=True)
        self.addCleanup(service.communicate)
        self.addCleanup(service.kill)  # before it is waited for, also where this test fails
        self.assertIn("that is waited for", service.stderr.readline())
        service.send_signal(signal.SIGSTOP)
        return service
    once_served = staticmethod(Starts.once_served)


@needs_program
@needs_s4
@needs_s4serve
class RealKills(Real, Kills):
    pass


if __name__ == "__main__":
    unittest.main()
