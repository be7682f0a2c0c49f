"""A store of which one drive is on another machine: a stand-in for its service, before which a bridge listens for TLS."""
import asyncio
import contextlib
import io
import json
import os
import pathlib
import subprocess
import tempfile
import unittest
from unittest import mock

from s4d.errors import NotAsked
from s4d.image import Image
from s4d.moments import machine_time
from s4d.store import OpenStore, Programs, Settings, StoreFault, elsewhere, make_store
from s4d.store.adding import ahead_of, say_clock
from s4d.store.asking import found_by_asking
from s4d.store.command import main
from s4d.store.contents import Gone
from s4d.store.drives import DriveAway
from s4d.store.layout import first_drive
from s4d.store.numbers import LEAST, ROOM, Numbers
from s4d.store.settings import Remote, settings_of

from .bridged import PATIENCE, Bridged, Certificates, free_port, needs_openssl, wait_until
from .built import PROGRAM, S4, S4SERVE, needs_program, needs_s4, needs_s4serve
from .plain_store import PlainStoreDrive, PlainStores, TimedDrive
from .s3_client import Gatewayed
from .store_standin import programs
from .test_store import BYTES, Stores, body, got

HERE, THERE = ([key for key in map(str, range(40)) if first_drive("one", key, 2) == number] for number in (0, 1))


def quietly(words):
    """What a command prints, what it says, and its status."""
    printed, said = io.StringIO(), io.StringIO()
    with contextlib.redirect_stdout(printed), contextlib.redirect_stderr(said):
        try:
            status = main(words)
        except SystemExit as end:
            status = end.code
    return status, printed.getvalue(), said.getvalue()


@needs_openssl
class Elsewhere(Bridged):
    """A folder with a store of one drive, and a bridge before the service that is to be the other one."""

    def setUp(self):
        super().setUp()
        self.port, self.certificates = free_port(), Certificates(self.folder)
        for name in ("bridge", "store"):
            self.certificates.make(name)
        self.roles("client store\n")
        self.store = str(self.folder / "store")
        built = all(pathlib.Path(it).exists() for it in (PROGRAM, S4, S4SERVE))
        self.programs = Programs(PROGRAM, S4, S4SERVE) if built else Programs(**programs(self.folder))
        make_store(self.store, Settings(1, 64, "30d"), self.programs)
        for name, value in (("CONNECT_SECONDS", PATIENCE), ("ANSWER_SECONDS", PATIENCE), ("LOOK_SECONDS", PATIENCE), ("QUIET_SECONDS", 0.5),
                            ("AGAIN_SECONDS", 0.1)):
            patch = mock.patch.object(elsewhere, name, value)
            patch.start()
            self.addCleanup(patch.stop)

    def roles(self, text):
        (self.folder / "roles").write_text(text, encoding="utf-8")

    def bridge(self):
        self.start("--tls", f"127.0.0.1:{self.port}", "--cert", self.folder / "bridge.pem", "--key", self.folder / "bridge.key",
                   "--client-ca", self.folder / "ca.pem", "--roles", self.folder / "roles", unix=False)
        if not isinstance(self.service.drive, TimedDrive):
            self.service.drive = TimedDrive()

    def add(self):
        return quietly(["add", self.store, "--remote", f"tls:127.0.0.1:{self.port}", "--s4", self.programs.s4,
                        *(word for name, file in (("ca", "ca.pem"), ("cert", "store.pem"), ("key", "store.key"))
                          for word in (f"--{name}", f"{self.folder}/{file}"))])

    def run_store(self, *works):
        """Each work has the store between a start and an end of it."""
        async def served(work):
            opened = OpenStore(self.store, self.programs)
            try:
                await work(await opened.start())
            finally:
                await opened.stop()

        for work in works:
            said = io.StringIO()
            with contextlib.redirect_stderr(said):
                asyncio.run(asyncio.wait_for(served(work), 5 * PATIENCE))
            self.last_said = said.getvalue()

    def live(self, kind):
        return self.service.drive.live(kind)

    async def once_served(self, work):
        """What comes of work once the drive answers again."""
        while True:
            with contextlib.suppress(DriveAway):
                return await work()
            await asyncio.sleep(0.05)


class Stored(Elsewhere):
    def test_all_is_found_and_what_is_away_answers_that(self):
        self.bridge()
        status, printed, said = self.add()
        self.assertEqual((status, said), (0, ""))
        self.assertIn(f"{self.store} has 2 drives", printed)

        async def put(store):
            await store.create_bucket("one")
            for key in [*HERE[:2], *THERE[:3]]:
                await store.put("one", key, body(b"old"), {})
                await store.put("one", key, body(BYTES[:2_000 if key == THERE[0] else 5]), {})
            await store.delete("one", THERE[2])
            self.assertEqual({key: store.bucket("one").current(key).head.drive for key in (HERE[0], THERE[0])}, {HERE[0]: 0, THERE[0]: 1})
            self.before = self.facts(store)
            self.assertTrue((self.folder / "store/serving").exists())

        async def look(store):
            self.assertEqual(self.facts(store), self.before)
            for key in [*HERE[:2], *THERE[:2]]:
                entries = store.bucket("one").keys[key]
                self.assertEqual([await got(store, it) for it in entries], [b"old", BYTES[:2_000 if key == THERE[0] else 5]])
            self.end_bridge()
            with self.assertRaises(DriveAway):
                await store.put("one", THERE[1], body(b"once more"), {})
            for key in (HERE[0], HERE[3]):
                self.assertEqual((await store.put("one", key, body(b"new"), {})).head.drive, 0)
            self.assertEqual((await store.put("one", THERE[5], body(b"new"), {})).head.drive, 0)  # a new key has its head elsewhere
            self.bridge()
            entry = await self.once_served(lambda: store.put("one", THERE[1], body(b"newer"), {}))
            self.assertEqual((entry.version.sequence, entry.head.drive), (3, 1))
            self.before = self.facts(store)

        async def look_again(store):
            self.assertEqual(self.facts(store), self.before)

        self.run_store(put, look, look_again)
        self.assertEqual((self.live(b"H"), self.live(b"S")), (3, 1))
        self.assertFalse((self.folder / "store/serving").exists())
        self.end_bridge()
        with self.assertRaisesRegex(StoreFault, f"drive 1 isn't served: tls:127.0.0.1:{self.port}: "):
            self.run_store(look_again)

    def end_bridge(self):
        self.process.kill()
        self.process.wait()

    @staticmethod
    def facts(store):
        return [(key, it.version.id, it.version.sequence, it.moment, it.until, it.head)
                for key in store.bucket("one").names for it in store.bucket("one").keys[key]]

    def test_a_head_whose_reply_is_lost(self):
        """It is looked for only once what was asked is done, or never will be."""
        self.bridge()
        self.add()

        async def put(store):
            await store.create_bucket("one")
            await store.put("one", THERE[0], body(b"old"), {})
            self.service.may_answer.clear()
            asked, rows = self.service.asked, len(self.service.drive.rows)
            putting = asyncio.ensure_future(store.put("one", THERE[0], body(b"new"), {}))
            while self.service.asked == asked:
                await asyncio.sleep(0.01)
            self.end_bridge()
            with self.assertRaises(DriveAway) as raised:
                await putting
            self.assertTrue(raised.exception.was_asked)
            with self.assertRaises(DriveAway):
                await store.settle("one", THERE[0])
            self.service.may_answer.set()
            while len(self.service.drive.rows) == rows:  # else it might be done after half a second, which is taken for long enough here
                await asyncio.sleep(0.01)
            self.bridge()
            await self.once_served(lambda: store.settle("one", THERE[0]))
            self.assertEqual([await got(store, it) for it in store.bucket("one").keys[THERE[0]]], [b"old", b"new"])

        async def look(store):
            self.assertEqual([await got(store, it) for it in store.bucket("one").keys[THERE[0]]], [b"old", b"new"])

        self.run_store(put)
        (self.folder / "store/serving").touch()  # as of a program that was killed
        self.run_store(look)
        self.assertIn("drives elsewhere may still do what an earlier program asked: that is waited for, ", self.last_said)

    def test_drives_that_can_not_be_added(self):
        """One that isn't served, one that takes the store for an administrator, and one of others: the store stays as it was."""
        settings = self.folder / "store/store.json"
        before = settings.read_text()
        self.assertRegex(self.add()[2], f"^s4store: drive 1 isn't served: tls:127.0.0.1:{self.port}: ")
        self.roles("admin store\n")
        self.bridge()
        self.assertRegex(self.add()[2], "takes the store for an administrator: give its certificate's name the role client\n$")
        self.end_bridge()
        self.roles("client store\n")
        self.bridge()
        made = self.service.drive.answer("client", b"\x01\x05other")
        self.assertRegex(self.add()[2], "has objects already: give the store a drive of its own\n$")
        self.assertEqual((self.live(b"o"), self.live(b"S")), (1, 0))
        self.assertEqual(settings.read_text(), before)
        self.service.drive.answer("client", b"\x02" + made[1:9])
        self.assertEqual(self.add()[0], 0)
        remote, = json.loads(settings.read_text())["remote"]
        self.assertEqual((remote["drive"], remote["address"]), (1, f"tls:127.0.0.1:{self.port}"))
        self.assertEqual(quietly(["add", self.store, "--remote", "tls:a:1"])[::2],
                         (2, "s4store: --remote, --ca, --cert and --key need each other; --help lists the options\n"))


@needs_program
@needs_s4
@needs_s4serve
class RealStored(Elsewhere):
    """The same over a drive itself."""

    test_all_is_found = Stored.test_all_is_found_and_what_is_away_answers_that
    facts, end_bridge = staticmethod(Stored.facts), Stored.end_bridge

    def bridge(self):
        if self.service is None:
            self.service = mock.Mock(drive=TimedDrive())
            self.begin_service()
        super().bridge()

    def begin_service(self):
        doors = [self.folder / "doors" / role for role in ("client", "admin")]
        for door in doors:
            door.mkdir(parents=True)
            os.mkfifo(door / "door")
        words = [S4SERVE, "--create", "64", "--keep", "30d", *(f"--door={it.name}={it}" for it in doors), f"{self.folder}/image"]
        with open(self.folder / "service", "wb") as said:
            service = subprocess.Popen(words, stdin=subprocess.DEVNULL, stderr=said)
        self.addCleanup(service.wait)
        self.addCleanup(service.kill)
        wait_until(lambda: "serves" in (self.folder / "service").read_text(encoding="utf-8"), "the drive is served")

    def live(self, kind):
        return sum(row.attribute[:1] == kind for row in Image(f"{self.folder}/image", s4=S4).list())


class Files(unittest.TestCase):
    def test_settings(self):
        one = {"drive": 1, "address": "tls:host:7401", "ca": "ca", "cert": "cert", "key": "key"}
        said = {"version": 1, "drives": 2, "frames": 64, "keep": "1d", "id": ""}
        self.assertEqual(settings_of({**said, "remote": [one]}, "x").remote[0].address, "tls:host:7401")
        for remote, line in (([{**one, "drive": 2}], "a drive is none of the store, or named twice"), ([one, one], "named twice"),
                             ([{**one, "address": "host:1"}], "'host:1' is no tls:HOST:PORT"), ([{"drive": 1}], "is no list of drives"),
                             ({}, "is no list of drives"), ([{**one, "ca": 5}], "address, ca, cert, key are texts")):
            with self.assertRaisesRegex(StoreFault, line):
                settings_of({**said, "remote": remote}, "x")

    def test_clocks(self):
        for ahead, line in ((500_000, ""), (-500_000, ""), (2_500_000, "s4store: x: its clock is 2.5 s ahead of this machine's\n"),
                            (-61_000_000, "s4store: x: its clock is 61.0 s behind this machine's\n")):
            said = io.StringIO()
            with contextlib.redirect_stderr(said):
                say_clock("x", ahead)
            self.assertEqual(said.getvalue(), line)
        self.assertEqual([ahead_of(it, 10, 20) for it in (5, 10, 15, 20, 26)], [-5, 0, 0, 0, 6])

    def test_a_session_that_fails_at_first(self):
        """It is tried once more; then the drive is away, and it is said why."""
        async def work():
            with self.assertRaisesRegex(StoreFault, "^drive 1: /nowhere/cert: No such file or directory$"):
                await elsewhere.RemoteService("/nowhere", Remote(1, "tls:a:1", __file__, "/nowhere/cert", __file__)).start()
            service = elsewhere.RemoteService("/nowhere", Remote(1, "tls:a:1", *[__file__] * 3))
            service._look = mock.AsyncMock()
            service._open = mock.AsyncMock(side_effect=[ConnectionResetError(), "a session", OSError("late"), ConnectionResetError()])
            await service.start()
            self.assertEqual(await service.session(1.0), "a session")
            with self.assertRaisesRegex(NotAsked, "^tls:a:1: ConnectionResetError$"):
                await service.session(1.0)
            self.assertEqual(await service.ended(), "tls:a:1: ConnectionResetError")

        asyncio.run(work())

    def test_numbers(self):
        """What may be used is on the disk before it is; what was there once is asked for alone."""
        with tempfile.TemporaryDirectory() as folder:
            path = pathlib.Path(folder, "numbers")
            numbers = Numbers(str(path))
            self.assertEqual((numbers.bound, numbers.to_ask()), (0, []))
            numbers.made(7)
            numbers.made(7 + ROOM - LEAST)
            self.assertEqual(Numbers(str(path)).bound, 7 + ROOM)
            numbers.made(8 + ROOM - LEAST)
            numbers.found([9, 3], 12)
            again = Numbers(str(path))
            self.assertEqual((again.bound, again.to_ask()), (8 + 2 * ROOM - LEAST, [3, 9, *range(12, again.bound)]))
            for said in ("{}", '{"bound": 0, "asked": 1, "live": []}', "none"):
                path.write_text(said, encoding="ascii")
                with self.assertRaises(StoreFault):
                    Numbers(str(path))


class Asked(Stores):
    """What is asked of a drive says what its image would."""

    def test_found_is_what_there_is(self):
        async def work(store):
            await store.create_bucket("one")
            for size in (5, 900, 0):
                for key in ("a", "b", "c"):
                    await store.put("one", key, body(BYTES[:size]), {})
            await store.delete("one", "b")
            await store.close()
            for number, drive in enumerate(self.stores.drives):
                found = await found_by_asking(PlainStoreDrive(number, drive), mock.Mock(bound=ROOM, asked=1, to_ask=lambda: range(1, ROOM)))
                image = drive.found()
                self.assertEqual(found.objects, image.objects)
                for row in found.objects:
                    if row.attribute[:1] == b"H":
                        self.assertEqual(len(found.moments[row.object]), len(image.moments[row.object]) - 1)
                        self.assertLessEqual(set(found.moments[row.object]), set(image.moments[row.object]))

        self.run_store(work)


class Cuts(unittest.TestCase):
    """Drives of other machines whose clocks are others."""

    def test_lists_name_the_drives_outside_of_the_cut(self):
        async def work():
            async with Gatewayed() as it:
                client = await it.connect()
                for method, path in (("PUT", "/one"), ("PUT", "/one/k"), ("GET", "/one"), ("GET", "/")):
                    self.assertNotIn("x-s4-outside-cut", (await client.ask(method, path)).headers)
                it.store.pieces.drives[1].is_remote = True
                for path, query in (("/", ()), ("/one", ()), ("/one", [("list-type", "2")]), ("/one", [("versions", "")])):
                    for more in ({}, {"x_s4_at": str(machine_time() - 1_000)}):
                        reply = await client.ask("GET", path, query=query, **more)
                        self.assertEqual((reply.status, reply.headers["x-s4-outside-cut"]), (200, "1"))
                self.assertNotIn("x-s4-outside-cut", (await client.ask("GET", "/one/k")).headers)

        asyncio.run(asyncio.wait_for(work(), PATIENCE))

    def test_a_piece_of_a_drive_whose_clock_is_behind(self):
        """It is read before its own drive says that it was deleted, though the head's drive says that later."""
        drives = PlainStores(2)
        behind = drives.drives[1]
        behind.now = lambda: machine_time() - 20_000_000

        async def work():
            store = await drives.start()
            piece = await store.pieces.put_on(store.pieces.drives[1], b"P", b"mill")
            behind.now = lambda: machine_time() + 40_000_000
            behind.window = 60_000_000
            await store.pieces.drives[1].ask(lambda session: session.delete(piece.object))
            behind.now = lambda: machine_time() + 70_000_000
            await store.pieces.drives[1].ask(lambda session: session.create(b"P"))
            life = mock.Mock(until=machine_time() + 80_000_000, moved=None)
            with self.assertRaises(Gone):
                await store.pieces.read(piece, life)
            store.pieces.drives[1].is_remote = True
            self.assertEqual(await store.pieces.read(piece, life), b"mill")

        asyncio.run(asyncio.wait_for(work(), PATIENCE))


if __name__ == "__main__":
    unittest.main()
