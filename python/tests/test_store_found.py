"""A store whose drives others serve, by the lines of the unit s4serve@.service: it finds them, and neither starts nor ends them."""
import asyncio
import contextlib
import io
import json
import os
import pathlib
import re
import shlex
import signal
import subprocess
import tempfile
import unittest
from unittest import mock

from s4d.errors import NotAsked
from s4d.store import OpenStore, Programs, Settings, StoreFault, elsewhere, make_store
from s4d.store.drives import DriveAway
from s4d.store.layout import first_drive
from s4d.store.settings import settings_in, settings_of

from .bridged import PATIENCE, wait_until
from .built import PROGRAM, S4, S4SERVE, TOP, needs_program, needs_s4, needs_s4serve
from .store_standin import programs
from .test_store import BYTES, body, got

UNIT = TOP / "deploy/s4serve@.service"


def line(name):
    """What the unit's line of this name says."""
    return re.search(rf"(?m)^{name}=(.*)$", UNIT.read_text(encoding="utf-8"))[1]


class Found(unittest.TestCase):
    """A store of two drives of a stand-in, which this process starts as systemd would."""

    def setUp(self):
        folder = tempfile.TemporaryDirectory()
        self.addCleanup(folder.cleanup)
        self.folder, self.services = f"{folder.name}/store", {}
        self.programs = self.programs_in(folder.name)
        umask = os.umask(0o027)
        try:
            make_store(self.folder, Settings(2, 64, "30d", finds=True), self.programs)
        finally:
            os.umask(umask)
        self.addCleanup(self.kill_all)
        patch = mock.patch.object(elsewhere, "AGAIN_SECONDS", 0.1)
        patch.start()
        self.addCleanup(patch.stop)

    def programs_in(self, folder):
        return Programs(**programs(folder))

    def words(self, name, number):
        """The words of a line of the unit, for a drive of this store."""
        said = line(name).replace("/var/lib/s4store", self.folder).replace("%i", f"{number:02}")
        return shlex.split(said.replace("/usr/local/bin/s4serve", self.programs.s4serve))

    def begin(self, number):
        """Starts the service of a drive, and waits until it serves."""
        door = f"{self.folder}/drives/{number:02}/doors/client/door"
        self.services[number] = subprocess.Popen(self.words("ExecStart", number), stderr=subprocess.DEVNULL, start_new_session=True)
        wait_until(lambda: self.services[number].poll() is not None or self.is_read(door), "a service reads at its door")
        self.assertIsNone(self.services[number].poll())

    @staticmethod
    def is_read(door):
        try:
            os.close(os.open(door, os.O_WRONLY | os.O_NONBLOCK))
        except OSError:
            return False
        return True

    def kill(self, number):
        service = self.services.pop(number)
        with contextlib.suppress(ProcessLookupError):
            os.killpg(service.pid, signal.SIGKILL)
        service.wait()

    def kill_all(self):
        for number in list(self.services):
            self.kill(number)

    def end(self, number):
        """Ends a service as the unit does: its status."""
        service = self.services.pop(number)
        with subprocess.Popen(self.words("ExecStop", number), env={**os.environ, "MAINPID": str(service.pid)}) as stopping:
            status = service.wait(PATIENCE)  # until then it is a process, though it has ended
            self.assertEqual(stopping.wait(PATIENCE), 0)
        return status

    def run_store(self, work):
        async def served():
            opened = OpenStore(self.folder, Programs(s4=self.programs.s4, s4serve="/nowhere/s4serve"))
            try:
                await work(await opened.start())
            finally:
                await opened.stop()

        with contextlib.redirect_stderr(io.StringIO()):
            asyncio.run(asyncio.wait_for(served(), 5 * PATIENCE))

    async def once_served(self, work):
        while True:
            with contextlib.suppress(DriveAway):
                return await work()
            await asyncio.sleep(0.05)

    def test_drives_that_are_found(self):
        """What is put is there after another start; a service that ends is away until another one is found."""
        here, there = (next(key for key in map(str, range(20)) if first_drive("one", key, 2) == number) for number in (0, 1))

        async def put(store):
            await store.create_bucket("one")
            for key in (here, there):
                await store.put("one", key, body(b"mill"), {})
            self.kill(1)
            with self.assertRaises(DriveAway):
                await store.put("one", there, body(b"lost"), {})
            await store.put("one", here, body(b"moor"), {})
            self.begin(1)
            entry = await self.once_served(lambda: store.put("one", there, body(BYTES[:900]), {}))
            self.assertEqual((entry.head.drive, entry.version.sequence), (1, 2))

        async def look(store):
            found = {key: [await got(store, it) for it in store.bucket("one").keys[key]] for key in (here, there)}
            self.assertEqual(found, {here: [b"mill", b"moor"], there: [b"mill", BYTES[:900]]})

        with self.assertRaisesRegex(StoreFault, "drive 0 isn't served: .*/drives/00/doors/client: "):
            self.run_store(put)
        for number in (0, 1):
            self.begin(number)
        self.run_store(put)
        self.run_store(look)
        self.assertEqual([it.poll() for it in self.services.values()], [None, None])
        self.assertEqual([self.end(number) for number in (0, 1)], [0, 0])

    def test_an_earlier_session_is_waited_for(self):
        """While some program's session has a place nothing is looked at: what was asked there may still be done."""
        self.begin(0)

        async def look():
            service, other = (elsewhere.FoundService(self.folder, 0) for _ in range(2))
            session = await other._open()
            starting = asyncio.ensure_future(service.start())
            await asyncio.wait({starting}, timeout=1.5)
            self.assertFalse(starting.done())
            await session.close()
            await asyncio.wait_for(starting, PATIENCE)
            self.kill(0)
            with self.assertRaises(NotAsked):
                await service.session(1.0)
            self.assertIn("doors/client: ", await asyncio.wait_for(service.ended(), PATIENCE))
            await service.stop()

        asyncio.run(asyncio.wait_for(look(), 3 * PATIENCE))

    def test_modes(self):
        """The services' group reads all but the doors of administrators, and writes at those of clients."""
        modes = {name: os.stat(f"{self.folder}/{name}").st_mode & 0o7777 for name in (
            ".", "store.json", "keys", "drives", "drives/01", "drives/01/doors", "drives/01/doors/client", "drives/01/doors/client/door",
            "drives/01/doors/admin", "drives/01/doors/admin/door")}
        self.assertEqual(list(modes.values()), [0o750, 0o640, 0o640, 0o750, 0o750, 0o750, 0o2770, 0o660, 0o700, 0o600])
        self.assertEqual(os.stat(f"{self.folder}/drives/01/image").st_mode & 0o027, 0)
        said = json.loads(pathlib.Path(self.folder, "store.json").read_text(encoding="utf-8"))
        self.assertEqual((said["found"], settings_in(self.folder).finds), (True, True))
        with self.assertRaisesRegex(StoreFault, "found is neither true nor false"):
            settings_of({**said, "found": "yes"}, "x")


@needs_program
@needs_s4
@needs_s4serve
class RealFound(Found):
    def programs_in(self, _folder):
        return Programs(PROGRAM, S4, S4SERVE)


class Units(unittest.TestCase):
    def test_the_units_agree(self):
        """They are of the same users, and what the gateway's unit starts is a command of the package."""
        store, bridge = ((TOP / f"deploy/{name}.service").read_text(encoding="utf-8") for name in ("s4store", "s4bridge"))
        self.assertIn("\nExecStart=/opt/s4d/bin/python3 -I -m s4d.store serve /var/lib/s4store ", store)
        self.assertIn("\nExecStart=/opt/s4d/bin/python3 -I -m s4d.bridge ", bridge)
        self.assertEqual((line("User"), line("Group"), line("StateDirectory"), line("Before")),
                         ("s4serve", "s4doors", "s4store", "s4store.service"))
        self.assertIn("\nUser=s4store\n", store)
        self.assertIn("\nSupplementaryGroups=s4doors\n", store)


if __name__ == "__main__":
    unittest.main()
