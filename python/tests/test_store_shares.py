"""What one access key may hold of a store's drives: askers take turns, and a store takes few of a drive's sessions."""
import asyncio
import contextlib
import io
import pathlib
import tempfile
import unittest

from s4d.s3.gateway import Gateway
from s4d.s3.keys import Key
from s4d.s3.limits import KEY_REQUESTS
from s4d.s3.server import Server
from s4d.store import OpenStore, Programs, Settings, make_store
from s4d.store.drives import SESSIONS
from s4d.store.settings import drive_folder, image_path
from s4d.store.shares import ASKER, Shares

from .bridged import PATIENCE
from .s3_client import OWNER, READER, Client, Gatewayed, Signer
from .standin import Service
from .store_standin import LastingDrive, programs
from .test_store import BYTES

STORES = 12  # sessions of a drive's sixteen that a store may have
FIRST, SECOND, THIRD = (Key(name, f"a secret of {name} that is long", True, None) for name in ("first", "second", "third"))


class Order(unittest.TestCase):
    def run_askers(self, work, count=1):
        """Work with a store's places, all of which are taken, and the askers who had one since."""
        async def all_of():
            shares, had, done = Shares(count), [], asyncio.Event()

            async def hold(asker, until):
                ASKER.set(asker)
                async with shares.place():
                    had.append(asker)
                    await until.wait()

            tasks = [asyncio.ensure_future(hold("", done)) for _ in range(count)]
            await asyncio.sleep(0)
            had.clear()
            ended = asyncio.Event()
            ended.set()

            def ask(askers):
                more = [asyncio.ensure_future(hold(it, ended)) for it in askers]
                tasks.extend(more)
                return more

            await work(shares, ask)
            done.set()
            await asyncio.wait(set(tasks))
            self.assertEqual((shares._free, shares._waiting), (count, {}))
            return "".join(had)

        return asyncio.run(asyncio.wait_for(all_of(), PATIENCE))

    def test_askers_take_turns(self):
        async def work(_shares, ask):
            ask("aaaaabbc")
            await asyncio.sleep(0)
            ask("dd")
            await asyncio.sleep(0)

        self.assertEqual(self.run_askers(work), "abcdabdaaa")

    def test_who_waits_no_more(self):
        """It takes no turn, and no place is lost, whenever that was."""
        async def work(shares, ask):
            tasks = ask("aaabbc")
            await asyncio.sleep(0)
            for number in (1, 3, 4, 5):
                tasks[number].cancel()
            await asyncio.sleep(0)

        self.assertEqual(self.run_askers(work), "aa")

    def test_a_place_that_is_handed_to_who_waits_no_more(self):
        async def all_of():
            shares = Shares(1)
            ASKER.set("a")
            async with shares.place():
                waiting = [asyncio.ensure_future(shares._take(it)) for it in "abc"]
                await asyncio.sleep(0)
                waiting[0].cancel()
            waiting[1].cancel()
            await asyncio.wait(set(waiting))
            self.assertEqual([it.cancelled() for it in waiting], [True, True, False])
            self.assertEqual((shares._free, shares._waiting), (0, {}))
            shares._leave()
            self.assertEqual(shares._free, 1)

        asyncio.run(asyncio.wait_for(all_of(), PATIENCE))


class Sessions(unittest.TestCase):
    """A gateway over a drive that is found served, by a stand-in in this process."""

    def run_gateway(self, work):
        async def all_of(folder):
            store = f"{folder}/store"
            made = Programs(**programs(folder))
            make_store(store, Settings(1, 64, "30d", finds=True), made)
            self.service = Service(pathlib.Path(drive_folder(store, 0)) / "doors", [])
            self.service.drive = LastingDrive(image_path(store, 0), 2**60, 2**60)
            self.service.attend("client")
            opened, keys = OpenStore(store, made), {it.access: it for it in (FIRST, SECOND, THIRD)}
            try:
                gateway = Gateway(await opened.start(), keys, 1, None)
                server = Server(gateway, "127.0.0.1", 0, None)
                await server.start()
                await work(gateway, server.port)
                await server.close(PATIENCE)
            finally:
                self.service.may_answer.set()
                await opened.stop()
                self.service.stop()

        with tempfile.TemporaryDirectory() as folder, contextlib.redirect_stderr(io.StringIO()):
            asyncio.run(asyncio.wait_for(all_of(folder), PATIENCE))

    async def ask(self, port, key, path, size):
        it = await Client.connect(port)
        try:
            return (await it.ask("PUT", path, BYTES[:size], signer=Signer(key))).status
        finally:
            it.writer.close()

    def test_as_many_requests_as_keys_may_have(self):
        """They are answered, and the store has no more sessions than are its own; the service counts them."""
        async def work(gateway, port):
            await self.ask(port, FIRST, "/one", 0)
            with self.service.lock:
                self.service.most_open["client"] = 0
            self.service.may_answer.clear()
            asks = [asyncio.ensure_future(self.ask(port, key, f"/one/{key.access}-{number}", 500 * (number % 3)))
                    for key in (FIRST, SECOND, THIRD) for number in range(KEY_REQUESTS)]
            while sum(gateway._working.values()) < len(asks):
                await asyncio.sleep(0.01)
            self.service.may_answer.set()
            self.assertEqual(set(await asyncio.gather(*asks)), {200})
            with self.service.lock:
                self.assertLessEqual(SESSIONS, self.service.most_open["client"])
                self.assertLessEqual(self.service.most_open["client"], STORES)

        self.run_gateway(work)


class Askers(unittest.TestCase):
    def test_who_asks(self):
        """Whatever a request asks of drives is asked for its key, its answer's body too, on a connection of another's as well."""
        async def all_of():
            asked = []
            async with Gatewayed() as gateway:
                it = await gateway.connect()
                for drive in gateway.store.pieces.drives:
                    drive.ask = noted(drive.ask, asked)
                await it.ask("PUT", "/one")
                for method, path, key, body in (("PUT", "/one/k", OWNER, BYTES[:500_000]), ("GET", "/one/k", READER, b""),
                                                ("PUT", "/one/k", OWNER, b"mill")):
                    asked.clear()
                    await it.ask(method, path, body, signer=Signer(key))
                    await gateway.store.close()  # pieces that were replaced are deleted for who replaced them
                    self.assertGreater(len(asked), 5 if body != b"mill" else 0)
                    self.assertEqual(set(asked), {key.access})

        def noted(ask, asked):
            async def note(work):
                asked.append(ASKER.get())
                return await ask(work)

            return note

        asyncio.run(asyncio.wait_for(all_of(), PATIENCE))


if __name__ == "__main__":
    unittest.main()
