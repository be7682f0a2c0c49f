"""A gateway with TLS: who says nothing, or no TLS, keeps nobody out."""
import asyncio
import contextlib
import pathlib
import ssl
import tempfile
import unittest
from unittest import mock

from s4d import handshakes
from s4d.s3 import server
from s4d.s3.server import Server
from s4d.store.serving import Wanted, tls_of

from .bridged import PATIENCE, Certificates, needs_openssl
from .s3_client import Client, Gatewayed
from .test_store import BYTES


@needs_openssl
class Handshakes(unittest.TestCase):
    @classmethod
    def setUpClass(cls):
        folder = tempfile.TemporaryDirectory()
        cls.addClassCleanup(folder.cleanup)
        made = Certificates(pathlib.Path(folder.name)).make("store")
        cls.ours = tls_of(Wanted("127.0.0.1", 0, "", str(made.cert), str(made.key)))
        cls.theirs = ssl.create_default_context(cafile=str(made.ca))

    def run_server(self, work):
        async def all_of():
            async with Gatewayed() as gateway:
                self.server = Server(gateway.gateway, "127.0.0.1", 0, self.ours)
                await self.server.start()
                self.writers = []
                try:
                    await work()
                finally:
                    for writer in self.writers:
                        writer.close()
                    await self.server.close(PATIENCE)
                self.assertEqual((self.server.connections, self.server._idle), (0, {}))

        asyncio.run(asyncio.wait_for(all_of(), PATIENCE))

    async def connect(self, tls=True):
        """A client, or a connection that says nothing yet."""
        streams = await asyncio.open_connection("127.0.0.1", self.server.port, ssl=self.theirs if tls else None)
        self.writers.append(streams[1])
        return Client(*streams)

    @staticmethod
    async def is_ended(it):
        """Whether the gateway has ended a connection, by a reset too."""
        try:
            return await it.is_ended()
        except OSError:
            return True

    async def turned_away(self, count):
        while sum(self.server.turned_away.values()) < count:
            await asyncio.sleep(0.01)

    def test_requests(self):
        """Bodies of any length both ways, on one connection, and its end in order."""
        async def work():
            it = await self.connect()
            for method, path, body in (("PUT", "/one", b""), ("PUT", "/one/k", BYTES[:700_000]), ("GET", "/one/k", b"")):
                reply = await it.ask(method, path, body)
                self.assertEqual(reply.status, 200)
            self.assertEqual(reply.body, BYTES[:700_000])
            self.assertEqual((await it.ask("GET", "/one/none", unsigned={"connection": "close"})).status, 404)
            self.assertTrue(await it.is_ended())

        self.run_server(work)

    def test_a_head_that_is_too_long(self):
        async def work():
            it = await self.connect()
            self.assertEqual((await it.send("GET", "/one", b"", [], {"host": "test", "x": "y" * 40_000})).code, "RequestHeaderSectionTooLarge")

        self.run_server(work)

    def test_who_says_nothing(self):
        """Takes no turn from who comes later, and goes where there are too many."""
        async def work():
            silent = [await self.connect(tls=False) for _ in range(12)]
            self.assertEqual((await (await self.connect()).ask("PUT", "/one")).status, 200)
            ended = [asyncio.ensure_future(self.is_ended(it)) for it in silent]
            await self.turned_away(5)
            self.assertEqual([await it for it in ended[:5]], [True] * 5)  # the oldest
            for it in ended[5:]:
                self.assertFalse(it.done())
                it.cancel()
            self.assertEqual(self.server.turned_away, {"too many handshakes": 5})

        with mock.patch.object(handshakes, "HANDSHAKES", 8), mock.patch.object(server, "HANDSHAKE_SECONDS", PATIENCE):
            self.run_server(work)

    def test_who_begins_and_does_not_go_on(self):
        """Is ended once a handshake has taken too long, in its turn or before it."""
        async def work():
            begun = [await self.connect(tls=False) for _ in range(6)]
            for it in begun:
                it.writer.write(b"\x16")
            await self.turned_away(6)
            self.assertEqual(self.server.turned_away, {"no tls": 6})
            self.assertEqual(await asyncio.gather(*[self.is_ended(it) for it in begun]), [True] * 6)

        with mock.patch.object(server, "HANDSHAKE_SECONDS", 0.3):
            self.run_server(work)

    def test_no_tls(self):
        async def work():
            it = await self.connect(tls=False)
            it.writer.write(b"GET / HTTP/1.1\r\nhost: test\r\n\r\n")
            with contextlib.suppress(OSError):
                while await it.reader.read(1_000):  # an alert
                    pass
            await self.turned_away(1)
            self.assertEqual(self.server.turned_away, {"no tls": 1})

        self.run_server(work)

    def test_an_end_amid_handshakes(self):
        async def work():
            await self.connect(tls=False)
            (await self.connect(tls=False)).writer.write(b"\x16")
            await self.connect()
            await asyncio.sleep(0.05)

        with mock.patch.object(server, "HANDSHAKE_SECONDS", PATIENCE):
            self.run_server(work)

    def test_who_leaves_an_ended_connection_open(self):
        """It goes where another comes."""
        async def work():
            it = await self.connect()
            it.writer.transport.pause_reading()  # so that it never sees the end
            it.writer.write(b"GET / HTTP/1.1\r\nhost: test\r\nconnection: close\r\n\r\n")
            while not self.server._idle:
                await asyncio.sleep(0.01)
            self.assertEqual((await (await self.connect()).ask("PUT", "/one")).status, 200)

        with mock.patch.object(server, "CONNECTIONS", 1):
            self.run_server(work)


if __name__ == "__main__":
    unittest.main()
