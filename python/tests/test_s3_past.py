"""Reads at a moment: what the header x-s4-at, and a gateway of a moment, have of what was there then."""
import asyncio
import unittest
from datetime import datetime, timezone

from s4d.moments import machine_time
from s4d.s3.errors import S3Error
from s4d.s3.gateway import Gateway
from s4d.s3.past import moment_asked, moment_in
from s4d.s3.server import Server

from .bridged import PATIENCE
from .plain_store import DAY
from .s3_client import OWNER, Client
from .test_s3 import with_client
from .test_store import BYTES, Stores, body

AGES = {"s": 1, "m": 60, "h": 3_600, "d": 86_400, "w": 604_800}


async def put(it, path, data):
    """Puts, and gives a moment after it, before all that comes later."""
    reply = await it.ask("PUT", path, data)
    assert reply.status == 200, reply.body
    await asyncio.sleep(0.003)
    moment = machine_time()
    await asyncio.sleep(0.003)
    return str(moment)


class Moments(unittest.TestCase):
    def test_what_is_a_moment(self):
        time = int(datetime(2026, 11, 27, 13, 18, 2, tzinfo=timezone.utc).timestamp()) * 1_000_000
        for text, moment in (("0", 0), ("12", 12), ("2026-11-27T13:18:02Z", time), ("2026-11-27T13:18:02.5Z", time + 500_000),
                             ("2026-11-27T13:18:02.000001+00:00", time + 1), ("2026-11-27T14:18:02+01:00", time)):
            self.assertEqual(moment_in(text), moment, text)
        for unit, seconds in AGES.items():
            self.assertAlmostEqual(moment_in(f"2{unit}"), machine_time() - 2 * seconds * 1_000_000, delta=60_000_000)
        for text in ("", "-1", "x", "2026-11-27", "2026-11-27T13:18:02", "2026-13-27T13:18:02Z", "1.5", "0s", "1y", "²", "1" * 20,
                     "0001-01-01T00:00:00+01:00", "1969-12-31T23:59:59Z"):
            with self.assertRaises((ValueError, OverflowError), msg=text):
                moment_in(text)

    def test_what_can_be_read(self):
        now = machine_time()
        self.assertEqual(moment_asked(str(now), DAY), now)
        for text, line in ((str(now - 2 * DAY), "lies before the window, which begins at"), (str(now + DAY), "lies ahead: it is"),
                           ("soon", "is no moment: give a number"), ("0001-01-01T00:00:00+01:00", "")):
            with self.assertRaisesRegex(S3Error, line) as caught:
                moment_asked(text, DAY)
            self.assertEqual(caught.exception.code, "InvalidArgument")


class Reads(unittest.TestCase):
    def test_objects(self):
        async def work(_, it):
            empty = await put(it, "/one/other", b"")
            first = await put(it, "/one/k", BYTES[:200_000])
            second = await put(it, "/one/k", b"moor")
            id = (await it.ask("HEAD", "/one/k")).headers["x-amz-version-id"]
            await it.ask("DELETE", "/one/k")
            for at, status, data in ((empty, 404, None), (first, 200, BYTES[:200_000]), (second, 200, b"moor")):
                reply = await it.ask("GET", "/one/k", x_s4_at=at)
                self.assertEqual((reply.status, reply.code if data is None else reply.body), (status, data or "NoSuchKey"))
            self.assertEqual((await it.ask("GET", "/one/k")).status, 404)
            self.assertEqual((await it.ask("GET", "/one/k", query=[("versionId", id)], x_s4_at=first)).code, "NoSuchVersion")
            self.assertEqual((await it.ask("GET", "/one/k", query=[("versionId", id)], x_s4_at=second)).body, b"moor")
            reply = await it.ask("GET", "/one/k", x_s4_at=first, range="bytes=1-2")
            self.assertEqual((reply.status, reply.body), (206, BYTES[1:3]))

        with_client(work)

    def test_lists(self):
        async def work(_, it):
            moments = [await put(it, f"/one/{name}", name.encode()) for name in ("a/1", "a/2", "b", "a/1")]
            await it.ask("DELETE", "/one/a/1")
            await it.ask("DELETE", "/one/b")
            found = [(await it.ask("GET", "/one", x_s4_at=at)).all("Key") for at in moments]
            self.assertEqual(found, [["a/1"], ["a/1", "a/2"], ["a/1", "a/2", "b"], ["a/1", "a/2", "b"]])
            reply = await it.ask("GET", "/one", query=[("list-type", "2"), ("delimiter", "/"), ("max-keys", "1")], x_s4_at=moments[2])
            self.assertEqual((reply.all("Prefix")[1:], reply.all("Key"), reply.all("IsTruncated")), (["a/"], [], ["true"]))
            token, = reply.all("NextContinuationToken")
            query = [("list-type", "2"), ("continuation-token", token), ("delimiter", "/")]
            reply = await it.ask("GET", "/one", query=query, x_s4_at=moments[2])
            self.assertEqual((reply.all("Key"), reply.all("IsTruncated")), (["b"], ["false"]))
            self.assertEqual((await it.ask("GET", "/one", query=[("delimiter", "/")])).all("Prefix")[1:], ["a/"])
            versions = [("versions", ""), ("max-keys", "2")]
            reply = await it.ask("GET", "/one", query=versions, x_s4_at=moments[3])
            self.assertEqual((reply.all("Key"), reply.all("IsLatest")), (["a/1", "a/1"], ["true", "false"]))
            reply = await it.ask("GET", "/one", query=versions, x_s4_at=moments[0])
            self.assertEqual((reply.all("Key"), reply.all("IsLatest"), reply.all("IsTruncated")), (["a/1"], ["true"], ["false"]))
            self.assertEqual(len((await it.ask("GET", "/one", query=[("versions", "")])).all("IsLatest")), 6)

        with_client(work)

    def test_buckets(self):
        async def work(_, it):
            before = await put(it, "/one/k", b"")
            await it.ask("PUT", "/two")
            self.assertEqual((await it.ask("GET", "/", x_s4_at=before)).all("Name"), ["one"])
            self.assertEqual((await it.ask("GET", "/two", x_s4_at=before)).code, "NoSuchBucket")
            self.assertEqual((await it.ask("GET", "/")).all("Name"), ["one", "two"])

        with_client(work)

    def test_what_is_refused(self):
        async def work(gateway, it):
            at = await put(it, "/one/k", b"mill")
            for method, path, query in (("PUT", "/one/k", []), ("DELETE", "/one/k", []), ("POST", "/one", [("delete", "")]),
                                        ("PUT", "/two", [])):
                reply = await it.ask(method, path, b"moor", query, x_s4_at=at)
                self.assertEqual((reply.status, reply.code), (405, "MethodNotAllowed"), path)
            self.assertEqual((await it.ask("GET", "/one", query=[("uploads", "")], x_s4_at=at)).status, 501)
            ahead, early = (str(machine_time() + step * DAY) for step in (1, -31))
            for text in (ahead, early, "soon", ""):
                reply = await it.ask("GET", "/one/k", x_s4_at=text)
                self.assertEqual((reply.status, reply.code), (400, "InvalidArgument"), text)
            reply = await it.ask("GET", "/one/k", unsigned={"x-s4-at": at}.items())
            self.assertEqual((reply.status, reply.code), (403, "AccessDenied"))
            self.assertEqual((await it.ask("GET", "/one/k")).body, b"mill")
            gateway.store.index.floor = int(at) + 1  # the window goes on after a request was looked at
            self.assertEqual((await it.ask("GET", "/one/k", x_s4_at=at)).code, "InvalidArgument")

        with_client(work)

    def test_a_gateway_of_a_moment(self):
        async def work(gateway, it):
            at = await put(it, "/one/k", b"mill")
            await it.ask("DELETE", "/one/k")
            of_past = Server(Gateway(gateway.store, {OWNER.access: OWNER}, 30 * DAY, None, int(at)), "127.0.0.1", 0, None)
            await of_past.start()
            client = await Client.connect(of_past.port)
            self.assertEqual((await client.ask("GET", "/one/k")).body, b"mill")
            self.assertEqual((await client.ask("GET", "/one")).all("Key"), ["k"])
            self.assertEqual((await client.ask("PUT", "/one/k", b"moor")).status, 405)
            client.writer.close()
            await of_past.close(5)

        with_client(work)


class Cuts(Stores):
    def test_what_is_on_its_way(self):
        """A cut waits for the heads that may have its moment, and for no others."""
        async def look(store):
            await store.create_bucket("one")
            drive = store.pieces.drives[0]
            gate, asks = asyncio.Event(), []

            async def slow(work, before=drive.ask):
                asks.append(work)
                await gate.wait()
                return await before(work)

            for it in store.pieces.drives:
                it.ask = slow
            putting = asyncio.ensure_future(store.put("one", "k", body(b"mill"), {}))
            while not asks:
                await asyncio.sleep(0.001)
            early = machine_time() - 1_000_000
            await asyncio.wait_for(store.cut(early, "one"), PATIENCE)
            cut = asyncio.ensure_future(store.cut(machine_time(), "one"))
            await asyncio.sleep(0.05)
            self.assertFalse(cut.done())
            gate.set()
            await cut
            await putting
            self.assertEqual(store._writing, {})

        self.run_store(look)

    def test_a_moment_of_a_restart(self):
        moments = []

        async def write(store):
            await store.create_bucket("one")
            for data in (b"mill", BYTES[:150_000], b"moor"):
                await store.put("one", "k", body(data), {})
                await asyncio.sleep(0.003)
                moments.append(machine_time())
                await asyncio.sleep(0.003)

        async def read(store):
            sizes = [store.bucket("one", at).current("k", at).version.size for at in moments]
            self.assertEqual(sizes, [4, 150_000, 4])
            self.assertIsNone(store.bucket("one").current("k", moments[0] - 10**6))

        self.run_store(write, read)


if __name__ == "__main__":
    unittest.main()
