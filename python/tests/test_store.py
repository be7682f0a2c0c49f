"""A store over plain drives in memory: what is put, what is refused, what is cut, and what a start finds."""
import asyncio
import copy
import hashlib
import os
import tempfile
import unittest
from unittest import mock

from s4d import wire
from s4d.store import contents, layout
from s4d.store.contents import Gone, StoreFull
from s4d.doors import Door, Seats
from s4d.store.drives import DriveAway, StoreDrive
from s4d.store.layout import Piece
from s4d.store.service import Service
from s4d.store.sessions import session_at
from s4d.store.store import BucketThere, BucketUsed, Doubt, NoBucket, contents_of
from s4d.store.upload_records import Part, PartOf, Upload, part_record, record_in, upload_record
from s4d.store.uploads import LEAST_PART, NoPart, NoUpload, PartTooSmall, TooManyUploads, UploadTooLarge, Uploads
from s4d.store.uploads_found import FoundUploads

from .bridged import PATIENCE
from .plain_store import Clock, PlainStores

BYTES = bytes(range(256)) * 4_096


async def body(data, step=65_536):
    for start in range(0, len(data), step):
        yield data[start:start + step]


async def cut_body(data):
    yield data
    raise ConnectionError("the client has gone")


async def got(store, entry, first=0, last=2**60):
    return b"".join([data async for data in store.stream(entry, first, last)])


class Stores(unittest.TestCase):
    """A store of two drives in memory, which each test starts as often as it needs it."""

    options = {}

    def setUp(self):
        self.stores = PlainStores(**self.options)

    def run_store(self, *works):
        """Each work has the store of a start of its own."""
        async def served():
            for work in works:
                store = await self.stores.start()
                await work(store)
                await store.close()

        asyncio.run(asyncio.wait_for(served(), PATIENCE))

    def live(self):
        return self.stores.live()


class Puts(Stores):
    def test_what_is_put_is_there(self):
        sizes = (0, 1, 400, 401, 24_577, 98_304, 98_305, 900_000)

        async def put(store):
            await store.create_bucket("one")
            for size in sizes:
                entry = await store.put("one", f"k{size}", body(BYTES[:size]), {"content-type": "text/plain"})
                self.assertEqual(await got(store, entry), BYTES[:size])

        async def get(store):
            bucket = store.bucket("one")
            self.assertEqual(bucket.live, sorted(f"k{size}" for size in sizes))
            for size in sizes:
                entry = bucket.current(f"k{size}")
                self.assertEqual(await got(store, entry), BYTES[:size])
                self.assertEqual(await got(store, entry, 98_300, 98_400), BYTES[:size][98_300:98_401])
                self.assertEqual(entry.version.headers, {"content-type": "text/plain"})

        self.run_store(put, get)
        self.assertEqual(self.live(), {"B": 1, "H": 8, "P": 5 + 10 + 1})  # the last has its list in a piece

    def test_versions(self):
        ids = []

        async def put(store):
            await store.create_bucket("one")
            for size in (300_000, 5, 0):
                ids.append((await store.put("one", "k", body(BYTES[:size]), {})).version.id)
            ids.append((await store.delete("one", "k")).version.id)

        async def get(store):
            bucket = store.bucket("one")
            self.assertEqual((bucket.names, bucket.live), (["k"], []))
            entries = bucket.keys["k"]
            self.assertEqual([it.version.id for it in entries], ids)
            self.assertEqual([it.version.sequence for it in entries], [1, 2, 3, 4])
            self.assertTrue(entries[3].version.is_marker)
            for entry, size in zip(entries, (300_000, 5, 0)):
                self.assertEqual(await got(store, entry), BYTES[:size])
            with self.assertRaises(BucketUsed):
                await store.delete_bucket("one")

        self.run_store(put, get)
        self.assertEqual(self.live(), {"B": 1, "H": 1})

    def test_a_put_that_is_cut(self):
        async def cut(store):
            await store.create_bucket("one")
            with self.assertRaises(ConnectionError):
                await store.put("one", "k", cut_body(BYTES[:200_000]), {})
            with self.assertRaises(NoBucket):
                await store.put("two", "k", body(b""), {})
            self.assertEqual(store.bucket("one").names, [])

        self.run_store(cut)
        self.assertEqual(self.live(), {"B": 1})

    def test_buckets(self):
        async def make(store):
            for name in ("one", "two"):
                await store.create_bucket(name)
            with self.assertRaises(BucketThere):
                await store.create_bucket("one")
            await store.delete_bucket("two")
            with self.assertRaises(NoBucket):
                store.bucket("two")

        async def look(store):
            self.assertEqual(list(store.index.buckets), ["one"])

        self.run_store(make, look)

    def test_a_put_that_is_cancelled_once_its_head_is_written(self):
        """Its version is there, and so are its pieces and their list."""
        async def cancelled(store, work):
            before = len(store.bucket("one").keys.get("k", ()))
            task = asyncio.ensure_future(work)
            while len(store.bucket("one").keys.get("k", ())) == before:
                await asyncio.sleep(0)
            task.cancel()
            with self.assertRaises(asyncio.CancelledError):
                await task
            await store.close()
            self.assertEqual(self.live()["P"], 4)

        async def put(store):
            await store.create_bucket("one")
            await cancelled(store, store.put("one", "k", body(BYTES[:3_000]), {}))
            uploads = Uploads(store, 2**30)
            it = await uploads.begin("one", "k", {}, "me")
            part = await uploads.put_part(it, 1, body(BYTES[:3_000]))
            await cancelled(store, uploads.complete(it, [(1, part.etag)]))

        with mock.patch.object(contents, "PIECE_BYTES", 1_000), mock.patch.object(layout, "NAMED_PIECES", 2), \
                mock.patch("s4d.store.store.APART", 10_000_000):
            self.run_store(put)

    def test_many_puts_of_a_key_at_once(self):
        async def put(store):
            await store.create_bucket("one")
            await asyncio.gather(*[store.put("one", "k", body(BYTES[:size]), {}) for size in range(395, 405)])
            entries = store.bucket("one").keys["k"]
            self.assertEqual([it.version.sequence for it in entries], list(range(1, 11)))
            self.assertEqual(sorted(it.version.size for it in entries), list(range(395, 405)))
            for entry in entries:
                self.assertEqual(await got(store, entry), BYTES[:entry.version.size])

        self.run_store(put)


class Full(Stores):
    def test_a_head_without_room_goes_on_elsewhere(self):
        async def put(store):
            await store.create_bucket("one")
            for size in range(12):
                await store.put("one", "k", body(BYTES[:size]), {})

        async def get(store):
            entries = store.bucket("one").keys["k"]
            self.assertEqual([it.version.size for it in entries], list(range(12)))
            self.assertEqual(len({it.head for it in entries}), 3)
            self.assertEqual(await got(store, entries[4]), BYTES[:4])

        self.stores = PlainStores(chain=5)
        self.run_store(put, get)

    def test_the_next_drive_has_room(self):
        async def put(store):
            await store.create_bucket("one")
            with self.assertRaises(StoreFull):
                for number in range(10):
                    await store.put("one", f"k{number}", body(BYTES[:90_000]), {})
            keys = store.bucket("one").live
            self.assertEqual(len(keys), 4)
            self.assertEqual({it.drive for key in keys for it in store.bucket("one").current(key).version.pieces}, {0, 1})
            for key in keys:
                self.assertEqual(await got(store, store.bucket("one").current(key)), BYTES[:90_000])

        self.stores = PlainStores(room=200_000)
        self.run_store(put)
        self.assertEqual(self.live(), {"B": 1, "H": 4, "P": 4})


class Away(Stores):
    def test_a_drive_that_is_away(self):
        """What it has isn't there meanwhile; all else is, and new pieces go to others."""
        async def put(store):
            await store.create_bucket("one")
            for number in range(6):
                await store.put("one", f"k{number}", body(BYTES[:300]), {})
            away = store.pieces.drives[1]
            heads = {key: store.bucket("one").current(key).head.drive for key in store.bucket("one").live}
            self.assertEqual(set(heads.values()), {0, 1})
            away.is_away = True
            for key, drive in heads.items():
                if drive == 1:
                    with self.assertRaises(DriveAway):
                        await store.put("one", key, body(b"new"), {})
                else:
                    await store.put("one", key, body(BYTES[:200_000]), {})
                    self.assertEqual({it.drive for it in store.bucket("one").current(key).version.pieces}, {0})

        self.run_store(put)

    def test_a_head_whose_reply_is_lost(self):
        """Nobody knows whether it was written: so its pieces stay, and who asks for the key next looks."""
        async def put(store):
            await store.create_bucket("one")
            await store.put("one", "k", body(b"old"), {})
            drive = store.pieces.drives[store.bucket("one").current("k").head.drive]
            asked = []
            with self.assertRaises(DriveAway):  # its head's, not its piece's, before which it is asked, too
                await store.put("one", "k", body(BYTES[:500]), {}, lambda _: setattr(drive, "loses", 4 if asked else None) or asked.append(1))
            self.assertTrue(store.is_doubtful("one", "k", store._doubts["one", "k"].version.pieces))
            self.assertEqual(self.live()["P"], 1)
            drive.is_away = True
            with self.assertRaises(DriveAway):
                await store.settle("one", "k")
            drive.is_away = False
            await store.settle("one", "k")
            self.assertEqual(await got(store, store.bucket("one").current("k")), BYTES[:500])
            await store.put("one", "k", body(b"newer"), {})
            self.assertEqual([it.version.sequence for it in store.bucket("one").keys["k"]], [1, 2, 3])

        async def look(store):
            self.assertEqual([await got(store, it) for it in store.bucket("one").keys["k"]], [b"old", BYTES[:500], b"newer"])

        self.run_store(put, look)

    def test_a_head_that_was_not_written(self):
        async def put(store):
            await store.create_bucket("one")
            before = await store.put("one", "k", body(b"old"), {})
            store._doubts["one", "k"] = Doubt(before.version._replace(sequence=2, id="0"), before.head)
            await store.settle("one", "k")
            self.assertEqual(store.bucket("one").keys["k"], [before])

        self.run_store(put)

    def test_puts_while_a_doubt_can_not_be_settled(self):
        """They leave no pieces, and an upload stays."""
        async def put(store):
            await store.create_bucket("one")
            entry = await store.put("one", "k", body(b"mill"), {})
            uploads = Uploads(store, 2**30)
            it = await uploads.begin("one", "k", {}, "me")
            part = await uploads.put_part(it, 1, body(BYTES[:1_000]))
            drive = store.pieces.drives[entry.head.drive]
            drive.loses = 4
            with self.assertRaises(DriveAway):
                await store.put("one", "k", body(b"moor"), {})
            drive.is_away = True
            other, = [number for number in (0, 1) if number != drive.number]
            before = self.stores.drives[other].live(b"P")
            for _ in range(3):
                with self.assertRaises(DriveAway):
                    await store.put("one", "k", body(BYTES[:1_000]), {})
                with self.assertRaises(DriveAway):
                    await uploads.complete(it, [(1, part.etag)])
            self.assertEqual(self.stores.drives[other].live(b"P"), before)
            drive.is_away = False
            entry = await uploads.complete(it, [(1, part.etag)])
            self.assertEqual(entry.version.sequence, 3)
            self.assertEqual(await got(store, entry), BYTES[:1_000])

        self.run_store(put)

    def test_two_doubts_of_a_key(self):
        """What was read for the first says nothing of the second."""
        async def put(store):
            await store.create_bucket("one")
            entry = await store.put("one", "k", body(b"mill"), {})
            first, second = (Doubt(entry.version._replace(id=id), entry.head) for id in ("first", "second"))
            store._doubts["one", "k"] = first
            drive = store.pieces.drives[entry.head.drive]
            ask = drive.ask

            async def asked(work):
                store._doubts["one", "k"] = second
                return await ask(work)

            drive.ask = asked
            await store.settle("one", "k")
            self.assertEqual(store._doubts, {("one", "k"): second})

        self.run_store(put)

    def test_a_bucket_that_is_gone(self):
        """Who deletes its object, by a session of the drive, doesn't make a start delete what its keys have."""
        async def put(store):
            place = (await store.create_bucket("one")).place
            await store.put("one", "k", body(BYTES[:1_000]), {})
            self.stores.drives[place.drive].answer("client", wire.delete(place.object).body)

        async def look(store):
            self.assertEqual(store.index.buckets, {})

        with mock.patch("s4d.store.loading.say"):
            self.run_store(put, look)
        self.assertEqual(self.live(), {"H": 1, "P": 1})

    def test_a_head_that_can_not_be_read(self):
        """Nobody knows which pieces it names: those of its key stay, of others they go."""
        async def put(store):
            await store.create_bucket("one")
            for key in ("k", "l"):
                for _ in range(2):
                    await store.pieces.put(layout.piece_attribute("one", key), b"mill")
            entry = await store.put("one", "k", body(b"mill"), {})
            self.stores.drives[entry.head.drive].answer("client", wire.write(entry.head.object, 0, b"S4H2").body)

        async def look(store):
            self.assertEqual(self.stores.collected, 2)

        with mock.patch("s4d.store.loading.say") as say:
            self.run_store(put, look)
        self.assertEqual(self.live(), {"B": 1, "H": 1, "P": 2})
        self.assertIn("no head begins there; the pieces of its key are left as they are", say.call_args[0][0])

    def test_what_else_loses_its_reply(self):
        """A bucket, a head, a piece that were made, and nobody knows: the next start finds and deletes them."""
        async def put(store):
            for drive in store.pieces.drives:
                drive.loses = 1
            with self.assertRaises(DriveAway):
                await store.create_bucket("one")
            for drive in store.pieces.drives:
                drive.loses = None
            await store.create_bucket("one")
            for size in (5, 500):
                for drive in store.pieces.drives:
                    drive.loses = 1
                with self.assertRaises(DriveAway):
                    await store.put("one", "k", body(BYTES[:size]), {})
            self.assertEqual(self.live(), {"B": 2, "H": 1, "P": 1})

        async def look(store):
            self.assertEqual(self.stores.collected, 3)
            self.assertEqual(list(store.index.buckets), ["one"])

        self.run_store(put, look)
        self.assertEqual(self.live(), {"B": 1})


class Sessions(unittest.TestCase):
    """What the sessions of a drive leave open."""

    def test_an_opening_that_is_cancelled(self):
        """Neither end of its pipes stays open, wherever it was: a service has places for sixteen sessions."""
        async def cancelled(door, steps):
            opening = asyncio.ensure_future(session_at(door, 1.0))
            for _ in range(steps):
                await asyncio.sleep(0)
            opening.cancel()
            await asyncio.wait({opening})
            for _ in range(5):
                await asyncio.sleep(0)
            return opening.cancelled(), len(os.listdir("/proc/self/fd"))

        async def work(folder):
            os.mkfifo(f"{folder}/door")
            read = os.open(f"{folder}/door", os.O_RDONLY | os.O_NONBLOCK)
            door = Door("client", folder, Seats(0, 0, 0.0))
            found = [await cancelled(door, steps) for steps in range(20)]
            os.close(read)
            self.assertEqual(found, [found[0]] * 20)
            self.assertTrue(found[0][0])
            self.assertEqual(os.listdir(folder), ["door"])

        with tempfile.TemporaryDirectory() as folder:
            asyncio.run(work(folder))

    def test_a_session_that_nobody_waits_for(self):
        """It is closed, where it was opened while who asked for it was cancelled."""
        async def cancelled(service, steps):
            drive = mock.Mock(close=mock.AsyncMock())
            with mock.patch("s4d.store.service.session_at", mock.AsyncMock(return_value=drive)) as session_at:
                asking = asyncio.ensure_future(service.session(1.0))
                for _ in range(steps):
                    await asyncio.sleep(0)
                asking.cancel()
                await asyncio.wait({asking})
                for _ in range(5):
                    await asyncio.sleep(0)
                kept = 0 if asking.cancelled() else 1
                return session_at.await_count - drive.close.await_count - kept

        async def work():
            service = Service("/nowhere", 0, "s4serve", None)
            self.assertEqual([await cancelled(service, steps) for steps in range(10)], [0] * 10)

        asyncio.run(work())

    def test_what_goes_wrong_in_one_takes_none(self):
        async def ask():
            service = mock.Mock(session=mock.AsyncMock(return_value="a session"))
            drive = StoreDrive(0, service)
            drive.is_served = True

            async def wrong(_session):
                raise ValueError("what is asked for is no request")

            for _ in range(3):
                with self.assertRaises(ValueError):
                    await drive.ask(wrong)
            self.assertEqual((service.session.await_count, drive._idle), (1, ["a session"]))

        asyncio.run(ask())


class Windows(Stores):
    WINDOW = 1_000_000_000

    def setUp(self):
        clock = Clock()
        self.stores = PlainStores(window=self.WINDOW, clock=clock)
        for module in ("store", "loading"):
            patch = mock.patch(f"s4d.store.{module}.machine_time", clock)
            patch.start()
            self.addCleanup(patch.stop)

    def test_what_the_window_has_left(self):
        """Versions that were replaced leave, with heads that nothing needs; what is current stays, however old."""
        async def put(store):
            await store.create_bucket("one")
            old = await store.put("one", "k", body(BYTES[:100_000]), {})
            await store.put("one", "k", body(BYTES[:99_000]), {})
            await store.put("one", "gone", body(b"x"), {})
            await store.delete("one", "gone")
            self.stores.clock.value += 2 * self.WINDOW
            entry = store.bucket("one").current("k")
            self.assertEqual(await got(store, entry), BYTES[:99_000])  # its moments have expired
            with self.assertRaises(Gone):
                await got(store, old)
            heads = store.index.expire(self.stores.clock())
            self.assertEqual(len(heads), 1)
            self.assertEqual(store.bucket("one").names, ["k"])

        async def look(store):
            entry, = store.bucket("one").keys["k"]
            self.assertEqual(await got(store, entry), BYTES[:99_000])
            self.assertEqual(self.stores.collected, 1)  # the head of the key that was deleted

        self.run_store(put, look)
        self.assertEqual(self.live(), {"B": 1, "H": 1, "P": 2})

    def test_a_key_that_is_put_while_its_marker_leaves(self):
        """Its head isn't deleted once it is written."""
        async def put(store):
            await store.create_bucket("one")
            await store.put("one", "k", body(b"x"), {})
            drive = store.pieces.drives[(await store.delete("one", "k")).head.drive]
            self.stores.clock.value += 2 * self.WINDOW
            ask = drive.ask

            async def asked(work):
                found = await ask(work)
                looking = asyncio.ensure_future(store.look_after())
                await asyncio.sleep(0.01)
                looking.cancel()
                return found

            drive.ask = asked
            await store.put("one", "k", body(b"y"), {})
            drive.ask = ask

        async def look(store):
            entry, = [it for it in store.bucket("one").keys["k"] if it.until is None]
            self.assertEqual(await got(store, entry), b"y")

        self.run_store(put, look)

    def test_a_marker_whose_head_stays(self):
        """Its drive was away when it left the window, and the key was put again: that is what the next start finds."""
        async def put(store):
            await store.create_bucket("one")
            for _ in range(3):
                await store.put("one", "k", body(b"x"), {})
            drive = store.pieces.drives[(await store.delete("one", "k")).head.drive]
            self.stores.clock.value += 2 * self.WINDOW
            drive.is_away = True
            left = store.index.expire(self.stores.clock())
            await store.pieces.delete([Piece(*place, 0, 0) for place in left])
            entry = await store.put("one", "k", body(BYTES[:1_000]), {})
            self.assertNotEqual(entry.head.drive, drive.number)

        async def look(store):
            self.assertEqual(await got(store, store.bucket("one").current("k")), BYTES[:1_000])

        self.run_store(put, look, look)
        self.assertEqual(self.live(), {"B": 1, "H": 1, "P": 1})

    def test_an_old_version_is_read_at_a_later_moment(self):
        """Its piece's own moment has expired, and it was current until a moment that can be read."""
        async def put(store):
            await store.create_bucket("one")
            old = await store.put("one", "k", body(BYTES[:1_000]), {})
            self.stores.clock.value += 2 * self.WINDOW
            await store.put("one", "k", body(b""), {})
            await store.close()
            self.stores.clock.value += self.WINDOW // 2
            self.assertEqual(await got(store, old), BYTES[:1_000])
            self.stores.clock.value += self.WINDOW
            with self.assertRaises(Gone):
                await got(store, old)

        self.run_store(put)


class Uploading(Stores):
    def test_parts(self):
        last = BYTES[:1_000]
        first = BYTES * (LEAST_PART // len(BYTES))

        async def put(store):
            await store.create_bucket("one")
            uploads = Uploads(store, 2**30)
            it = await uploads.begin("one", "k", {"content-type": "a/b"}, "me")
            parts = [await uploads.put_part(it, number, body(data)) for number, data in ((3, last), (1, first), (2, b"unused"))]
            with self.assertRaises(NoPart):
                await uploads.complete(it, [(1, parts[0].etag)])
            with self.assertRaises(PartTooSmall):
                await uploads.complete(it, [(2, parts[2].etag), (3, parts[0].etag)])
            entry = await uploads.complete(it, [(1, parts[1].etag), (3, parts[0].etag)])
            self.assertEqual(entry.version.etag[-2:], "-2")
            self.assertEqual(await got(store, entry), first + last)
            with self.assertRaises(NoUpload):
                await uploads.put_part(it, 1, body(b""))
            aborted = await uploads.begin("one", "k", {}, "me")
            await uploads.put_part(aborted, 1, body(last))
            await uploads.abort(aborted)
            with self.assertRaises(NoUpload):
                await uploads.abort(aborted)

        async def get(store):
            entry = store.bucket("one").current("k")
            self.assertEqual(entry.version.headers, {"content-type": "a/b"})
            self.assertEqual(await got(store, entry), first + last)

        self.run_store(put, get)
        self.assertEqual(self.live(), {"B": 1, "H": 1, "P": -(-LEAST_PART // 98_304) + 2})

    def test_an_upload_that_goes_on_after_a_start(self):
        """It has the parts that it had, of each number the last, and so has who completes it."""
        async def begin(store):
            await store.create_bucket("one")
            uploads = Uploads(store, 2**30)
            self.upload = await uploads.begin("one", "k", {"content-type": "a/b"}, "me")
            with mock.patch.object(uploads, "_delete"):  # the part that is replaced stays on its drives
                for number, size in ((1, 300_000), (2, 5), (1, 200_000), (3, 0)):
                    await uploads.put_part(self.upload, number, body(BYTES[:size]))

        async def go_on(store):
            self.assertEqual(self.stores.collected, 1 + 4)
            self.assertEqual(self.stores.uploads, [self.upload])
            uploads = Uploads(store, 2**30, self.stores.uploads)
            self.assertEqual(uploads.in_bucket("one"), [self.upload])
            it = uploads.of("one", "k", self.upload.id)
            part = await uploads.put_part(it, 2, body(BYTES[:7]))
            self.assertEqual(sorted((number, part.size) for number, part in it.parts.items()), [(1, 200_000), (2, 7), (3, 0)])
            with mock.patch("s4d.store.uploads.LEAST_PART", 7):
                entry = await uploads.complete(it, [(1, it.parts[1].etag), (2, part.etag)])
            self.assertEqual(await got(store, entry), BYTES[:200_000] + BYTES[:7])
            self.assertEqual(entry.version.headers, {"content-type": "a/b"})

        async def look(store):
            self.assertEqual((self.stores.uploads, self.stores.collected), ([], 0))
            entry = store.bucket("one").current("k")
            self.assertIs(Uploads(store, 2**30).version_of("one", "k", self.upload.id), entry)
            self.assertEqual(await got(store, entry), BYTES[:200_000] + BYTES[:7])

        self.run_store(begin, go_on, look)
        self.assertEqual(self.live(), {"B": 1, "H": 1, "P": 4})

    def test_records_that_outlast_their_upload(self):
        """Their drive was away when it was completed: the next start deletes them, and not the pieces of the version."""
        async def complete(store):
            await store.create_bucket("one")
            uploads = Uploads(store, 2**30)
            it = await uploads.begin("one", "k", {}, "me")
            part = await uploads.put_part(it, 1, body(BYTES[:1_000]))
            with mock.patch.object(uploads, "_delete_records"):
                await uploads.complete(it, [(1, part.etag)])
            entry = await store.relabel(store.bucket("one").current("k"), {"content-type": "a/b"}, lambda _: None)
            self.assertEqual(entry.version.upload, "")

        async def forget(store):
            self.assertEqual((self.stores.uploads, self.stores.collected), ([], 2))

        async def without_the_version(store):
            """Where the version that says so has left the window the pieces say it."""
            self.assertEqual([it.parts for it in self.stores.uploads], [{}])
            self.assertEqual(await got(store, store.bucket("one").current("k")), BYTES[:1_000])

        take = FoundUploads.take
        self.run_store(complete)
        drives = copy.deepcopy(self.stores.drives)
        self.run_store(forget)
        self.assertEqual(self.live(), {"B": 1, "H": 1, "P": 1})
        self.stores.drives = drives
        with mock.patch.object(FoundUploads, "take", lambda it, *words: it._complete.clear() or take(it, *words)):
            self.run_store(without_the_version)

    def test_a_head_whose_reply_is_lost(self):
        """Who completes it once more has the version, and nobody can change or end the upload then."""
        async def put(store):
            await store.create_bucket("one")
            uploads = Uploads(store, 2**30)
            entry = await store.put("one", "k", body(b"mill"), {})
            for ask in ("complete", "put_part", "abort"):
                it = await uploads.begin("one", "k", {}, "me")
                part = await uploads.put_part(it, 1, body(BYTES[:1_000]))
                drive = store.pieces.drives[entry.head.drive]
                drive.loses = 4
                with self.assertRaises(DriveAway):
                    await uploads.complete(it, [(1, part.etag)])
                if ask == "complete":
                    self.assertEqual((await uploads.complete(it, [(1, part.etag)])).version.upload, it.id)
                elif ask == "put_part":
                    with self.assertRaises(NoUpload):
                        await uploads.put_part(it, 1, body(b"moor"))
                else:
                    with self.assertRaises(NoUpload):
                        await uploads.abort(it)
                entry = store.bucket("one").current("k")
                self.assertEqual((entry.version.upload, await got(store, entry)), (it.id, BYTES[:1_000]))
                self.assertEqual(uploads.in_bucket("one"), [])

        async def look(store):
            self.assertEqual(self.stores.uploads, [])

        self.run_store(put, look)
        self.assertEqual(self.live(), {"B": 1, "H": 1, "P": 1})

    def test_uploads_that_nobody_completes(self):
        """They go after some days, with their parts."""
        async def put(store):
            await store.create_bucket("one")
            uploads = Uploads(store, 2**30)
            old, new = [await uploads.begin("one", key, {}, "me") for key in ("k", "l")]
            await uploads.put_part(old, 1, body(BYTES[:1_000]))
            old.time -= 7 * 86_400_000_000
            looking = asyncio.ensure_future(uploads.look_after())
            while self.live() != {"B": 1, "U": 1}:
                await asyncio.sleep(0)
            looking.cancel()
            self.assertEqual(uploads.in_bucket("one"), [new])

        self.run_store(put)

    def test_records(self):
        pieces = [Piece(number % 64, number + 1, 2**50 + number, 98_304) for number in range(700)]
        upload = Upload("0f", "one", "a/ü", {"content-type": "a/b"}, "me", 5)
        part = Part(3, sum(it.size for it in pieces), "d41d", pieces, 6)
        for it, data in ((upload, upload_record(upload)), (PartOf("0f", part), part_record(upload, part))):
            self.assertEqual(record_in(data), it)
            for end in (*range(100), len(data) - 1):
                with self.assertRaises(layout.BadHead):
                    record_in(data[:end])
            for old, new in ((b"S4U1", b"S4H1"), (b"S4V1", b"S4U1"), (b'"time":', b'"tame":'), (b'"headers":{', b'"headers":['),
                             (b'"size":6', b'"size":7')):
                if old in data:
                    with self.subTest(new), self.assertRaises(layout.BadHead):
                        record_in(data.replace(old, new, 1))
        with self.assertRaises(layout.TooLong):
            upload_record(Upload("0f", "one", "k", {"a": "x" * layout.HEAD_BYTES}, "me", 5))

    def test_how_much_an_upload_holds(self):
        """Who begins uploads and ends none leaves room for others, and none holds what no version has room for."""
        async def put(store):
            await store.create_bucket("one")
            uploads = Uploads(store, 1_500)
            it = [await uploads.begin("one", "k", {}, "me") for _ in range(2)][0]
            with self.assertRaises(TooManyUploads):
                await uploads.begin("one", "k", {}, "me")
            await uploads.begin("one", "k", {}, "other")
            await uploads.put_part(it, 1, body(BYTES[:1_000]))
            for number, size in ((2, 501), (1, 1_501)):
                with self.assertRaises(UploadTooLarge):
                    await uploads.put_part(it, number, body(BYTES[:size]))
            self.assertEqual(self.live()["P"], 1)
            for number, size in ((1, 1_001), (2, 1), (3, 1)):
                await uploads.put_part(it, number, body(BYTES[:size]))
            with self.assertRaises(UploadTooLarge):
                await uploads.put_part(it, 4, body(b""))
            self.assertEqual(sorted(it.parts), [1, 2, 3])

        with mock.patch("s4d.store.uploads.UPLOADS_OF_ONE", 2), mock.patch("s4d.store.uploads.PARTS_OF_ONE", 3):
            self.run_store(put)


class Kills(Stores):
    """A program that puts is killed at each of its requests, before the drive has done it, or after."""

    async def scenario(self, store, acknowledged):
        """What is acknowledged is noted; None for a marker."""
        if "one" not in store.index.buckets:
            await store.create_bucket("one")
        for size in (5, 1_500, 3_500, 7, 2_500, 4_500):
            entry = await store.put("one", "k", body(BYTES[:size]), {})
            acknowledged[entry.version.id] = size
        old = store.bucket("one").keys["k"][2]
        acknowledged[(await store.put("one", "k", store.stream(old, 0, old.version.size - 1), {})).version.id] = 3_500
        acknowledged[(await store.delete("one", "k")).version.id] = None
        uploads = Uploads(store, 2**30)
        it = await uploads.begin("one", "k", {}, "me")
        for number, size in ((1, 400), (2, 500), (2, 1_500)):
            part = await uploads.put_part(it, number, body(BYTES[:size]))
            self.parts[number] = part.etag
        self.parts = {}
        entry = await uploads.complete(it, [(2, part.etag)])
        acknowledged[entry.version.id] = 1_500
        other = await uploads.begin("one", "k", {}, "me")
        await uploads.put_part(other, 1, body(BYTES[:700]))
        await uploads.abort(other)
        await store.close()

    async def check_uploads(self, store):
        """Those that are there have the parts that were acknowledged, and bytes: how many records and pieces they need."""
        records = pieces = 0
        for upload in self.stores.uploads:
            etags = {number: part.etag for number, part in upload.parts.items()}
            self.assertLessEqual(set(self.parts), set(etags))
            self.assertTrue(self.parts.items() <= etags.items() or len(self.parts) == 2)  # the last part may be the next one
            for part in upload.parts.values():
                data = b"".join([await store.pieces.read(piece, Life()) for piece in part.pieces])
                self.assertEqual((data, part.etag), (BYTES[:part.size], hashlib.md5(data).hexdigest()))
            records += 1 + len(upload.parts)
            pieces += sum(len(part.pieces) for part in upload.parts.values())
        self.assertTrue(self.stores.uploads or not self.parts)
        return records, pieces

    async def check(self, store, acknowledged):
        entries = store.bucket("one").keys.get("k", []) if "one" in store.index.buckets else []
        self.assertEqual([it.version.id for it in entries][:len(acknowledged)], list(acknowledged))
        self.assertLessEqual(len(entries), len(acknowledged) + 1)  # one may be there that nobody was told of
        for entry in entries:
            size = acknowledged.get(entry.version.id, None if entry.version.is_marker else entry.version.size)
            self.assertEqual(entry.version.is_marker, size is None)
            self.assertEqual(await got(store, entry), BYTES[:size or 0])
        named = 0
        if entries:
            pieces, lists = await store.pieces.all_of(contents_of(entries[-1].version), entries[-1])
            named = len(pieces) + len(lists)
        records, parts = await self.check_uploads(store)
        right = {"B": len(store.index.buckets), "H": min(len(entries), 1), "P": named + parts, "U": records}
        self.assertEqual(self.live(), {kind: count for kind, count in right.items() if count})

    async def kill(self, number, is_done):
        """Whether the program was killed at this request, before it had ended by itself."""
        self.stores, acknowledged, self.parts = PlainStores(), {}, {}
        store = await self.stores.start()
        left = [number]
        for drive in store.pieces.drives:
            drive.ask = killing(drive.ask, left, is_done)
        try:
            await self.scenario(store, acknowledged)
        except Killed:
            pass
        await self.check(await self.stores.start(), acknowledged)
        return left[0] < 0

    def test_kills(self):
        async def all_of():
            asyncio.get_running_loop().set_exception_handler(lambda *_: None)  # what a killed program leaves unsaid
            for is_done in (False, True):
                number = 0
                while await self.kill(number, is_done):
                    number += 1
                self.assertGreater(number, 80)

        with mock.patch.object(contents, "PIECE_BYTES", 1_000), mock.patch.object(layout, "NAMED_PIECES", 2):
            asyncio.run(asyncio.wait_for(all_of(), 5 * PATIENCE))


class Life:
    """That of what is current, and was never moved."""

    until = moved = None


class Killed(BaseException):
    """The program is no more."""


def killing(ask, left, is_done):
    """Asks of a drive of a program that is killed at the request at which `left` is zero."""
    async def asked(work):
        left[0] -= 1
        if left[0] < -1 or (left[0] == -1 and not is_done):
            raise Killed()
        found = await ask(work)
        if left[0] <= -1:
            raise Killed()
        return found

    return asked


if __name__ == "__main__":
    unittest.main()
