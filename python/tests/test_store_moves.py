"""A store to which drives were added: what is moved to them, what stays as it was, and what a kill leaves."""
import asyncio
import copy
import random
import unittest
from unittest import mock

from s4d.errors import NoSpace
from s4d.store import contents, layout
from s4d.store.drives import DriveAway
from s4d.store.rebalance import Rebalance
from s4d.store.store import Moved, contents_of

from .bridged import PATIENCE
from .plain_store import Clock, PlainStores
from .test_store import BYTES, Killed, Stores, body, got, killing

SHORT = mock.patch.object(contents, "PIECE_BYTES", 1_000)
LISTS = mock.patch.object(layout, "NAMED_PIECES", 2)
SIZES = (5, 1_500, 3_500, 7, 2_500, 4_500)


async def filled(store, keys=12):
    """Puts keys, of which some have several versions, and some are deleted."""
    await store.create_bucket("one")
    for number in range(keys):
        for count in range(1 + number % 3):
            await store.put("one", f"k{number}", body(BYTES[:SIZES[(number + count) % len(SIZES)]]), {"content-type": f"a/{count}"})
    await store.delete("one", "k3")


def facts(store):
    """What a client may see of each bucket and version, but for contents."""
    buckets = [(it.name, it.created) for it in store.index.buckets.values()]
    return buckets + [(key, it.version.id, it.version.sequence, it.version.time, it.version.etag, it.version.headers, it.moment, it.until)
            for bucket in store.index.buckets.values() for key in bucket.names for it in bucket.keys[key]]


async def bytes_of(store):
    return [await got(store, it) for bucket in store.index.buckets.values() for key in bucket.names for it in bucket.keys[key]]


async def needed(store):
    """How many objects of each kind the versions of a store need."""
    heads, pieces = {it.head for bucket in store.index.buckets.values() for known in bucket.keys.values() for it in known}, 0
    for bucket in store.index.buckets.values():
        for key in bucket.live:
            entry = bucket.current(key)
            pieces += sum(map(len, await store.pieces.all_of(contents_of(entry.version), entry)))
    found = {"B": len(store.index.buckets), "H": len(heads), "P": pieces}
    return {kind: count for kind, count in found.items() if count}


class Moving(Stores):
    def setUp(self):
        for it in (SHORT, LISTS):
            it.start()
            self.addCleanup(it.stop)
        super().setUp()

    def add(self, count=2, **options):
        self.stores.add(count, **options)


class Rebalanced(Moving):
    def test_all_stays_as_it_was(self):
        """Each version is there once, with its bytes, id, time and moment; and drives have about the same."""
        async def fill(store):
            await filled(store)
            self.before, self.bytes = facts(store), await bytes_of(store)
            self.add()

        async def move(store):
            rebalance = Rebalance(store)
            moves = await rebalance.run()
            self.assertGreater(moves.versions, 4)
            self.assertEqual(moves.kept, 0)
            self.assertLess(max(rebalance.loads), 2 * min(rebalance.loads))  # lists of pieces come wherever it is their turn
            await self.check(store)
            self.assertEqual({it.number for it in store.pieces.drives if self.stores.drives[it.number].live(b"P")}, {0, 1, 2, 3})
            again = await Rebalance(store).run()  # heads are a little longer now
            self.assertLess(again.versions, moves.versions / 2)

        async def look(store):
            self.assertEqual(self.stores.collected, 0)
            await self.check(store)
            entry = await store.put("one", "k5", body(b"new"), {})
            self.assertEqual(entry.version.sequence, 4)
            await store.delete("one", "k0")
            self.before, self.bytes = facts(store), await bytes_of(store)

        self.run_store(fill, move, look, self.check)

    async def check(self, store):
        self.assertEqual(facts(store), self.before)
        self.assertEqual(await bytes_of(store), self.bytes)
        await store.close()
        self.assertEqual(self.live(), await needed(store))

    def test_buckets_and_markers(self):
        """They are moved too, and are there since when they were."""
        async def fill(store):
            for number in range(8):
                await store.create_bucket(f"bucket{number}")
                await store.put("bucket0", f"k{number}", body(b"mill"), {})
                await store.delete("bucket0", f"k{number}")
            self.before, self.bytes = facts(store), await bytes_of(store)
            self.add()

        async def move(store):
            rebalance = Rebalance(store)
            moves = await rebalance.run()
            self.assertLessEqual({2, 3}, {it.place.drive for it in store.index.buckets.values()})
            self.assertLessEqual({2, 3}, {it[-1].head.drive for it in store.bucket("bucket0").keys.values()})
            self.assertIn(f"versions and {moves.buckets} buckets, 0 bytes in pieces", moves.lines(rebalance.loads)[0])
            self.assertEqual((moves.objects, moves.kept), (moves.versions + moves.buckets, 0))
            await self.check(store)

        async def look(store):
            self.assertEqual(self.stores.collected, 0)
            await self.check(store)
            for number in range(1, 8):
                await store.delete_bucket(f"bucket{number}")

        async def look_again(store):
            self.assertEqual(list(store.index.buckets), ["bucket0"])
            self.assertEqual(self.live()["B"], 1)

        self.run_store(fill, move, look, look_again)

    def test_a_kill_at_each_request(self):
        """Nothing is lost, whichever was the last one, and the next run goes on."""
        async def fill(store):
            await filled(store, 7)
            await store.close()
            self.before, self.bytes = facts(store), await bytes_of(store)
            self.add()

        async def kill(drives, number, is_done):
            self.stores.drives = copy.deepcopy(drives)
            store, left = await self.stores.start(), [number]
            for drive in store.pieces.drives:
                drive.ask = killing(drive.ask, left, is_done)
            try:
                await Rebalance(store).run()
            except Killed:
                pass
            for _ in range(2):
                store = await self.stores.start()
                await self.check(store)
                await Rebalance(store).run()
                await self.check(store)
            return left[0] < 0

        async def all_of():
            asyncio.get_running_loop().set_exception_handler(lambda *_: None)  # what a killed program leaves unsaid
            await fill(await self.stores.start())
            drives = self.stores.drives
            for is_done in (False, True):
                number = 0
                while await kill(drives, number, is_done):
                    number += 1
                self.assertGreater(number, 40)

        asyncio.run(asyncio.wait_for(all_of(), 5 * PATIENCE))

    def test_changes_meanwhile(self):
        """Puts, deletions and new headers of the keys that are moved: each is there, and nothing is left."""
        draw, known = random.Random(1), {}

        async def fill(store):
            await filled(store, 30)
            self.add()

        async def change(store):
            for count in range(40):
                key = f"k{draw.randrange(30)}"
                entry = store.bucket("one").live_version(key, None)
                if entry is not None and count % 3 == 0:
                    data = await got(store, entry)
                    made = await store.relabel(entry, {"content-type": str(count)}, lambda _: None)
                    known[made.version.id] = data
                elif entry is not None and count % 7 == 0:
                    await store.delete("one", key)
                else:
                    data = BYTES[:draw.choice(SIZES)]
                    known[(await store.put("one", key, body(data), {})).version.id] = data

        async def move(store):
            rebalance = Rebalance(store)
            await asyncio.gather(change(store), rebalance.run())
            await store.close()
            await Rebalance(store).run()
            self.before, self.bytes = facts(store), await bytes_of(store)
            found = {it.version.id: it for key in store.bucket("one").names for it in store.bucket("one").keys[key]}
            for id, data in known.items():
                self.assertEqual(await got(store, found[id]), data)

        self.run_store(fill, move, self.check)


class Refusals(Moving):
    def test_a_drive_that_is_full_or_away(self):
        """Nothing goes there; the others take what they can, and it is said how much stays."""
        async def fill(store):
            await filled(store)
            self.before, self.bytes = facts(store), await bytes_of(store)
            self.add(1, room=1_700)
            self.add(2)

        async def move(store):
            store.pieces.drives[3].is_away = True
            rebalance = Rebalance(store)
            moves = await rebalance.run()
            self.assertEqual(rebalance._shut, {2, 3})
            self.assertGreater(self.stores.drives[4].live(b"P"), 2)
            self.assertEqual(moves.kept, 0)
            self.assertEqual(facts(store), self.before)

        async def look(store):
            self.assertEqual((facts(store), await bytes_of(store)), (self.before, self.bytes))

        self.run_store(fill, move, look)

    def test_a_source_that_is_away(self):
        async def fill(store):
            await filled(store)
            self.before, self.bytes = facts(store), await bytes_of(store)
            self.add(1)

        async def move(store):
            store.pieces.drives[0].is_away = True
            rebalance = Rebalance(store)
            moves = await rebalance.run()
            self.assertGreater(moves.kept, 0)
            self.assertIn(f"{moves.kept} versions and buckets stay: a drive is full, or doesn't answer", moves.lines(rebalance.loads))

        async def look(store):
            self.assertEqual((facts(store), await bytes_of(store)), (self.before, self.bytes))
            self.assertEqual(self.live(), await needed(store))

        self.run_store(fill, move, look)

    def test_a_head_whose_reply_is_lost(self):
        """The version is there once, wherever it is, and has its pieces."""
        async def fill(store):
            await store.create_bucket("one")
            await store.put("one", "k", body(BYTES[:1_500]), {})
            self.before, self.bytes = facts(store), await bytes_of(store)
            self.add(1)

        async def move(store):
            entry = store.bucket("one").current("k")
            drive = store.pieces.drives[2]
            piece = await store.pieces.put_on(drive, layout.piece_attribute("one", "k"), BYTES[:1_000])
            moved = contents.Contents(1_500, entry.version.etag, b"", (piece, entry.version.pieces[1]), 0)
            store.pieces.drives[entry.head.drive].loses = 4
            with self.assertRaises(DriveAway):
                await store.move(entry, entry.version, moved, None)
            self.assertTrue(store.is_doubtful("one", "k", moved.pieces))
            await store.settle("one", "k")
            self.assertEqual(store.bucket("one").current("k").version.pieces, moved.pieces)
            self.assertEqual((facts(store), await bytes_of(store)), (self.before, self.bytes))

        async def look(store):
            self.assertEqual((facts(store), await bytes_of(store)), (self.before, self.bytes))
            self.assertEqual(self.live(), {"B": 1, "H": 1, "P": 2})

        self.run_store(fill, move, look)

    def test_a_bucket_whose_first_record_stays(self):
        """Its drive is away: the bucket can't be deleted until all that says it can be; and a start leaves one."""
        async def move(store):
            for name in ("one", "two"):
                await store.create_bucket(name)
                bucket = store.bucket(name)
                drives = [store.pieces.drives[it] for it in (bucket.place.drive, 1 - bucket.place.drive)]
                drives[0].is_away = True
                self.before[name] = (bucket.created, drives[1].number)
                self.assertTrue(await store.move_bucket(bucket, drives[1]))
                with self.assertRaises(DriveAway):
                    await store.delete_bucket(name)
                self.assertEqual((bucket.created, bucket.place.drive), self.before[name])
                self.assertIs(store.bucket(name), bucket)
                drives[0].is_away = False
            self.assertEqual(self.live(), {"B": 4})
            await store.delete_bucket("two")
            self.assertEqual(self.live(), {"B": 2})

        async def look(store):
            self.assertEqual(self.stores.collected, 1)
            bucket, = store.index.buckets.values()
            self.assertEqual((bucket.created, bucket.place.drive), self.before["one"])

        self.before = {}
        self.run_store(move, look)
        self.assertEqual(self.live(), {"B": 1})

    def test_a_bucket_that_a_drive_has_no_room_for(self):
        async def move(store):
            await store.create_bucket("one")
            bucket = store.bucket("one")
            place, other = bucket.place, store.pieces.drives[1 - bucket.place.drive]
            self.stores.drives[other.number].room = 10
            with self.assertRaises(NoSpace):
                await store.move_bucket(bucket, other)
            self.assertEqual((bucket.place, bucket.others, self.live()), (place, [], {"B": 1}))
            del store.index.buckets["one"]
            self.assertFalse(await store.move_bucket(bucket, other))

        self.run_store(move)

    def test_what_is_not_moved(self):
        """A version that was replaced, or moved by somebody else: nothing is written."""
        async def work(store):
            await store.create_bucket("one")
            entry = await store.put("one", "k", body(b"mill"), {})
            old = entry.version
            self.assertTrue(await store.move(entry, old, contents_of(old), store.pieces.drives[1 - entry.head.drive]))
            self.assertEqual((entry.moment, entry.version.since), (entry.moment, entry.moment))
            asked = [len(drive.rows) for drive in self.stores.drives]
            self.assertFalse(await store.move(entry, old, contents_of(old), None))
            self.assertEqual([len(drive.rows) for drive in self.stores.drives], asked)
            await store.put("one", "k", body(b"moor"), {})
            self.assertFalse(await store.move(entry, entry.version, contents_of(old), None))
            self.assertEqual(self.live(), {"B": 1, "H": 1})

        self.run_store(work)

    def test_a_head_that_a_later_version_needs(self):
        """A version was moved, and the next one is in the head where it was before: that one stays."""
        async def work(store):
            await store.create_bucket("one")
            entry = await store.put("one", "k", body(b"mill"), {})
            moved = entry.version._replace(since=entry.moment)
            await store._write_on(moved, store.pieces.drives[1 - entry.head.drive])
            await store.put("one", "k", body(b"moor"), {})

        async def look(store):
            self.assertEqual([it.head.drive for it in store.bucket("one").keys["k"]], [1 - self.drive(store), self.drive(store)])
            self.assertEqual(await bytes_of(store), [b"mill", b"moor"])

        self.run_store(work, look, look)
        self.assertEqual(self.live(), {"B": 1, "H": 2})

    @staticmethod
    def drive(store):
        return layout.first_drive("one", "k", len(store.pieces.drives))

    def test_headers_of_a_version_that_is_moved(self):
        """Whoever puts tags meanwhile names the pieces where they are then."""
        async def work(store):
            await store.create_bucket("one")
            entry = await store.put("one", "k", body(BYTES[:1_000]), {})
            old = entry.version
            drive = store.pieces.drives[1 - old.pieces[0].drive]
            moved = contents_of(old).__class__(1_000, old.etag, b"", (await store.pieces.put_on(drive, b"P", BYTES[:1_000]),), 0)
            await store.move(entry, old, moved, None)
            with self.assertRaises(Moved):
                await store._relabel(entry, old, {}, lambda _: None)
            made = await store.relabel(entry, {"content-type": "a/b"}, lambda _: None)
            self.assertEqual((made.version.pieces, made.version.since), (moved.pieces, None))

        self.run_store(work)


class Old(Moving):
    WINDOW = 1_000_000_000

    def setUp(self):
        super().setUp()
        clock = Clock()
        self.stores = PlainStores(window=self.WINDOW, clock=clock)
        for module in ("store", "loading"):
            patch = mock.patch(f"s4d.store.{module}.machine_time", clock)
            patch.start()
            self.addCleanup(patch.stop)

    def test_a_read_that_began_before_a_move(self):
        """It goes on with the pieces that were, though their own moments have left the window."""
        async def work(store):
            await store.create_bucket("one")
            entry = await store.put("one", "k", body(BYTES[:9_500]), {})
            self.stores.clock.value += 2 * self.WINDOW
            reading = store.stream(entry, 0, 9_499)
            data = await reading.__anext__()
            self.add(2)
            store.pieces.drives.extend(self.stores.session_drives()[2:])
            self.assertEqual((await Rebalance(store).run()).versions, 1)
            self.assertEqual(data + b"".join([it async for it in reading]), BYTES[:9_500])
            self.assertEqual(await got(store, entry), BYTES[:9_500])

        self.run_store(work)

    def test_a_marker_that_was_moved(self):
        """It says since when the key isn't there, and leaves with the window, as its first head does."""
        async def fill(store):
            await store.create_bucket("one")
            await store.put("one", "k", body(b"mill"), {})
            await store.delete("one", "k")
            self.add(1)

        async def move(store):
            entry = store.bucket("one").current("k")
            self.assertTrue(await store.move(entry, entry.version, contents_of(entry.version), store.pieces.drives[2]))
            self.moment = entry.moment

        async def look(store):
            entry = store.bucket("one").current("k")
            self.assertEqual((entry.moment, entry.head.drive, entry.version.is_marker), (self.moment, 2, True))
            self.assertEqual((len(store.bucket("one").keys["k"]), store.bucket("one").live), (2, []))
            self.stores.clock.value += 2 * self.WINDOW
            self.assertEqual(len(store.index.expire(self.stores.clock())), 2)
            self.assertEqual(store.bucket("one").names, [])

        async def look_again(store):
            self.assertEqual(store.bucket("one").names, [])

        self.run_store(fill, move, look, look_again)
        self.assertEqual(self.live(), {"B": 1})

    def test_what_the_window_has_left(self):
        """A version that was moved stays, and its first head goes with the last version that needs it."""
        async def fill(store):
            await store.create_bucket("one")
            await store.put("one", "k", body(BYTES[:1_500]), {})
            await store.put("one", "k", body(BYTES[:2_000]), {})
            self.add(1)

        async def move(store):
            entry = store.bucket("one").current("k")
            self.assertTrue(await store.move(entry, entry.version, contents_of(entry.version), store.pieces.drives[2]))
            self.assertEqual(self.live()["H"], 2)

        async def look(store):
            entry = store.bucket("one").current("k")
            self.assertEqual(len(store.bucket("one").keys["k"]), 2)
            self.stores.clock.value += 2 * self.WINDOW
            self.assertEqual(len(store.index.expire(self.stores.clock())), 1)
            self.assertEqual(await got(store, entry), BYTES[:2_000])
            self.moment = entry.moment

        async def look_again(store):
            entry, = store.bucket("one").keys["k"]
            self.assertEqual((entry.moment, entry.head.drive), (self.moment, 2))
            self.assertEqual(await got(store, entry), BYTES[:2_000])

        self.run_store(fill, move, look, look_again)
        self.assertEqual(self.live(), {"B": 1, "H": 1, "P": 2})


if __name__ == "__main__":
    unittest.main()
