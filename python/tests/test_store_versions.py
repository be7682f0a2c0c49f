"""Starts of a store whose index comes from what `s4 list` prints of versions, as those that ask for each of them."""
import asyncio
import json
import os
import pathlib
import tempfile
import unittest
from unittest import mock

from s4d.errors import BadReply
from s4d.store import OpenStore, Programs, Settings, StoreFault, make_store
from s4d.store.found import Kept, lists_versions, read_versions
from s4d.store.settings import image_path

from . import test_store, test_store_moves
from .bridged import PATIENCE
from .plain_store import PlainStoreDrive, TimedDrive
from .store_standin import programs
from .test_store import BYTES, Stores, body, got

ROW = {"object": 1, "state": "live", "size": 1, "created": 2, "created_time": None, "changed": 3, "changed_time": None,
       "attribute": b"Hk".hex(), "attribute_text": "Hk", "versions": [{"moment": 2, "changed": 2, "size": 0, "contents": ""},
                                                                      {"moment": 3, "changed": 3, "size": 1, "contents": "61"}]}


class Told(Stores):
    """The drives' images say what each version has."""

    def setUp(self):
        super().setUp()
        patch = mock.patch.object(TimedDrive, "tells_versions", True)
        patch.start()
        self.addCleanup(patch.stop)


class Puts(Told, test_store.Puts):
    pass


class Away(Told, test_store.Away):
    pass


class Windows(Told, test_store.Windows):
    pass


class Uploading(Told, test_store.Uploading):
    pass


class Full(Told, test_store.Full):
    pass


class Rebalanced(Told, test_store_moves.Rebalanced):
    pass


class Old(Told, test_store_moves.Old):
    pass


class Asked(Told):
    def test_nothing_is_asked(self):
        async def put(store):
            await store.create_bucket("one")
            for data in (b"mill", BYTES[:1_000], b"moor"):
                await store.put("one", "k", body(data), {})
            await store.put("one", "l", body(BYTES[:1_000]), {})

        async def look(store):
            with mock.patch.object(PlainStoreDrive, "ask", mock.AsyncMock(side_effect=AssertionError("a drive is asked"))):
                again = await self.stores.start()
            self.assertEqual([await got(store, it) for it in again.bucket("one").keys["k"]], [b"mill", BYTES[:1_000], b"moor"])
            self.assertEqual(again.bucket("one").keys, store.bucket("one").keys)

        self.run_store(put, look)


class InAnyOrder(Told):
    def test_the_index_is_the_same(self):
        """Whichever drive's image is read first."""
        async def put(store):
            for bucket in ("one", "two"):
                await store.create_bucket(bucket)
                for key in map(str, range(8)):
                    for data in (b"mill", BYTES[:1_000]):
                        await store.put(bucket, key, body(data), {})
            await store.delete("one", "3")

        async def look(store):
            first = await self.stores.start()
            turned = await self.stores.start(lambda drives: reversed(list(drives)))
            self.assertGreater(len({it.head.drive for known in store.bucket("one").keys.values() for it in known}), 1)
            for bucket in ("one", "two"):
                self.assertEqual(turned.bucket(bucket), first.bucket(bucket))
                self.assertEqual(turned.bucket(bucket).keys, store.bucket(bucket).keys)
            self.assertEqual(self.stores.collected, 0)

        self.run_store(put, look)


class Rows(unittest.TestCase):
    def test_rows(self):
        piece = {**ROW, "object": 2, "attribute": b"Pk".hex()}
        found = read_versions(f"{json.dumps(ROW)}\n{json.dumps(piece)}\n".encode())
        self.assertEqual(found.versions, {1: [Kept(2, b""), Kept(3, b"a")]})
        self.assertEqual([(it.object, it.size, it.created, it.changed, it.attribute) for it in found.objects],
                         [(1, 1, 2, 3, b"Hk"), (2, 1, 2, 3, b"Pk")])
        self.assertEqual(read_versions(b"").objects, [])

    def test_what_is_no_row(self):
        for wrong in (b"{", b"[]", b"1", json.dumps({**ROW, "attribute": "x"}).encode(), json.dumps({**ROW, "versions": [{}]}).encode(),
                      json.dumps({name: value for name, value in ROW.items() if name != "versions"}).encode()):
            with self.assertRaises(BadReply, msg=wrong):
                read_versions(wrong)


class Programmed(unittest.TestCase):
    """The same by programs, of which an earlier one prints no versions."""

    def test_both_find_the_same(self):
        async def start(folder, made, work):
            opened = OpenStore(folder, made)
            try:
                return await work(await opened.start())
            finally:
                await opened.stop()

        async def put(store):
            await store.create_bucket("one")
            for data in (b"mill", BYTES[:1_000], b"moor"):
                await store.put("one", "k", body(data), {})
            await store.delete("one", "k")

        async def look(store):
            return [(it.version, it.head, it.moment, it.until) for it in store.bucket("one").keys["k"]], store.bucket("one").created

        with tempfile.TemporaryDirectory() as folder:
            made, found = Programs(**programs(folder)), []
            make_store(f"{folder}/store", Settings(2, 64, "30d"), made)
            asyncio.run(asyncio.wait_for(start(f"{folder}/store", made, put), PATIENCE))
            for environment in ({}, {"EARLIER": "1"}):
                lists_versions.cache_clear()
                with mock.patch.dict(os.environ, environment):
                    self.assertEqual(lists_versions(made.s4), not environment)
                    found.append(asyncio.run(asyncio.wait_for(start(f"{folder}/store", made, look), PATIENCE)))
            self.assertEqual(found[0], found[1])
            pathlib.Path(image_path(f"{folder}/store", 0)).write_text("nothing\n", encoding="ascii")
            lists_versions.cache_clear()
            with self.assertRaisesRegex(StoreFault, "drives/00/image: "):
                asyncio.run(asyncio.wait_for(start(f"{folder}/store", made, look), PATIENCE))


if __name__ == "__main__":
    unittest.main()
