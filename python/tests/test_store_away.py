"""A start with a drive that can't be served, of which the image says all: what it has is away, and all else goes on."""
import asyncio
import contextlib
import io
import os
import pathlib
import tempfile
import unittest
from unittest import mock

from s4d.store import OpenStore, Programs, Settings, StoreFault, make_store
from s4d.store.drives import DriveAway
from s4d.store.found import lists_versions
from s4d.store.layout import first_drive, piece_attribute
from s4d.store.settings import image_path
from s4d.store.uploads import NoUpload, Uploads

from .bridged import PATIENCE
from .store_standin import programs
from .test_store import BYTES, body, got

HERE, THERE = ([key for key in map(str, range(40)) if first_drive("one", key, 2) == number] for number in (0, 1))
BROKEN = {"BROKEN": "/drives/01/"}


class Away(unittest.TestCase):
    def setUp(self):
        folder = tempfile.TemporaryDirectory()
        self.addCleanup(folder.cleanup)
        self.folder, self.programs, self.said = f"{folder.name}/store", Programs(**programs(folder.name)), io.StringIO()
        make_store(self.folder, Settings(2, 64, "30d"), self.programs)
        lists_versions.cache_clear()
        self.addCleanup(lists_versions.cache_clear)

    def run_store(self, work, **environment):
        """The work has a store from its start to its end, with these variables at its start."""
        async def served():
            with mock.patch.dict(os.environ, environment):
                opened = OpenStore(self.folder, self.programs)
                try:
                    await work(opened, await opened.start())
                finally:
                    await opened.stop()

        with contextlib.redirect_stderr(self.said):
            asyncio.run(asyncio.wait_for(served(), PATIENCE))

    async def fill(self, opened, store):
        """Keys on both drives, an upload with a part, and a piece that a put left that was cut."""
        await store.create_bucket("one")
        for key in (HERE[0], THERE[0]):
            for data in (b"mill", BYTES[:300_000], b"moor"):
                await store.put("one", key, body(data), {})
        await store.put("one", HERE[1], body(BYTES[:300_000]), {})
        uploads = Uploads(store, 2**30)
        self.upload = (await uploads.begin("one", "u", {}, "me")).id
        await uploads.put_part(uploads.of("one", "u", self.upload), 1, body(BYTES[:1_000]))
        await store.close()
        await store.pieces.drives[0].ask(lambda session: session.create(piece_attribute("one", "left")))

    def objects(self):
        """How many changes the images have."""
        return [len(pathlib.Path(image_path(self.folder, number)).read_text(encoding="ascii").splitlines()) for number in (0, 1)]

    async def look(self, opened, store):
        """Drive 1 is away, until it can be served."""
        self.assertEqual((opened.away, self.objects()), ([1], self.before))
        heads = store.bucket("one").keys[THERE[0]][::2]  # which the image has, contents too
        self.assertEqual([await got(store, it) for it in heads], [b"mill", b"moor"])
        for work in (lambda: store.put("one", THERE[0], body(b"new"), {}), lambda: store.delete("one", THERE[0]),
                     lambda: got(store, store.bucket("one").current(HERE[1]))):
            with self.assertRaises(DriveAway):
                await work()
        for key in (HERE[0], THERE[1]):  # the second is new, and goes where there is room
            entry = await store.put("one", key, body(BYTES[:200_000]), {})
            self.assertEqual({entry.head.drive, *(it.drive for it in entry.version.pieces)}, {0})
        uploads = Uploads(store, 2**30, opened.uploads, opened.away)
        for ask in (lambda: uploads.of("one", "u", self.upload), lambda: uploads.in_bucket("one")):
            with self.assertRaises(DriveAway):
                ask()
        begun = await uploads.begin("one", "u", {}, "me")
        await uploads.abort(uploads.of("one", "u", begun.id))
        del os.environ["BROKEN"]
        while not store.pieces.drives[1].is_served:
            await asyncio.sleep(0.01)
        self.assertEqual(await got(store, store.bucket("one").current(HERE[1])), BYTES[:300_000])
        self.assertEqual((await store.put("one", THERE[0], body(b"new"), {})).version.sequence, 4)

    async def look_again(self, opened, store):
        """The next start has all, and deletes what the put left."""
        self.assertEqual(opened.away, [])
        for key, contents in ((HERE[0], [b"mill", BYTES[:300_000], b"moor", BYTES[:200_000]]), (THERE[1], [BYTES[:200_000]]),
                              (THERE[0], [b"mill", BYTES[:300_000], b"moor", b"new"])):
            self.assertEqual([await got(store, it) for it in store.bucket("one").keys[key]], contents)
        uploads = Uploads(store, 2**30, opened.uploads, opened.away)
        self.assertEqual(uploads.of("one", "u", self.upload).parts[1].size, 1_000)
        with self.assertRaises(NoUpload):
            uploads.of("one", "u", "another")

    def test_what_it_has_is_away(self):
        self.run_store(self.fill)
        self.before = self.objects()
        with mock.patch("s4d.store.drives.FIRST_WAIT", 0.1):
            self.run_store(self.look, **BROKEN)
        self.assertRegex(self.said.getvalue(), "drive 1 isn't served: s4serve: .*: Read-only file system; what it has answers 503")
        self.assertNotIn("left by puts", self.said.getvalue())
        self.run_store(self.look_again)
        self.assertIn("1 objects were left by puts", self.said.getvalue())

    def test_what_can_not_be_known(self):
        """Where its image doesn't say all, or no drive is served, there is no start."""
        self.run_store(self.fill)

        async def never(_opened, _store):
            self.fail("it is started")

        newer = pathlib.Path(image_path(self.folder, 1) + ".s4serve.new")
        newer.write_bytes(b"")
        with self.assertRaisesRegex(StoreFault, "drive 1 isn't served"):
            self.run_store(never, **BROKEN)
        newer.unlink()
        with self.assertRaisesRegex(StoreFault, "drive 0 isn't served"):
            self.run_store(never, BROKEN="/drives/")
        lists_versions.cache_clear()
        with self.assertRaisesRegex(StoreFault, "drive 1 isn't served"):
            self.run_store(never, EARLIER="1", **BROKEN)


if __name__ == "__main__":
    unittest.main()
