"""The gateway's log: for each change the drive, the session and the moment, by which the drives' own images have it."""
import asyncio
import json
import pathlib
import unittest
from unittest import mock

from s4d.image import Image
from s4d.rows import Change, ChangeKind
from s4d.s3 import limits
from s4d.store import Programs
from s4d.store.settings import image_path

from .built import PROGRAM, S4, S4SERVE, needs_program, needs_s4, needs_s4serve
from .s3_client import Gatewayed
from .test_store import BYTES
from .test_store_serving import Served

MADE = {ChangeKind.MADE: "create", ChangeKind.WRITTEN: "write", ChangeKind.DELETED: "delete"}
PARTS = b"<CompleteMultipartUpload><Part><PartNumber>1</PartNumber><ETag>%s</ETag></Part></CompleteMultipartUpload>"
KEYS = b"<Delete><Object><Key>a</Key></Object><Object><Key>none</Key></Object><Object><Key>b</Key></Object></Delete>"
TAGS = b"<Tagging><TagSet><Tag><Key>a</Key><Value>b</Value></Tag></TagSet></Tagging>"


class Joined(Served):
    def requests(self, it):
        """Changes of each kind, among requests that change no head and no bucket."""
        for method, path, body, query, more in (
                ("PUT", "/one", b"", [], {}), ("PUT", "/two", b"", [], {}), ("PUT", "/one/a", b"mill", [], {}),
                ("PUT", "/one/b", BYTES[:1_000], [], {}), ("GET", "/one/a", b"", [], {}),
                ("PUT", "/one/c", b"", [], {"x_amz_copy_source": "/one/a"}), ("PUT", "/one/a", TAGS, [("tagging", "")], {}),
                ("PUT", "/one/none", b"", [], {"if_match": '"1"'}), ("DELETE", "/one/c", b"", [], {}), ("DELETE", "/one/c", b"", [], {}),
                ("POST", "/one", KEYS, [("delete", "")], {}), ("DELETE", "/two", b"", [], {})):
            it.ask(method, path, body, query, **more)
        upload, = it.ask("POST", "/one/u", query=[("uploads", "")]).all("UploadId")
        etag = it.ask("PUT", "/one/u", b"moor", [("uploadId", upload), ("partNumber", "1")]).headers["etag"]
        for _ in range(2):  # the second time nothing is changed
            it.ask("POST", "/one/u", PARTS % etag.encode(), [("uploadId", upload)])

    def rows(self):
        """What the images have: drive, object, moment and request of each change, and those of heads among them."""
        images = [Image(image_path(self.folder, number), s4=self.programs.s4) for number in range(2)]
        heads = {(number, it.object) for number, image in enumerate(images) for it in image.list() if it.attribute[:1] == b"H"}
        rows = {(number, it.object, it.moment, MADE.get(it.kind)) for number, image in enumerate(images) for it in image.log()
                if isinstance(it, Change)}
        return rows, {it for it in rows if it[:2] in heads and it[3] == "write"}

    def test_each_change_is_in_an_image(self):
        serving = self.serve("--log", "log")
        self.requests(serving.client())
        self.assertEqual(serving.stop(), 0)
        lines = [json.loads(line) for line in pathlib.Path(f"{self.folder}.log").read_text(encoding="utf-8").splitlines()]
        changes = [it for it in lines if "moment" in it]
        self.assertEqual(sorted((it["event"], it["path"], it["request"]) for it in changes), sorted([
            ("request", "/one", "create"), ("request", "/two", "create"), ("request", "/one/a", "write"), ("request", "/one/b", "write"),
            ("request", "/one/c", "write"), ("request", "/one/a", "write"), ("request", "/one/c", "write"), ("change", "/one/a", "write"),
            ("change", "/one/b", "write"), ("request", "/two", "delete"), ("request", "/one/u", "write")]))
        for it in changes:
            self.assertRegex(it["session"], "^bridge-[0-9a-f]{16}-[0-9]+$")
            self.assertEqual((it["role"], it["key"], it["peer"]["name"]), ("client", serving.key.access, serving.key.access))
        deleted, = [it for it in lines if it["path"] == "/one" and it["method"] == "POST"]
        self.assertEqual({it["id"] for it in changes if it["event"] == "change"}, {deleted["id"]})
        said = {(it["drive"], it["object"], it["moment"], it["request"]) for it in changes}
        rows, heads = self.rows()
        self.assertLessEqual(said, rows)
        self.assertLessEqual(heads, said)

    def begin(self, *more):
        return super().begin(*(f"{self.folder}.log" if word == "log" else word for word in more))


@needs_program
@needs_s4
@needs_s4serve
class ReallyJoined(Joined):
    def programs_in(self, _folder):
        return Programs(PROGRAM, S4, S4SERVE)


class Lines(unittest.TestCase):
    """Over a store in memory, whose sessions have no names."""

    def lines_of(self, work):
        """What was written of what a client asked for."""
        async def all_of():
            async with Gatewayed() as gateway:
                it = await gateway.connect()
                await it.ask("PUT", "/one")
                gateway.gateway._log = mock.Mock(settle=mock.AsyncMock())
                await work(gateway, it)
                return [call[1] for call in gateway.gateway._log.write.call_args_list]

        return asyncio.run(asyncio.wait_for(all_of(), 300))

    def test_a_drive_that_is_away(self):
        """The line says which, and whether what was asked may have been done."""
        async def work(gateway, it):
            drives = gateway.store.pieces.drives
            await it.ask("PUT", "/one/k", b"mill")
            drive = drives[gateway.store.bucket("one").current("k").head.drive]
            drive.loses = 4
            await it.ask("PUT", "/one/k", b"moor")
            drive.is_away = True
            await it.ask("PUT", "/one/k", b"more")

        first, lost, away = self.lines_of(work)
        self.assertEqual([(it["status"], it.get("error"), it.get("lost")) for it in (first, lost, away)],
                         [(200, None, None), (503, "ServiceUnavailable", True), (503, "ServiceUnavailable", None)])
        self.assertEqual({it["drive"] for it in (first, lost, away)}, {first["drive"]})
        self.assertEqual(["moment" in it for it in (first, lost, away)], [True, False, False])

    def test_what_a_request_is_cancelled_in(self):
        async def work(gateway, it):
            with mock.patch.object(gateway.gateway, "_answered", mock.AsyncMock(side_effect=asyncio.CancelledError())):
                with self.assertRaises((OSError, EOFError)):
                    await it.ask("PUT", "/one/k", b"mill")

        line, = self.lines_of(work)
        self.assertEqual((line["event"], line["path"], line["lost"], "status" in line), ("request", "/one/k", True, False))

    def test_who_has_not_signed(self):
        async def work(_gateway, it):
            await it.send("GET", "/one/" + "x" * 9_000, b"", [], {"host": "test"})

        line, = self.lines_of(work)
        self.assertEqual((len(line["path"]), line["error"], sorted(line["peer"])), (limits.LOGGED_PATH, "AccessDenied", ["address"]))


if __name__ == "__main__":
    unittest.main()
