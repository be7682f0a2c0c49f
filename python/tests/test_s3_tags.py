"""Tags of versions, and the answers that say what is so of each bucket."""
import unittest

from s4d.s3.errors import S3Error
from s4d.s3.tags import tags_in, text_of, with_tags

from .plain_store import PlainStores
from .test_s3 import md5, with_client
from .test_store import BYTES

TAGS = "<Tagging><TagSet>{}</TagSet></Tagging>"


def tag(name, value):
    return f"<Tag><Key>{name}</Key><Value>{value}</Value></Tag>"


class Tags(unittest.TestCase):
    def test_texts(self):
        for text, tags in (("", {}), ("a=1", {"a": "1"}), ("a=1&b=", {"a": "1", "b": ""}), ("%C3%BC+b=x%26y", {"ü b": "x&y"})):
            self.assertEqual(tags_in(text), tags)
            self.assertEqual(tags_in(text_of(tags)), tags)
        for text in ("a", "a=1&a=2", "=1", "a=%ff", "&".join(f"{i}=" for i in range(11)), "x" * 129 + "=1", "x=" + "y" * 257):
            with self.assertRaises(S3Error, msg=text) as caught:
                tags_in(text)
            self.assertEqual(caught.exception.code, "InvalidTag")
        self.assertEqual(with_tags({"a": "1", "x-amz-tagging": "b=2"}, {}), {"a": "1"})

    def test_tags_that_come_with_a_put(self):
        async def work(_, it):
            await it.ask("PUT", "/one/k", b"mill", x_amz_tagging="who=me&where=here")
            reply = await it.ask("GET", "/one/k", query=[("tagging", "")])
            self.assertEqual((reply.all("Key"), reply.all("Value")), (["who", "where"], ["me", "here"]))
            self.assertEqual((await it.ask("HEAD", "/one/k")).headers["x-amz-tagging-count"], "2")
            await it.ask("PUT", "/one/copy", x_amz_copy_source="/one/k")
            await it.ask("PUT", "/one/other", x_amz_copy_source="/one/k", x_amz_tagging_directive="REPLACE", x_amz_tagging="a=b")
            found = [(await it.ask("GET", f"/one/{key}", query=[("tagging", "")])).all("Key") for key in ("copy", "other")]
            self.assertEqual(found, [["who", "where"], ["a"]])
            self.assertEqual((await it.ask("PUT", "/one/k", b"", x_amz_tagging="who")).code, "InvalidTag")
            upload, = (await it.ask("POST", "/one/parts", query=[("uploads", "")], x_amz_tagging="a=b")).all("UploadId")
            etag = (await it.ask("PUT", "/one/parts", b"mill", [("uploadId", upload), ("partNumber", "1")])).headers["etag"]
            said = f"<CompleteMultipartUpload><Part><PartNumber>1</PartNumber><ETag>{etag}</ETag></Part></CompleteMultipartUpload>"
            await it.ask("POST", "/one/parts", said.encode(), [("uploadId", upload)])
            self.assertEqual((await it.ask("GET", "/one/parts", query=[("tagging", "")])).all("Key"), ["a"])

        with_client(work)

    def test_tags_that_change(self):
        """A version never changes: another one of the same pieces has them, and the pieces stay as long as one of both is current."""
        stores, data = PlainStores(), BYTES[:300_000]
        tagging = [("tagging", "")]

        async def change(gateway, it):
            await it.ask("PUT", "/one/k", data, x_amz_meta_who="me", content_type="a/b")
            pieces = stores.live()["P"]
            first = (await it.ask("HEAD", "/one/k")).headers["x-amz-version-id"]
            reply = await it.ask("PUT", "/one/k", TAGS.format(tag("a", "1") + tag("b", "")).encode(), tagging)
            self.assertEqual(reply.status, 200)
            self.assertNotEqual(reply.headers["x-amz-version-id"], first)
            await gateway.store.close()
            self.assertEqual(stores.live()["P"], pieces)
            reply = await it.ask("GET", "/one/k")
            self.assertEqual([reply.headers[name] for name in ("etag", "x-amz-meta-who", "content-type", "x-amz-tagging-count")],
                             [md5(data), "me", "a/b", "2"])
            self.assertEqual(reply.body, data)
            for query in ([("versionId", first)], [("versionId", first), *tagging]):
                self.assertEqual((await it.ask("GET", "/one/k", query=query)).status, 200)
            reply = await it.ask("PUT", "/one/k", TAGS.format("").encode(), [("versionId", first), *tagging])
            self.assertEqual((reply.status, reply.code), (400, "InvalidRequest"))
            self.assertEqual((await it.ask("DELETE", "/one/k", query=tagging)).status, 204)
            self.assertEqual((await it.ask("GET", "/one/k", query=tagging)).all("Key"), [])
            for text in (tag("a", "1") * 2, tag("", "1"), "<Tag><Key>a</Key></Tag>"):
                self.assertEqual((await it.ask("PUT", "/one/k", TAGS.format(text).encode(), tagging)).status, 400, text)
            self.assertEqual((await it.ask("PUT", "/one/none", TAGS.format("").encode(), tagging)).code, "NoSuchKey")

        async def look(_, it):
            self.assertEqual(stores.collected, 0)
            versions = (await it.ask("GET", "/one", query=[("versions", "")])).all("VersionId")
            self.assertEqual(len(versions), 3)
            for id in versions:
                self.assertEqual((await it.ask("GET", "/one/k", query=[("versionId", id)])).body, data)

        async def replace(gateway, it):
            await it.ask("PUT", "/one/k", b"moor")
            await gateway.store.close()
            self.assertNotIn("P", stores.live())
            versions = (await it.ask("GET", "/one", query=[("versions", "")])).all("VersionId")
            self.assertEqual([(await it.ask("GET", "/one/k", query=[("versionId", id)])).body for id in versions], [b"moor", *[data] * 3])

        for work in (change, look, replace):
            with_client(work, stores)

    def test_a_change_beside_a_put(self):
        async def work(gateway, it):
            await it.ask("PUT", "/one/k", b"mill")
            entry = gateway.store.bucket("one").current("k")
            await it.ask("PUT", "/one/k", b"moor")
            entry.until = None  # as it was when the request came
            with self.assertRaisesRegex(S3Error, "changed meanwhile"):
                await gateway.store.relabel(entry, {}, lambda before: self.refuse(before, entry))

        with_client(work)

    @staticmethod
    def refuse(before, entry):
        if before is not entry:
            raise S3Error("OperationAborted")


class Stubs(unittest.TestCase):
    def test_what_is_so_anyway(self):
        async def work(_, it):
            for part, text in (("policyStatus", "<IsPublic>false</IsPublic>"),
                               ("publicAccessBlock", "<BlockPublicAcls>true</BlockPublicAcls>"),
                               ("ownershipControls", "BucketOwnerEnforced"), ("requestPayment", "<Payer>BucketOwner</Payer>"),
                               ("logging", "BucketLoggingStatus"), ("notification", "NotificationConfiguration")):
                reply = await it.ask("GET", "/one", query=[(part, "")])
                self.assertEqual(reply.status, 200, part)
                self.assertIn(text, reply.body.decode())
            for part, code in (("encryption", "ServerSideEncryptionConfigurationNotFoundError"), ("cors", "NoSuchCORSConfiguration")):
                reply = await it.ask("GET", "/one", query=[(part, "")])
                self.assertEqual((reply.status, reply.code), (404, code))
            self.assertEqual((await it.ask("GET", "/two", query=[("policyStatus", "")])).code, "NoSuchBucket")
            self.assertEqual((await it.ask("DELETE", "/one", query=[("cors", "")])).status, 204)
            self.assertEqual((await it.ask("PUT", "/one", b"<x/>", [("cors", "")])).code, "NotImplemented")

        with_client(work)

    def test_rights(self):
        async def work(_, it):
            await it.ask("PUT", "/one/k", b"mill")
            for path in ("/one", "/one/k"):
                self.assertEqual((await it.ask("PUT", path, query=[("acl", "")], x_amz_acl="private")).status, 200)
                for more in ({"x_amz_acl": "public-read"}, {"x_amz_grant_read": "id=1"}, {}):
                    reply = await it.ask("PUT", path, query=[("acl", "")], **more)
                    self.assertEqual(reply.code, "AccessControlListNotSupported", more)

        with_client(work)

    def test_attributes(self):
        async def work(_, it):
            await it.ask("PUT", "/one/k", b"mill")
            reply = await it.ask("GET", "/one/k", query=[("attributes", "")], x_amz_object_attributes="ETag,ObjectSize,Checksum")
            found = [reply.all(name) for name in ("ETag", "ObjectSize", "StorageClass")]
            self.assertEqual(found, [[md5(b"mill").strip('"')], ["4"], []])

        with_client(work)


if __name__ == "__main__":
    unittest.main()
