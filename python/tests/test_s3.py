"""The gateway over a store in memory: signatures, bodies, answers, errors, and what no client may hold."""
import asyncio
import base64
import hashlib
import pathlib
import tempfile
import unittest
import zlib
from unittest import mock

from s4d.s3 import limits, server, http
from s4d.s3.errors import S3Error
from s4d.s3.keys import Key, keys_in
from s4d.s3.xml import document, parsed

from .plain_store import PlainStores
from .s3_client import READER, Gatewayed, Signer, ago
from .test_store import BYTES

PATIENCE = 300


def md5(data):
    return f'"{hashlib.md5(data).hexdigest()}"'


def with_client(work, stores=None):
    """Runs work with a client of a new gateway, which has the bucket `one`."""
    async def all_of():
        async with Gatewayed(stores) as gateway:
            it = await gateway.connect()
            await it.ask("PUT", "/one")
            await work(gateway, it)

    asyncio.run(asyncio.wait_for(all_of(), PATIENCE))


async def nobody_works(gateway):
    """Waits until each answer counts as taken."""
    while gateway.gateway._working["owner"]:
        await asyncio.sleep(0.001)


class Signatures(unittest.TestCase):
    def test_who_may_ask(self):
        async def work(gateway, it):
            wrong = Key("owner", "another secret, which is wrong", True, None)
            nobody = Key("nobody", wrong.secret, True, None)
            for signer, code in ((Signer(wrong), "SignatureDoesNotMatch"), (Signer(nobody), "InvalidAccessKeyId"),
                                 (Signer(now=ago(minutes=16)), "RequestTimeTooSkewed"),
                                 (Signer(now=ago(minutes=-16)), "RequestTimeTooSkewed")):
                reply = await it.ask("GET", "/one", signer=signer)
                self.assertEqual((reply.status, reply.code), (403, code))
            for signer in (Signer(now=ago(minutes=14)), Signer(region="eu-west-1")):
                self.assertEqual((await it.ask("GET", "/one", signer=signer)).status, 200)
            reply = await it.send("GET", "/one", b"", [], {"host": "test"})
            self.assertEqual((reply.status, reply.code), (403, "AccessDenied"))

        with_client(work)

    def test_what_was_changed_on_its_way(self):
        async def work(gateway, it):
            good = Signer().headers("PUT", "/one/k", [], b"mill", {"x-amz-meta-a": "1"})
            for path, query, change, code in (
                    ("/one/l", [], {}, "SignatureDoesNotMatch"), ("/one/k", [("versionId", "1")], {}, "SignatureDoesNotMatch"),
                    ("/one/k", [], {"x-amz-meta-a": "2"}, "SignatureDoesNotMatch"),
                    ("/one/k", [], {"x-amz-copy-source": "/one/j"}, "AccessDenied"),
                    ("/one/k", [], {"authorization": "AWS4-HMAC-SHA256 nothing"}, "AuthorizationHeaderMalformed"),
                    ("/one/k", [], {"x-amz-date": "yesterday"}, "AccessDenied")):
                reply = await it.send("PUT", path, b"mill", query, {**good, **change})
                self.assertEqual(reply.code, code, (path, query, change))
            reply = await it.send("PUT", "/one/k", b"moor", [], good)
            self.assertEqual((reply.status, reply.code), (400, "XAmzContentSHA256Mismatch"))
            self.assertEqual(gateway.store.bucket("one").names, [])
            self.assertEqual((await it.send("PUT", "/one/k", b"mill", [], good)).status, 200)

        with_client(work)

    def test_bytes_and_spaces_of_headers(self):
        """A header is signed as its bytes came, whatever they say, and a row of spaces as one."""
        async def work(gateway, it):
            for given in ("\u00e0 la \u2003carte\u0085", "a   b \t c"):
                self.assertEqual((await it.ask("PUT", "/one/k", b"mill", x_amz_meta_a=given)).status, 200, given)
                got = (await it.ask("HEAD", "/one/k")).headers["x-amz-meta-a"]
                self.assertEqual(got.encode("latin-1"), given.replace("\t", " ").encode())
            query = [*Signer().presigned("GET", "/one/k", 60)]
            query[4] = ("X-Amz-SignedHeaders", "host;\u2003")
            self.assertEqual((await it.send("GET", "/one/k", b"", query, {"host": "test"})).code, "SignatureDoesNotMatch")

        with_client(work)

    def test_presigned_by_nobody(self):
        """What no program signs is refused, and is no fault of the gateway's own."""
        async def work(gateway, it):
            good = Signer().presigned("GET", "/one/k", 60)
            for change, code in (({"X-Amz-Signature": "\u00e9"}, "SignatureDoesNotMatch"),
                                 ({"X-Amz-Date": "99991231T235959Z", "X-Amz-Expires": "604800"}, "AccessDenied"),
                                 ({"X-Amz-Date": "00010101T000000Z"}, "AccessDenied")):
                reply = await it.send("GET", "/one/k", b"", list({**dict(good), **change}.items()), {"host": "test"})
                self.assertEqual((reply.status, reply.code), (403, code))

        with_client(work)

    def test_presigned(self):
        async def work(gateway, it):
            await it.ask("PUT", "/one/a b", b"mill")
            async def get(query, path="/one/a b"):
                return await it.send("GET", path, b"", query, {"host": "test"})
            self.assertEqual((await get(Signer().presigned("GET", "/one/a b", 60))).body, b"mill")
            self.assertEqual((await get(Signer().presigned("PUT", "/one/a b", 60))).code, "SignatureDoesNotMatch")
            reply = await get(Signer(now=ago(seconds=62)).presigned("GET", "/one/a b", 60))
            self.assertEqual((reply.status, reply.code), (403, "AccessDenied"))
            self.assertIn(b"expired", reply.body)
            for expires in (0, 604_801, "1d"):
                self.assertEqual((await get(Signer().presigned("GET", "/one/a b", expires))).code, "AuthorizationQueryParametersError")
            put = await it.send("PUT", "/one/new", b"moor", Signer().presigned("PUT", "/one/new", 60), {"host": "test"})
            self.assertEqual((put.status, (await it.ask("GET", "/one/new")).body), (200, b"moor"))

        with_client(work)

    def test_rights(self):
        async def work(gateway, it):
            await it.ask("PUT", "/two")
            await it.ask("PUT", "/one/k", b"mill")
            await it.ask("PUT", "/two/k", b"mill")
            reads = Signer(READER)
            self.assertEqual((await it.ask("GET", "/one/k", signer=reads)).body, b"mill")
            self.assertEqual((await it.ask("GET", "/", signer=reads)).all("Name"), ["one"])
            copied = dict(x_amz_copy_source="/two/k")
            for method, path, more in (("PUT", "/one/k", {}), ("DELETE", "/one/k", {}), ("GET", "/two/k", {}), ("GET", "/two", {}),
                                       ("PUT", "/new", {}), ("PUT", "/one/k", copied)):
                self.assertEqual((await it.ask(method, path, signer=reads, **more)).code, "AccessDenied", (method, path))

        with_client(work)


class Bodies(unittest.TestCase):
    def test_signed_chunks(self):
        async def work(gateway, it):
            data = BYTES[:150_000]
            async def put(change=lambda it: it, trailer=None, length=len(data)):
                payload = "STREAMING-AWS4-HMAC-SHA256-PAYLOAD" + ("-TRAILER" if trailer else "")
                signer, more = Signer(), {"x-amz-decoded-content-length": str(length)}
                if trailer:
                    more["x-amz-trailer"] = trailer.partition(":")[0]
                headers = signer.headers("PUT", "/one/k", [], b"", more, payload)
                sent = change(signer.chunked(data, 65_536, headers["authorization"][-64:], trailer))
                return await it.send("PUT", "/one/k", sent, [], headers)
            crc = base64.b64encode(zlib.crc32(data).to_bytes(4, "big")).decode()
            for change, trailer, length, code in (
                    (lambda it: it.replace(b"\r\n\0", b"\r\n\1", 1), None, len(data), "SignatureDoesNotMatch"),
                    (lambda it: it.replace(b"signature=", b"signature=0", 1), None, len(data), "SignatureDoesNotMatch"),
                    (lambda it: it[:-90], None, len(data), "IncompleteBody"),
                    (lambda it: it, None, len(data) - 1, "IncompleteBody"),
                    (lambda it: it, None, len(data) + 1, "IncompleteBody"),
                    (lambda it: it, "x-amz-checksum-crc32:AAAAAA==", len(data), "BadDigest"),
                    (lambda it: it, "x-amz-checksum-crc32c:AAAAAA==", len(data), "NotImplemented"),
                    (lambda it: it.replace(crc.encode(), b"AAAAAA=="), f"x-amz-checksum-crc32:{crc}", len(data), "SignatureDoesNotMatch"),
                    (lambda it: it.replace(b"10000;", b"1000g;", 1), None, len(data), "InvalidRequest"),
                    (lambda it: it.replace(b"10000;", b"fffffffffffff;", 1), None, len(data), "InvalidRequest")):
                reply = await put(change, trailer, length)
                self.assertEqual(reply.code, code)
                self.assertEqual(gateway.store.bucket("one").names, [])
                it = await gateway.connect()
            for trailer in (None, f"x-amz-checksum-crc32:{crc}"):
                self.assertEqual((await put(trailer=trailer)).status, 200)
                self.assertEqual((await it.ask("GET", "/one/k")).body, data)

        with_client(work)

    def test_unsigned_chunks(self):
        async def work(gateway, it):
            crc = base64.b64encode(zlib.crc32(b"mill").to_bytes(4, "big"))
            more = {"x-amz-decoded-content-length": "4", "x-amz-trailer": "x-amz-checksum-crc32"}
            for digest, code in ((b"AAAAAA==", "BadDigest"), (crc, "")):
                headers = Signer().headers("PUT", "/one/k", [], b"", more, "STREAMING-UNSIGNED-PAYLOAD-TRAILER")
                sent = b"4\r\nmill\r\n0\r\nx-amz-checksum-crc32:" + digest + b"\r\n\r\n"
                self.assertEqual((await it.send("PUT", "/one/k", sent, [], headers)).code, code)
            chunked = b"".join(b"%x\r\n%s\r\n" % (len(part), part) for part in (sent[:10], sent[10:])) + b"0\r\n\r\n"
            reply = await it.send("PUT", "/one/l", chunked, [], {
                **Signer().headers("PUT", "/one/l", [], b"", more, "STREAMING-UNSIGNED-PAYLOAD-TRAILER"), "transfer-encoding": "chunked"})
            self.assertEqual(reply.status, 200)
            self.assertEqual((await it.ask("GET", "/one/l")).body, b"mill")

        with_client(work)

    def test_digests(self):
        async def work(gateway, it):
            def base64_of(name, data=b"mill"):
                return base64.b64encode(hashlib.new(name, data).digest()).decode()
            for more, code in (({"content_md5": base64_of("md5", b"moor")}, "BadDigest"), ({"content_md5": "x"}, "InvalidDigest"),
                               ({"x_amz_checksum_sha256": base64_of("sha256", b"moor")}, "BadDigest"),
                               ({"x_amz_checksum_crc64nvme": "AAAAAAAAAAA="}, "NotImplemented")):
                self.assertEqual((await it.ask("PUT", "/one/k", b"mill", **more)).code, code)
            self.assertEqual(gateway.store.bucket("one").names, [])
            for more in ({"content_md5": base64_of("md5")}, {"x_amz_checksum_sha256": base64_of("sha256")},
                         {"x_amz_checksum_sha1": base64_of("sha1")}, {"payload": "UNSIGNED-PAYLOAD"}):
                self.assertEqual((await it.ask("PUT", "/one/k", b"mill", **more)).status, 200)

        with_client(work)

    def test_bodies_that_are_cut(self):
        async def work(gateway, it):
            headers = Signer().headers("PUT", "/one/k", [], b"", {}, "UNSIGNED-PAYLOAD")
            it.writer.write(b"PUT /one/k HTTP/1.1\r\ncontent-length: 300000\r\n"
                            + "".join(f"{name}: {value}\r\n" for name, value in headers.items()).encode() + b"\r\n" + BYTES[:200_000])
            it.writer.write_eof()
            self.assertEqual((await it.reply()).code, "IncompleteBody")
            self.assertEqual((gateway.store.bucket("one").names, gateway.stores.live()), ([], {"B": 1}))

        with_client(work)


class Objects(unittest.TestCase):
    def test_put_and_get(self):
        async def work(gateway, it):
            for size in (0, 10, 400, 401, 100_000):
                data = BYTES[:size]
                put = await it.ask("PUT", f"/one/ü/{size}", data, content_type="text/plain", x_amz_meta_who="me")
                self.assertEqual((put.status, put.headers["etag"]), (200, md5(data)))
                for method in ("GET", "HEAD"):
                    got = await it.ask(method, f"/one/ü/{size}")
                    self.assertEqual((got.status, got.body), (200, data if method == "GET" else b""))
                    wanted = {"content-length": str(size), "etag": md5(data), "content-type": "text/plain", "x-amz-meta-who": "me",
                              "x-amz-version-id": put.headers["x-amz-version-id"], "x-amz-object-lock-mode": "COMPLIANCE"}
                    self.assertEqual({name: got.headers.get(name) for name in wanted}, wanted)
            self.assertEqual((await it.ask("GET", "/one/none")).code, "NoSuchKey")
            self.assertEqual((await it.ask("GET", "/two/none")).code, "NoSuchBucket")
            self.assertEqual((await it.ask("HEAD", "/one/none")).status, 404)
            self.assertEqual((await it.ask("PUT", "/one/" + "k" * 1_025, b"")).code, "KeyTooLongError")

        with_client(work)

    def test_ranges(self):
        async def work(gateway, it):
            await it.ask("PUT", "/one/k", BYTES[:300_000])
            for given, first, last in (("0-0", 0, 0), ("98300-98310", 98_300, 98_310), ("299990-", 299_990, 299_999),
                                       ("-5", 299_995, 299_999), ("5-999999999", 5, 299_999)):
                got = await it.ask("GET", "/one/k", range=f"bytes={given}")
                self.assertEqual((got.status, got.body), (206, BYTES[first:last + 1]))
                self.assertEqual(got.headers["content-range"], f"bytes {first}-{last}/300000")
            got = await it.ask("GET", "/one/k", range="bytes=300000-")
            self.assertEqual((got.status, got.code, got.headers["content-range"]), (416, "InvalidRange", "bytes */300000"))
            for given in ("bytes=5-4", "bytes=0-1,3-4", "pages=1-2"):
                self.assertEqual(len((await it.ask("GET", "/one/k", range=given)).body), 300_000)

        with_client(work)

    def test_versions(self):
        async def work(gateway, it):
            ids = [(await it.ask("PUT", "/one/k", data)).headers["x-amz-version-id"] for data in (b"mill", BYTES[:1_000])]
            gone = await it.ask("DELETE", "/one/k")
            self.assertEqual((gone.status, gone.headers["x-amz-delete-marker"]), (204, "true"))
            marker = gone.headers["x-amz-version-id"]
            for id, data in zip(ids, (b"mill", BYTES[:1_000])):
                self.assertEqual((await it.ask("GET", "/one/k", query=[("versionId", id)])).body, data)
                refused = await it.ask("DELETE", "/one/k", query=[("versionId", id)])
                self.assertEqual((refused.status, refused.code), (403, "AccessDenied"))
            self.assertEqual((await it.ask("DELETE", "/one/k", query=[("versionId", marker)])).code, "AccessDenied")
            self.assertEqual((await it.ask("DELETE", "/one/k", query=[("versionId", "none")])).status, 204)
            now = await it.ask("GET", "/one/k")
            self.assertEqual((now.code, now.headers["x-amz-delete-marker"]), ("NoSuchKey", "true"))
            self.assertEqual((await it.ask("GET", "/one/k", query=[("versionId", marker)])).code, "MethodNotAllowed")
            self.assertEqual((await it.ask("GET", "/one/k", query=[("versionId", "none")])).code, "NoSuchVersion")
            again = await it.ask("DELETE", "/one/k")
            self.assertEqual(again.headers["x-amz-version-id"], marker)
            rows = await it.ask("GET", "/one", query=[("versions", "")])
            self.assertEqual(rows.all("VersionId"), [marker, *ids[::-1]])
            self.assertEqual(rows.all("IsLatest"), ["true", "false", "false"])
            restored = await it.ask("PUT", "/one/k", x_amz_copy_source=f"/one/k?versionId={ids[0]}")
            self.assertEqual((restored.status, (await it.ask("GET", "/one/k")).body), (200, b"mill"))
            self.assertEqual((await it.ask("DELETE", "/one")).code, "BucketNotEmpty")

        with_client(work)

    def test_copies(self):
        async def work(gateway, it):
            await it.ask("PUT", "/two")
            await it.ask("PUT", "/one/a b", BYTES[:200_000], x_amz_meta_who="me", content_type="a/b")
            reply = await it.ask("PUT", "/two/copy", x_amz_copy_source="one/a%20b")
            self.assertEqual((reply.status, reply.all("ETag")), (200, [md5(BYTES[:200_000]).replace('"', "&quot;")]))
            got = await it.ask("GET", "/two/copy")
            self.assertEqual((got.body, got.headers["x-amz-meta-who"]), (BYTES[:200_000], "me"))
            for path, more, code in (
                    ("/one/a b", {"x_amz_copy_source": "/one/a%20b"}, "InvalidRequest"),
                    ("/two/x", {"x_amz_copy_source": "/one/none"}, "NoSuchKey"), ("/two/x", {"x_amz_copy_source": "/one"}, "InvalidArgument"),
                    ("/two/x", {"x_amz_copy_source": "/one/a%20b?versionId=none"}, "NoSuchVersion"),
                    ("/two/x", {"x_amz_copy_source": "/one/a%20b", "x_amz_copy_source_if_match": '"0"'}, "PreconditionFailed"),
                    ("/none/x", {"x_amz_copy_source": "/one/a%20b"}, "NoSuchBucket")):
                self.assertEqual((await it.ask("PUT", path, **more)).code, code)
            await it.ask("PUT", "/one/a b", x_amz_copy_source="/one/a%20b", x_amz_metadata_directive="REPLACE", x_amz_meta_new="1")
            got = await it.ask("HEAD", "/one/a b")
            self.assertEqual((got.headers.get("x-amz-meta-who"), got.headers["x-amz-meta-new"]), (None, "1"))

        with_client(work)

    def test_conditions(self):
        async def work(gateway, it):
            put = await it.ask("PUT", "/one/k", b"mill", if_none_match="*")
            self.assertEqual(put.status, 200)
            for more, status in (({"if_none_match": "*"}, 412), ({"if_match": '"0"'}, 412), ({"if_match": md5(b"mill")}, 200)):
                self.assertEqual((await it.ask("PUT", "/one/k", b"mill", **more)).status, status)
            self.assertEqual((await it.ask("PUT", "/one/none", b"", if_match='"0"')).code, "NoSuchKey")
            changed = (await it.ask("HEAD", "/one/k")).headers["last-modified"]
            past = "Mon, 01 Jan 2024 00:00:00 GMT"
            for more, status in (({"if_none_match": md5(b"mill")}, 304), ({"if_none_match": '"0"'}, 200), ({"if_match": '"0"'}, 412),
                                 ({"if_match": md5(b"mill")}, 200), ({"if_modified_since": changed}, 304), ({"if_modified_since": past}, 200),
                                 ({"if_unmodified_since": past}, 412), ({"if_unmodified_since": changed}, 200),
                                 ({"if_modified_since": "Mon, 01 Jan 99999999999 00:00:00 GMT"}, 200)):
                self.assertEqual((await it.ask("GET", "/one/k", **more)).status, status, more)

        with_client(work)

    def test_a_condition_comes_before_the_body(self):
        """A body that isn't wanted fills no drive."""
        async def work(gateway, it):
            await it.ask("PUT", "/one/k", b"mill")
            changes = [len(drive.rows) for drive in gateway.stores.drives]
            for more in ({"if_none_match": "*"}, {"if_match": '"0"'}):
                self.assertEqual((await it.ask("PUT", "/one/k", BYTES[:50_000], **more)).code, "PreconditionFailed")
            self.assertEqual([len(drive.rows) for drive in gateway.stores.drives], changes)

        with_client(work)

    def test_rights_that_nobody_has(self):
        async def work(gateway, it):
            for acl, code in (("private", ""), ("bucket-owner-full-control", ""), ("public-read", "AccessControlListNotSupported")):
                self.assertEqual((await it.ask("PUT", "/one/k", b"mill", x_amz_acl=acl)).code, code)
                self.assertEqual((await it.ask("PUT", f"/{acl}", x_amz_acl=acl)).code, code)

        with_client(work)

    def test_multi_delete(self):
        async def work(gateway, it):
            id = (await it.ask("PUT", "/one/a", b"mill")).headers["x-amz-version-id"]
            body = f"<Delete><Object><Key>a</Key></Object><Object><Key>a</Key><VersionId>{id}</VersionId></Object></Delete>".encode()
            reply = await it.ask("POST", "/one", body, query=[("delete", "")])
            self.assertEqual((reply.all("DeleteMarker"), reply.all("Code")), (["true"], ["AccessDenied"]))
            for wrong in (b"<Delete/>", b"<Delete>", b"<Other/>", b"<!DOCTYPE x><Delete/>",
                          b"<Delete>" + b"<Object><Key>k</Key></Object>" * 1_001 + b"</Delete>"):
                self.assertEqual((await it.ask("POST", "/one", wrong, query=[("delete", "")])).code, "MalformedXML")

        with_client(work)

    def test_a_long_multi_delete(self):
        """A few keys at once are deleted, so that the drives answer others meanwhile."""
        async def work(gateway, it):
            running, most, delete = [], [], gateway.store.delete

            async def counted(bucket, key):
                running.append(key)
                most.append(len(running))
                marker = await delete(bucket, key)
                running.remove(key)
                return marker

            keys = [f"k{number}" for number in range(20)]
            for key in keys:
                await it.ask("PUT", f"/one/{key}", b"")
            body = "".join(f"<Object><Key>{key}</Key></Object>" for key in keys)
            with mock.patch.object(gateway.store, "delete", counted):
                reply = await it.ask("POST", "/one", f"<Delete>{body}</Delete>".encode(), query=[("delete", "")])
            self.assertEqual((reply.all("Key"), max(most), gateway.store.bucket("one").live), (keys, limits.DELETES, []))

        with_client(work)

    def test_object_lock(self):
        async def work(gateway, it):
            await it.ask("PUT", "/one/k", b"mill")
            until = (await it.ask("GET", "/one/k", query=[("retention", "")])).all("RetainUntilDate")[0]
            async def put(part, body):
                return (await it.ask("PUT", "/one/k", body.encode(), query=[(part, "")])).code
            self.assertEqual(await put("retention", f"<Retention><Mode>COMPLIANCE</Mode><RetainUntilDate>{until}</RetainUntilDate></Retention>"), "")
            for mode, date in (("COMPLIANCE", "2099-01-01T00:00:00Z"), ("GOVERNANCE", until)):
                wrong = f"<Retention><Mode>{mode}</Mode><RetainUntilDate>{date}</RetainUntilDate></Retention>"
                self.assertEqual(await put("retention", wrong), "InvalidRequest")
            self.assertEqual(await put("legal-hold", "<LegalHold><Status>ON</Status></LegalHold>"), "InvalidRequest")
            self.assertEqual((await it.ask("GET", "/one/k", query=[("legal-hold", "")])).all("Status"), ["OFF"])
            self.assertEqual((await it.ask("PUT", "/one/k", b"", x_amz_object_lock_mode="GOVERNANCE")).code, "InvalidRequest")
            rule = await it.ask("GET", "/one", query=[("object-lock", "")])
            self.assertEqual((rule.all("Mode"), rule.all("Days")), (["COMPLIANCE"], ["30"]))
            suspended = b"<VersioningConfiguration><Status>Suspended</Status></VersioningConfiguration>"
            self.assertEqual((await it.ask("PUT", "/one", suspended, query=[("versioning", "")])).code, "InvalidBucketState")

        with_client(work)

    def test_parts(self):
        async def work(gateway, it):
            id = (await it.ask("POST", "/one/k", query=[("uploads", "")], content_type="a/b")).all("UploadId")[0]
            data = BYTES * 5
            etags = []
            for number, part in ((1, data), (2, b"end")):
                reply = await it.ask("PUT", "/one/k", part, query=[("partNumber", str(number)), ("uploadId", id)])
                etags.append(reply.headers["etag"])
            self.assertEqual((await it.ask("GET", "/one/k", query=[("uploadId", id)])).all("PartNumber"), ["1", "2"])
            self.assertEqual((await it.ask("GET", "/one", query=[("uploads", "")])).all("UploadId"), [id])
            self.assertEqual((await it.ask("PUT", "/one/k", b"", query=[("partNumber", "0"), ("uploadId", id)])).code, "InvalidArgument")
            self.assertEqual((await it.ask("PUT", "/one/k", b"", query=[("partNumber", "1"), ("uploadId", "0")])).code, "NoSuchUpload")
            await it.ask("PUT", "/one/source", b"mill")
            reply = await it.ask("PUT", "/one/k", b"", query=[("partNumber", "3"), ("uploadId", id)], x_amz_copy_source="/one/source",
                                 x_amz_copy_source_range="bytes=0-1,2-3")
            self.assertEqual(reply.code, "InvalidArgument")
            def body(*named):
                rows = "".join(f"<Part><PartNumber>{number}</PartNumber><ETag>{etag}</ETag></Part>" for number, etag in named)
                return f"<CompleteMultipartUpload>{rows}</CompleteMultipartUpload>".encode()
            for named, code in ((((2, etags[1]), (1, etags[0])), "InvalidPartOrder"), (((1, etags[1]),), "InvalidPart"), ((), "MalformedXML")):
                self.assertEqual((await it.ask("POST", "/one/k", body(*named), query=[("uploadId", id)])).code, code)
            reply = await it.ask("POST", "/one/k", body((1, etags[0]), (2, etags[1])), query=[("uploadId", id)])
            digest = hashlib.md5(b"".join(bytes.fromhex(etag.strip('"')) for etag in etags)).hexdigest()
            got = await it.ask("GET", "/one/k")
            self.assertEqual((reply.status, got.headers["etag"], got.headers["content-type"]), (200, f'"{digest}-2"', "a/b"))
            self.assertEqual(got.body, data + b"end")
            self.assertEqual((await it.ask("DELETE", "/one/k", query=[("uploadId", id)])).code, "NoSuchUpload")
            await it.ask("PUT", "/one/k", b"newer")
            again = await it.ask("POST", "/one/k", body((1, etags[0]), (2, etags[1])), query=[("uploadId", id)])  # its reply was lost
            self.assertEqual((again.status, again.headers["x-amz-version-id"]), (200, reply.headers["x-amz-version-id"]))
            self.assertEqual((await it.ask("GET", "/one/k")).body, b"newer")
            self.assertEqual((await it.ask("POST", "/one/other", body((1, etags[0])), query=[("uploadId", id)])).code, "NoSuchUpload")

        with_client(work)


class Lists(unittest.TestCase):
    def test_lists(self):
        async def work(gateway, it):
            for key in ("a", "b/1", "b/2", "c&<\x01>"):
                await it.ask("PUT", f"/one/{key}", b"")
            one = await it.ask("GET", "/one", query=[("list-type", "2"), ("max-keys", "2")])
            self.assertEqual((one.all("Key"), one.all("IsTruncated"), one.all("KeyCount")), (["a", "b/1"], ["true"], ["2"]))
            two = await it.ask("GET", "/one", query=[("list-type", "2"), ("continuation-token", one.all("NextContinuationToken")[0])])
            self.assertEqual(two.all("Key"), ["b/2", "c&amp;&lt;&#x1;&gt;"])
            first = await it.ask("GET", "/one", query=[("delimiter", "/"), ("encoding-type", "url"), ("max-keys", "2")])
            self.assertEqual((first.all("Key"), first.all("Prefix")[1:], first.all("NextMarker")), (["a"], ["b/"], ["b/"]))
            rest = await it.ask("GET", "/one", query=[("delimiter", "/"), ("encoding-type", "url"), ("marker", "b/")])
            self.assertEqual((rest.all("Key"), rest.all("IsTruncated")), (["c%26%3C%01%3E"], ["false"]))
            for query in ([("list-type", "3")], [("max-keys", "x")], [("encoding-type", "x")], [("list-type", "2"), ("continuation-token", "?")]):
                self.assertEqual((await it.ask("GET", "/one", query=query)).code, "InvalidArgument")

        with_client(work)

    def test_buckets(self):
        async def work(gateway, it):
            self.assertEqual((await it.ask("PUT", "/one")).code, "BucketAlreadyOwnedByYou")
            self.assertEqual((await it.ask("PUT", "/ab")).code, "InvalidBucketName")
            self.assertEqual((await it.ask("PUT", "/two")).status, 200)
            self.assertEqual((await it.ask("DELETE", "/two")).status, 204)
            self.assertEqual((await it.ask("HEAD", "/two")).status, 404)
            for part, text in (("location", "LocationConstraint"), ("versioning", "Enabled"), ("acl", "FULL_CONTROL"), ("lifecycle", "Noncurrent"),
                               ("lifecycle", "<DaysAfterInitiation>7</DaysAfterInitiation>")):
                self.assertIn(text, (await it.ask("GET", "/one", query=[(part, "")])).body.decode())
            with mock.patch("s4d.store.store.BUCKETS", 1):
                self.assertEqual((await it.ask("PUT", "/more")).code, "TooManyBuckets")
            for part, code in (("policy", "NoSuchBucketPolicy"), ("cors", "NoSuchCORSConfiguration"),
                               ("website", "NoSuchWebsiteConfiguration"), ("torrent", "NotImplemented")):
                self.assertEqual((await it.ask("GET", "/one", query=[(part, "")])).code, code)

        with_client(work)


class Held(unittest.TestCase):
    """What a client may send and take has an end."""

    def test_sizes(self):
        async def work(gateway, it):
            for path, body, query, code in (("/one/k", b"x" * 101, [], "EntityTooLarge"),
                                            ("/one", b"x" * 201, [("delete", "")], "MaxMessageLengthExceeded")):
                self.assertEqual((await it.ask("PUT" if not query else "POST", path, body, query=query)).code, code)
            reply = await it.ask("PUT", "/one/k", b"", x_amz_meta_a="x" * 2_048)
            self.assertEqual(reply.code, "MetadataTooLarge")
            it.writer.write(b"GET / HTTP/1.1\r\na: " + b"x" * 40_000)
            self.assertEqual((await it.reply()).code, "RequestHeaderSectionTooLarge")
            self.assertTrue(await it.is_ended())

        with mock.patch("s4d.s3.context.OBJECT_BYTES", 100), mock.patch("s4d.s3.context.XML_BYTES", 200):
            with_client(work)

    def test_times(self):
        async def work(gateway, it):
            with mock.patch.object(http, "IDLE_SECONDS", 0.1):
                self.assertTrue(await (await gateway.connect()).is_ended())
            headers = Signer().headers("PUT", "/one/k", [], b"", {}, "UNSIGNED-PAYLOAD")
            slow = await gateway.connect()
            with mock.patch.object(http, "BODY_SECONDS", 0.1):
                slow.writer.write(b"PUT /one/k HTTP/1.1\r\ncontent-length: 100\r\n"
                                  + "".join(f"{name}: {value}\r\n" for name, value in headers.items()).encode() + b"\r\nx")
                self.assertEqual((await slow.reply()).code, "RequestTimeout")

        with_client(work)

    def test_a_body_that_nobody_wants(self):
        """Who hasn't signed holds no place by a body that doesn't come."""
        async def work(gateway, it):
            it.writer.write(b"PUT /one/k HTTP/1.1\r\nhost: test\r\ncontent-length: 1000\r\n\r\n")
            self.assertEqual((await asyncio.wait_for(it.reply(), 20)).code, "AccessDenied")
            self.assertTrue(await it.is_ended())

        with_client(work)

    def test_what_follows_a_fault_is_no_request(self):
        async def work(gateway, it):
            more = {"x-amz-decoded-content-length": "4", "transfer-encoding": "chunked"}
            for sent in (b"zz\r\n0\r\n\r\n", b"1\r\nxyz\r\n0\r\n\r\n"):
                headers = Signer().headers("PUT", "/one/k", [], b"", more, "STREAMING-UNSIGNED-PAYLOAD-TRAILER")
                client = await gateway.connect()
                reply = await client.send("PUT", "/one/k", sent + b"GET / HTTP/1.1\r\n\r\n", [], headers)
                self.assertEqual((reply.status, reply.code), (400, "InvalidRequest"))
                self.assertTrue(await client.is_ended())

        with_client(work)

    def test_a_body_that_is_not_as_long_as_was_said(self):
        """Its connection ends: what follows would be taken for its rest."""
        async def work(gateway, it):
            await it.ask("PUT", "/one/k", b"mill")

            async def cut(*_words):
                yield b"mi"

            with mock.patch.object(gateway.store, "stream", cut), self.assertRaises((EOFError, ConnectionError)):
                await asyncio.wait_for(it.ask("GET", "/one/k"), http.IDLE_SECONDS / 2)

        with_client(work)

    def test_who_takes_nothing(self):
        """Its connection is let go with what wasn't sent, and counts until then."""
        class Stuck(mock.Mock):
            async def drain(self):
                await asyncio.sleep(PATIENCE)

            wait_closed = drain

        async def work(gateway, it):
            stuck = Stuck()
            with mock.patch.object(http, "BODY_SECONDS", 0.01), self.assertRaises(http.Ended):
                await http.write_answer(stuck, http.Answer(body=b"x"), False)
            stuck.transport.abort.assert_called_once_with()
            stuck = Stuck()
            with mock.patch.object(server, "BODY_SECONDS", 2), mock.patch.object(gateway.server, "_serve", mock.AsyncMock()):
                attending = asyncio.ensure_future(gateway.server._attend(mock.Mock(), stuck))
                await asyncio.sleep(0.01)
                self.assertEqual(len(gateway.server._tasks), 2)
                await attending
            stuck.close.assert_called_once_with()
            stuck.transport.abort.assert_called_once_with()

        with_client(work)

    def test_connections(self):
        async def work(gateway, it):
            silent = [await gateway.connect() for _ in range(3)]
            while len(gateway.server._tasks) < 4:
                await asyncio.sleep(0.01)
            new = await gateway.connect()
            self.assertEqual((await new.ask("HEAD", "/one")).status, 200)
            reads = [asyncio.ensure_future(client.reader.read(1)) for client in (it, *silent)]
            ended, others = await asyncio.wait(reads, return_when=asyncio.FIRST_COMPLETED)
            self.assertEqual((ended, len(others)), ({reads[0]}, 3))  # the one that has been without a request for longest
            for read in others:
                read.cancel()
            await asyncio.wait(reads)
            self.assertTrue(reads[0].exception() is not None or reads[0].result() == b"")

        with mock.patch.object(server, "CONNECTIONS", 4):
            with_client(work)

    def test_requests_of_a_key(self):
        async def work(gateway, it):
            await nobody_works(gateway)
            gateway.gateway._working["owner"] = limits.KEY_REQUESTS
            self.assertEqual((await it.ask("GET", "/one")).code, "SlowDown")
            self.assertEqual((await it.ask("GET", "/one", signer=Signer(READER))).status, 200)

        with_client(work)

    def test_an_answer_that_is_not_taken(self):
        """Its request counts for its key until it is."""
        async def work(gateway, it):
            await nobody_works(gateway)
            taking, write_answer, answers = asyncio.Event(), http.write_answer, []

            async def slowly(*words):
                answers.append(words)
                await taking.wait()
                await write_answer(*words)

            with mock.patch.object(server, "write_answer", slowly), mock.patch("s4d.s3.gateway.KEY_REQUESTS", 2):
                asks = [asyncio.ensure_future((await gateway.connect()).ask("GET", "/one")) for _ in range(3)]
                while len(answers) < 3:
                    await asyncio.sleep(0.01)
                self.assertEqual(gateway.gateway._working["owner"], 2)
                taking.set()
                self.assertEqual(sorted(it.status for it in await asyncio.gather(*asks)), [200, 200, 503])
            await nobody_works(gateway)

        with_client(work)

    def test_who_has_not_signed_goes_first(self):
        """Where another connection comes, that of a request that was refused goes, whatever its answer waits for."""
        async def work(gateway, it):
            it.writer.write(b"PUT /one/k HTTP/1.1\r\nhost: test\r\ncontent-length: 1000\r\n\r\n")
            while not gateway.server._idle:
                await asyncio.sleep(0.01)
            self.assertEqual((await (await gateway.connect()).ask("HEAD", "/one")).status, 200)
            with self.assertRaises((OSError, EOFError)):
                await it.reply()

        with mock.patch.object(server, "CONNECTIONS", 1), mock.patch.object(server, "LINGER_SECONDS", PATIENCE):
            with_client(work)

    def test_paths_in_the_log(self):
        async def work(gateway, it):
            gateway.gateway._log = mock.Mock(settle=mock.AsyncMock())
            self.assertEqual((await it.send("GET", "/" + "x" * 9_000, b"", [], {"host": "test"})).code, "AccessDenied")
            said = gateway.gateway._log.write.call_args[1]
            self.assertEqual((said["path"], said["error"], said.get("key")), ("/" + "x" * 1_099, "AccessDenied", None))

        with_client(work)

    def test_what_is_no_request(self):
        async def work(gateway, it):
            for sent in (b"hello", b"GET / HTTP/2", b"GET http://x/ HTTP/1.1", b"GET / HTTP/1.1\r\nno colon", b"GET / HTTP/1.1\r\na b: c",
                         b"PUT /one/k HTTP/1.1\r\nx-amz-meta-a\nset-cookie: b", b"GET / HTTP/1.1\r\na: b\ncontent-length: 5",
                         b"GET / HTTP/1.1\r\na: b\rx: c", b"GET / HTTP/1.1\r\nhost: b", b"GET / HTTP/1.1\r\ncontent-length: -1",
                         b"GET /%ff HTTP/1.1", b"GET / HTTP/1.1\r\ntransfer-encoding: gzip"):
                client = await gateway.connect()
                client.writer.write(sent + b"\r\nhost: test\r\n\r\n")
                reply = await client.reply()
                self.assertIn(reply.code, ("InvalidRequest", "InvalidURI", "NotImplemented"))
                self.assertTrue(await client.is_ended())
            self.assertEqual((await it.ask("PATCH", "/one")).code, "MethodNotAllowed")
            self.assertEqual((await it.ask("POST", "/one/k")).code, "MethodNotAllowed")

        with_client(work)

    def test_expect(self):
        async def work(gateway, it):
            headers = Signer().headers("PUT", "/one/k", [], b"mill", {})
            text = "".join(f"{name}: {value}\r\n" for name, value in headers.items())
            it.writer.write(f"PUT /one/k HTTP/1.1\r\nexpect: 100-continue\r\ncontent-length: 4\r\n{text}\r\n".encode())
            self.assertEqual((await it.reader.readuntil(b"\r\n\r\n")), b"HTTP/1.1 100 Continue\r\n\r\n")
            it.writer.write(b"mill")
            self.assertEqual((await it.reply()).status, 200)
            wrong = text.replace("Signature=", "Signature=0")[:-3]
            it.writer.write(f"PUT /one/k HTTP/1.1\r\nexpect: 100-continue\r\ncontent-length: 4\r\n{wrong}\r\n\r\n".encode())
            self.assertEqual((await it.reply()).status, 403)  # and nothing asks for the body
            self.assertTrue(await it.is_ended())

        with_client(work)

    def test_a_store_that_is_full_or_away(self):
        async def work(gateway, it):
            self.assertEqual((await it.ask("PUT", "/one/k", BYTES[:90_000])).status, 200)
            for _ in range(4):
                reply = await it.ask("PUT", "/one/l", BYTES[:90_000])
            self.assertEqual((reply.status, reply.code), (507, "InsufficientStorage"))
            for drive in gateway.store.pieces.drives:
                drive.is_away = True
            for method, body in (("GET", b""), ("PUT", b"x")):
                reply = await it.ask(method, "/one/k", body)
                self.assertEqual((reply.status, reply.code), (503, "ServiceUnavailable"))

        with_client(work, PlainStores(room=200_000))


class Files(unittest.TestCase):
    def test_keys(self):
        with tempfile.TemporaryDirectory() as folder:
            path = pathlib.Path(folder) / "keys"
            path.write_text("# who\n\nabc sixteen-letters-1 write *\ndef sixteen-letters-2 read one,two\n", encoding="utf-8")
            keys = keys_in(str(path))
            self.assertNotIn("sixteen", repr(keys))
            self.assertEqual(keys["def"], Key("def", "sixteen-letters-2", False, frozenset(["one", "two"])))
            self.assertIsNone(keys["abc"].buckets)
            for text, line in (("a b c", "give an access key"), ("abc short write *", "the secret has less than 16"),
                               ("abc sixteen-letters-1 all *", ":1: the third word is neither read nor write"), ("", "has no key"),
                               ("abc sixteen-letters-1 read ONE", "'ONE' is no bucket's name"),
                               ("abc sixteen-letters-1 read *\n" * 2, ":2: abc is named twice")):
                path.write_text(text, encoding="utf-8")
                with self.assertRaisesRegex(ValueError, line):
                    keys_in(str(path))

    def test_xml(self):
        data = document("A", [("B", 'a"<&>\n'), ("C", [("D", 1), ("E", True)])])
        self.assertTrue(data.endswith(b"<B>a&quot;&lt;&amp;&gt;&#xa;</B><C><D>1</D><E>true</E></C></A>"))
        self.assertEqual(parsed(data, "A").findtext("C/D"), "1")
        defines = '<?xml version="1.0" encoding="utf-16"?><!DOCTYPE A [<!ENTITY b "c">]><A>&b;</A>'
        for data, name in ((data, "B"), (defines.encode("utf-8"), "A"), (defines.encode("utf-16"), "A"),
                           (b"<A>" + b"<B/>" * 100_000 + b"</A>", "A")):
            with self.assertRaises(S3Error):
                parsed(data, name)


if __name__ == "__main__":
    unittest.main()
