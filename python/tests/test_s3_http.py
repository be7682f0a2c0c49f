"""Requests of HTTP that programs before the gateway might take for others: each has one answer, and what follows it is no request."""
import asyncio
import unittest
from unittest import mock

from s4d.s3 import http
from s4d.s3.limits import EMPTY_BYTES, HEAD_BYTES

from .s3_client import Gatewayed, Signer

SECONDS = 60  # that a test may take
UNSIGNED, CHUNKS = "UNSIGNED-PAYLOAD", "STREAMING-UNSIGNED-PAYLOAD-TRAILER"


def with_client(work):
    """Runs work with a client of a new gateway, which has the key `k` in the bucket `one`."""
    async def all_of():
        async with Gatewayed() as gateway:
            it = await gateway.connect()
            await it.ask("PUT", "/one")
            await it.ask("PUT", "/one/k", b"mill")
            await work(gateway, it)

    asyncio.run(asyncio.wait_for(all_of(), SECONDS))


def head_of(method, path, *lines, body=b"", payload=None, version="HTTP/1.1", **more):
    """A signed head, and these lines after it."""
    signed = Signer().headers(method, path, [], body, {name.replace("_", "-"): value for name, value in more.items()}, payload)
    return "\r\n".join([f"{method} {path} {version}", *(f"{name}: {value}" for name, value in signed.items()), *lines, "", ""]).encode()


def chunked(*lines, body, **more):
    """A put of a body in chunks, whose bytes are `mill` where all is well."""
    return head_of("PUT", "/one/new", "transfer-encoding: chunked", *lines, payload=CHUNKS, x_amz_decoded_content_length="4", **more) + body


AWS = b"4\r\nmill\r\n0\r\n\r\n"  # as the body of `aws-chunked`
WHOLE = b"e\r\n" + AWS + b"\r\n0\r\n\r\n"


class Ends(unittest.TestCase):
    """Where a request ends."""

    async def only_answer(self, gateway, sent):
        """The answer to what is sent, with the deletion of a key after it; nothing else is answered, and nothing was changed."""
        client = await gateway.connect()
        client.writer.write(sent + head_of("DELETE", "/one/k"))
        reply = await client.reply()
        self.assertTrue(await client.is_ended())
        self.assertEqual(gateway.store.bucket("one").live, ["k"])
        self.assertEqual(reply.headers.get("connection"), "close")
        return reply.status, reply.code

    def test_lengths_that_do_not_agree(self):
        async def work(gateway, _):
            for lines in (["content-length: 4", "transfer-encoding: chunked"], ["transfer-encoding: chunked", "content-length: 13"],
                          ["content-length: 4", "content-length: 13"], ["content-length: 4", "Content-Length: 4"],
                          ["content-length: 4, 4"], ["content-length: +4"], ["content-length: 0x4"], ["content-length: 4_0"], ["content-length:"],
                          ["transfer-encoding: chunked", "transfer-encoding: chunked"], ["content-length : 4"],
                          ["transfer-encoding: chunked", " x: y"], ["transfer-encoding:\x0bchunked"], ["transfer-encoding\x00: chunked"]):
                sent = head_of("PUT", "/one/new", *lines, payload=UNSIGNED) + AWS
                self.assertEqual(await self.only_answer(gateway, sent), (400, "InvalidRequest"), lines)
            sent = head_of("PUT", "/one/new", "transfer-encoding: chunked", payload=UNSIGNED, version="HTTP/1.0") + AWS
            self.assertEqual(await self.only_answer(gateway, sent), (400, "InvalidRequest"))
            for value in ("gzip, chunked", "chunked, identity", "xchunked", "identity", ""):
                sent = head_of("PUT", "/one/new", f"transfer-encoding: {value}", payload=UNSIGNED) + AWS
                self.assertEqual(await self.only_answer(gateway, sent), (501, "NotImplemented"), value)

        with_client(work)

    def test_lines_that_go_on(self):
        """What begins with a space belongs to the header before it for some, and not for others."""
        async def work(gateway, _):
            for lines in (["a: b", " c"], ["a: b", "\tc: d"], [" a: b"], ["a: b", " ", "c: d"]):
                self.assertEqual(await self.only_answer(gateway, head_of("GET", "/one/k", *lines)), (400, "InvalidRequest"), lines)
            sent = head_of("GET", "/one/k").replace(b"\r\nhost", b"\r\n host", 1)
            self.assertEqual(await self.only_answer(gateway, sent), (400, "InvalidRequest"))

        with_client(work)

    def test_hosts(self):
        async def work(gateway, _):
            for sent in (b"GET / HTTP/1.1\r\n\r\n", b"GET / HTTP/1.1\r\nhost: a\r\nhost: a\r\n\r\n"):
                self.assertEqual(await self.only_answer(gateway, sent), (400, "InvalidRequest"))

        with_client(work)

    def test_chunks_that_are_none(self):
        async def work(gateway, it):
            for body in (b"e;a\nb\r\n" + AWS + b"\r\n0\r\n\r\n", b" e\r\n" + AWS + b"\r\n0\r\n\r\n", b"0xe\r\n" + AWS + b"\r\n0\r\n\r\n",
                         b"+e\r\n" + AWS + b"\r\n0\r\n\r\n", b"e\r\n" + AWS + b"0\r\n\r\n", b"e\n" + AWS + b"\n0\n\n\r\n", b"\r\n" + WHOLE,
                         b"f" * 13 + b"\r\n" + AWS, b"d\r\n" + AWS + b"\r\n0\r\n\r\n", b"e;" + b"x" * 40_000 + b"\r\n" + AWS,
                         b"e\r\n" + AWS + b"\r\n0\r\n" + b"a: b\r\n" * 4_000 + b"\r\n"):
                status, code = await self.only_answer(gateway, chunked(body=body))
                self.assertEqual((status, code), (400, "InvalidRequest"), body[:30])
            for body in (WHOLE, b"E ; a=\"b\"\r\n" + AWS + b"\r\n00\r\na: b\r\n\r\n", b"10\r\n" + AWS + b"\r\n\r\n0\r\n\r\n",
                         b"".join(b"1\r\n%c\r\n" % it for it in AWS) + b"0\r\n\r\n"):
                it.writer.write(chunked(body=body) + head_of("GET", "/one/new"))
                self.assertEqual([((await it.reply()).status, body) for _ in range(2)], [(200, body)] * 2)
                await it.ask("DELETE", "/one/new")

        with_client(work)

    def test_what_follows_the_last_chunk(self):
        """Of `aws-chunked` is part of the same body, and no more than ends of lines, which some clients send."""
        async def work(gateway, it):
            for more, status in ((b"x", 400), (b"\r\nmill", 400), (b"\r\n" * EMPTY_BYTES, 400), (b"", 200), (b"\r\n\r\n", 200)):
                length = f"content-length: {len(AWS + more)}"
                it.writer.write(head_of("PUT", "/one/new", length, payload=CHUNKS, x_amz_decoded_content_length="4") + AWS + more)
                self.assertEqual((await it.reply()).status, status, more)
                self.assertEqual(gateway.store.bucket("one").live, ["k", "new"] if status == 200 else ["k"])

        with_client(work)

    def test_requests_in_a_row(self):
        """Are answered in their order, whatever bodies they have."""
        async def work(gateway, it):
            it.writer.write(head_of("PUT", "/one/a", "content-length: 4", body=b"moor") + b"moor" + b"\r\n" + head_of("GET", "/one/a")
                            + head_of("GET", "/one/k", "content-length: 40") + head_of("DELETE", "/one/k")[:40]
                            + chunked(body=WHOLE) + head_of("HEAD", "/one/new") + head_of("GET", "/one/none") + head_of("DELETE", "/one/a"))
            found = [await it.reply(method) for method in ("PUT", "GET", "GET", "PUT", "HEAD", "GET", "DELETE")]
            self.assertEqual([(reply.status, reply.body) for reply in found[:5]],
                             [(200, b""), (200, b"moor"), (200, b"mill"), (200, b""), (200, b"")])
            self.assertEqual([reply.status for reply in found[5:]], [404, 204])
            self.assertEqual(gateway.store.bucket("one").live, ["k", "new"])

        with_client(work)

    def test_what_follows_the_last_request(self):
        """Isn't looked at, where the request says that it is the last, or its answer does."""
        async def work(gateway, _):
            for lines in (["connection: close"], ["connection: Close, x"], ["connection: te", "connection: close"]):
                self.assertEqual(await self.only_answer(gateway, head_of("GET", "/one/k", *lines)), (200, ""), lines)
            self.assertEqual(await self.only_answer(gateway, head_of("GET", "/one/k", version="HTTP/1.0")), (200, ""))
            refused = head_of("PUT", "/two/k", "content-length: 100000", payload=UNSIGNED)  # whose body nobody takes
            self.assertEqual(await self.only_answer(gateway, refused), (404, "NoSuchBucket"))

        with_client(work)


class Heads(unittest.TestCase):
    """How long a head may be, and take."""

    def test_a_slow_head(self):
        """Is answered, and so is one that never ends, and one whose lines end otherwise."""
        async def work(gateway, it):
            await it.ask("GET", "/one/k")
            for sent in (b"G", b"GET /one/k HTTP/1.1\r\nhost: te", b"GET / HTTP/1.1\nhost: test\n\n"):
                client = await gateway.connect()
                with mock.patch.object(http, "HEAD_SECONDS", 0.2):
                    client.writer.write(sent)
                    reply = await client.reply()
                self.assertEqual((reply.status, reply.code, reply.headers["connection"]), (400, "RequestTimeout", "close"))
                self.assertTrue(await client.is_ended())
            self.assertEqual((await it.ask("GET", "/one/k")).body, b"mill")

        with_client(work)

    def test_a_head_byte_by_byte(self):
        """As long as it comes in its time."""
        async def work(_, it):
            for byte in b"\r\n" + head_of("GET", "/one/k"):
                it.writer.write(bytes([byte]))
                await asyncio.sleep(0)
            self.assertEqual((await it.reply()).body, b"mill")

        with_client(work)

    def test_half_a_head(self):
        """Of who ends the connection there is nobody to answer."""
        async def work(gateway, _):
            for sent in (b"", b"GET /one/k HTTP/1.1\r\nhost: te"):
                client = await gateway.connect()
                client.writer.write(sent)
                client.writer.write_eof()
                self.assertTrue(await client.is_ended())

        with_client(work)

    def test_long_heads(self):
        """Long lines, and many short ones."""
        async def work(gateway, it):
            fits = HEAD_BYTES - 1_000
            for lines in (["a: " + "x" * fits], ["a:b"] * (fits // 5)):
                it.writer.write(head_of("GET", "/one/k", *lines))
                self.assertEqual((await it.reply()).body, b"mill")
            for lines in (["a: " + "x" * HEAD_BYTES], ["a:b"] * HEAD_BYTES):
                client = await gateway.connect()
                client.writer.write(head_of("GET", "/one/k", *lines))
                self.assertEqual((await client.reply()).code, "RequestHeaderSectionTooLarge")
                self.assertTrue(await client.is_ended())

        with_client(work)

    def test_empty_lines(self):
        """Before a request say nothing, as long as they are few."""
        async def work(_, it):
            it.writer.write(b"\r\n" * (EMPTY_BYTES // 2 - 1) + head_of("GET", "/one/k"))
            self.assertEqual((await it.reply()).body, b"mill")
            it.writer.write(b"\r\n" * EMPTY_BYTES + head_of("GET", "/one/k"))
            self.assertEqual((await it.reply()).code, "InvalidRequest")
            self.assertTrue(await it.is_ended())

        with_client(work)

    def test_who_asks_for_no_go_ahead(self):
        """Gets none: HTTP/1.0 has no such answer, and another expectation is none that is known."""
        async def work(gateway, _):
            for version, value in (("HTTP/1.0", "100-continue"), ("HTTP/1.1", "200-ok")):
                client = await gateway.connect()
                client.writer.write(head_of("PUT", "/one/k", f"expect: {value}", "content-length: 4", body=b"moor", version=version) + b"moor")
                self.assertEqual((await client.reply()).status, 200)

        with_client(work)


if __name__ == "__main__":
    unittest.main()
