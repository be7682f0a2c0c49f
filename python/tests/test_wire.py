"""Requests and replies as bytes, and sessions over streams in memory. These tests need no program."""
import io
import socket
import unittest

import s4d
from s4d import wire


def frames(*bodies):
    return b"".join(len(body).to_bytes(4, "big") + body for body in bodies)


def drive(replies, **options):
    return s4d.Drive(io.BytesIO(replies), io.BytesIO(), **options)


class Spelling(unittest.TestCase):
    def test_requests(self):
        one = bytes(7) + b"\1"
        for request, body in (
                (wire.create(b"note"), b"\x01\x04note"),
                (wire.delete(1), b"\x02" + one),
                (wire.read(1, 1, 2, None), b"\x03" + one + one + b"\0\0\0\2\0"),
                (wire.read(1, 1, 2, 1), b"\x03" + one + one + b"\0\0\0\2\1" + one),
                (wire.write(1, 1, b"ab"), b"\x04" + one + one + b"ab"),
                (wire.append(1, b"ab"), b"\x05" + one + b"ab"),
                (wire.truncate(1, 1), b"\x06" + one + one),
                (wire.attributes(1, None), b"\x07" + one + b"\0"),
                (wire.set_attribute(1, b"x"), b"\x08" + one + b"\x01x"),
                (wire.set_window(1), b"\x09" + one),
                (wire.flush(1, 1), b"\x0a" + one + one),
                (wire.flush_object(1, 1, 1), b"\x0b" + one + one + one),
                (wire.audit(1, 512), b"\x0c" + one + b"\2\0")):
            with self.subTest(request.name):
                self.assertEqual(request.frame(), frames(body))

    def test_numbers_that_have_no_spelling(self):
        for wrong in (-1, 2**64):
            with self.subTest(wrong), self.assertRaises(ValueError):
                wire.delete(wrong)
        with self.assertRaises(ValueError):
            wire.append(1, b"x" * (s4d.BODY_BYTES - 8))
        self.assertEqual(len(wire.write(1, 0, bytes(s4d.WRITE_BYTES)).body), s4d.BODY_BYTES)
        with self.assertRaisesRegex(ValueError, "a request has at most 32,768 bytes, this one 32,769"):
            wire.write(1, 0, bytes(s4d.WRITE_BYTES + 1))

    def test_replies(self):
        reply = b"\x04" + (5).to_bytes(4, "big") + (1).to_bytes(8, "big") + (2).to_bytes(8, "big") + b"\x01x"
        self.assertEqual(drive(frames(reply)).attributes(1), s4d.Attributes(5, 1, 2, b"x"))
        self.assertEqual(drive(frames(b"\x03abc")).read(1), b"abc")
        self.assertEqual(drive(frames(b"\x02" + bytes(7) + b"\1" + bytes(7) + b"\2")).create(), s4d.Created(1, 2))

    def test_pages_of_an_audit(self):
        def row(moment):
            return b"".join((moment.to_bytes(8, "big"), b"\x04", bytes(7) + b"\1", bytes(8), bytes(7) + b"\3"))

        pages = [b"\x05" + b"".join(map(row, range(1, 513))), b"\x05" + row(513)]
        rows = list(drive(frames(*pages)).audit())
        self.assertEqual([told.moment for told in rows], list(range(1, 514)))
        self.assertEqual(rows[-1], s4d.AuditRow(513, s4d.AuditKind.WRITE, 1, 0, 3))
        self.assertEqual(list(drive(frames(b"\x05")).audit(7)), [])
        for wrong in (b"\x05\0", b"\x05" + row(1)[:8] + b"\x05" + row(1)[9:], b"\x05" + row(1) * 513):
            with self.subTest(wrong[:12]), self.assertRaises(s4d.BadReply):
                list(drive(frames(wrong)).audit())

    def test_bytes_that_are_no_reply(self):
        for reply in (b"\0\0\0\0", b"\0\0\x60\2\3", b"\0\0\0\2\0\x10", b"\0\0\0\1\5", b"\0\0\0\1\3", b"\xff\0\0\0", b"\0\0\0\2\1\0"):
            with self.subTest(reply=reply):
                it = drive(reply)
                with self.assertRaises(s4d.BadReply):
                    it.append(1, b"x")
                with self.assertRaises(s4d.Disconnected):
                    it.append(1, b"x")


class Pieces(unittest.TestCase):
    """Objects that are larger than a reply or a request."""

    FULL, REST = b"\x03" + b"a" * s4d.READ_BYTES, b"\x03" + b"b" * 7

    def check_read(self, bodies, asked, **how):
        """What is read of object 1 over these replies, and that these requests were written."""
        sent = io.BytesIO()
        found = s4d.Drive(io.BytesIO(frames(*bodies)), sent).read(1, **how)
        self.assertEqual(sent.getvalue(), b"".join(request.frame() for request in asked))
        return found

    @staticmethod
    def of_version(moment):
        return b"\x04" + bytes(4) + bytes(8) + moment.to_bytes(8, "big") + b"\0"

    @staticmethod
    def reads(*offsets, at=None):
        return [wire.read(1, offset, s4d.READ_BYTES, at) for offset in offsets]

    def test_a_small_object_is_one_request(self):
        self.assertEqual(self.check_read([self.REST], self.reads(0)), b"b" * 7)

    def test_a_length_is_one_request(self):
        self.assertEqual(self.check_read([self.FULL], self.reads(5), offset=5, length=s4d.READ_BYTES), self.FULL[1:])

    def test_at_a_moment(self):
        found = self.check_read([self.FULL, self.FULL, b"\x03"], self.reads(1, 24_577, 49_153, at=9), offset=1, at=9)
        self.assertEqual(found, b"a" * 49_152)

    def test_one_version_now(self):
        asked = [*self.reads(0), wire.attributes(1, None), *self.reads(0, 24_576), wire.attributes(1, None)]
        bodies = [self.FULL, self.of_version(4), self.FULL, self.REST, self.of_version(4)]
        self.assertEqual(self.check_read(bodies, asked), b"a" * 24_576 + b"b" * 7)

    def test_another_session_changes_it_meanwhile(self):
        asked = [*self.reads(0), wire.attributes(1, None), *self.reads(0, 24_576), wire.attributes(1, None), *self.reads(0, at=5)]
        bodies = [self.FULL, self.of_version(4), self.FULL, self.REST, self.of_version(5), b"\x03new"]
        self.assertEqual(self.check_read(bodies, asked), b"new")

    def test_a_change_that_can_not_be_read(self):
        look = wire.attributes(1, None)
        asked = [*self.reads(0), look, *self.reads(0, 24_576), look, *self.reads(0, at=5), *self.reads(0), look]
        bodies = [self.FULL, self.of_version(4), self.FULL, self.REST, self.of_version(5), b"\0\3", b"\x03new", self.of_version(5)]
        self.assertEqual(self.check_read(bodies, asked), b"new")

    def test_writes(self):
        moments = [b"\x01" + moment.to_bytes(8, "big") for moment in (5, 6, 7)]
        sent = io.BytesIO()
        it = s4d.Drive(io.BytesIO(frames(*moments, moments[0])), sent)
        self.assertEqual(it.write_pieces(1, 3, b"x" * 50_000), [5, 6, 7])
        self.assertEqual(it.write_pieces(1, 3, b""), [5])
        parts = [wire.write(1, 3 + 24_576 * k, b"x" * size) for k, size in enumerate((24_576, 24_576, 848))]
        self.assertEqual(sent.getvalue(), b"".join(it.frame() for it in [*parts, wire.write(1, 3, b"")]))

    def test_a_write_that_is_refused(self):
        it = drive(frames(b"\x01" + bytes(7) + b"\5", b"\0\x09"))
        with self.assertRaises(s4d.NoSpace):
            it.write_pieces(1, 0, b"x" * 50_000)


class Refusals(unittest.TestCase):
    def test_each_number_has_a_class(self):
        for number, kind in s4d.REFUSALS.items():
            with self.subTest(kind.__name__), self.assertRaises(kind) as caught:
                drive(frames(bytes([0, number]))).delete(7)
            self.assertIs(getattr(s4d, kind.__name__), kind)
            self.assertTrue(kind.__doc__)
            self.assertEqual(str(caught.exception), f"{kind.__name__}: delete of object 7")

    def test_object_and_moment(self):
        with self.assertRaises(s4d.Expired) as caught:
            drive(frames(b"\0\3")).at(5).read(7)
        self.assertEqual((caught.exception.request, caught.exception.object, caught.exception.at), ("read", 7, 5))
        self.assertEqual(str(caught.exception), "Expired: read of object 7 at moment 5")


class Retries(unittest.TestCase):
    BUSY, NO_SPACE, CHANGED = b"\0\x0e", b"\0\x09", b"\1" + bytes(7) + b"\5"
    QUICK = s4d.Retry(times=2, wait=0)

    def test_what_passes_is_asked_again(self):
        self.assertEqual(drive(frames(self.BUSY, self.NO_SPACE, self.CHANGED), retry=self.QUICK).delete(1), 5)

    def test_the_last_refusal_is_raised(self):
        it = drive(frames(self.BUSY, self.BUSY, self.NO_SPACE, self.CHANGED), retry=self.QUICK)
        with self.assertRaises(s4d.NoSpace):
            it.delete(1)
        self.assertEqual(it.delete(1), 5)

    def test_other_refusals_are_raised_at_once(self):
        it = drive(frames(b"\0\x0c", self.CHANGED), retry=self.QUICK)
        with self.assertRaises(s4d.ChainFull):
            it.delete(1)

    def test_nothing_is_asked_again_without_a_policy(self):
        with self.assertRaises(s4d.Busy):
            drive(frames(self.BUSY, self.CHANGED)).delete(1)

    def test_waits(self):
        self.assertEqual(list(s4d.Retry(times=3, wait=1, factor=2).waits()), [1, 2, 4])


class Ends(unittest.TestCase):
    def test_a_stream_that_ends(self):
        for reply in (b"", b"\0\0", b"\0\0\0\x09\1\0"):
            with self.subTest(reply=reply):
                it = drive(reply)
                for _ in range(2):
                    with self.assertRaises(s4d.Disconnected) as caught:
                        it.append(1, b"x")
                    self.assertIsNone(caught.exception.ended)

    def test_a_stream_that_fails(self):
        class Failing(io.BytesIO):
            def read(self, count=-1):
                raise OSError("gone")

        with self.assertRaisesRegex(s4d.Disconnected, "gone"):
            s4d.Drive(Failing(), io.BytesIO()).delete(1)

    def test_a_pair_of_sockets(self):
        ours, theirs = socket.socketpair()
        with ours, theirs, ours.makefile("rb") as reader, ours.makefile("wb") as writer:
            theirs.sendall(frames(b"\x03abc"))
            self.assertEqual(s4d.Drive(reader, writer).read(1), b"abc")
            self.assertEqual(theirs.recv(100), wire.read(1, 0, s4d.READ_BYTES, None).frame())

    def test_addresses_that_are_none(self):
        for address in ("here", "here:", ":1", "here:x"):
            with self.subTest(address), self.assertRaises(ValueError):
                s4d.Drive.connect(address)


if __name__ == "__main__":
    unittest.main()
