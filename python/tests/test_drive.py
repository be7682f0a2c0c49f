"""Sessions with the built program: `s4d pipe`, sockets and images."""
import contextlib
import gc
import os
import re
import shutil
import socket
import subprocess
import sys
import tempfile
import threading
import time
import unittest
from unittest import mock

import s4d
from s4d import Attributes, Created, program

from .bridged import wait_until
from .built import PROGRAM, TOP, needs_program


def drive(role="admin", **options):
    return s4d.Drive.pipe(PROGRAM, role, **{"tick": 0, "window": 1_000_000, **options})


@needs_program
class Requests(unittest.TestCase):
    def test_each_request(self):
        with drive() as it:
            made = it.create(b"note")
            self.assertEqual(made, Created(1, 1))
            self.assertEqual(it.write(1, 2, b"abc"), 2)
            self.assertEqual(it.read(1), b"\0\0abc")
            self.assertEqual(it.append(1, b"de"), 3)
            self.assertEqual(it.truncate(1, 4), 4)
            self.assertEqual(it.read(1, 1, 100), b"\0ab")
            self.assertEqual(it.read(1, 4, 1), b"")
            self.assertEqual(it.at(3).read(1), b"\0\0abcde")
            self.assertEqual(it.at(3).read(1, 2, 3), b"abc")
            self.assertEqual(it.set_attribute(1, b"x" * 64), 5)
            self.assertEqual(it.attributes(1), Attributes(4, 1, 5, b"x" * 64))
            self.assertEqual(it.at(2).attributes(1), Attributes(5, 1, 2, b"note"))
            self.assertEqual(it.flush(2, 2), 6)
            self.assertEqual(it.flush_object(1, 3, 3), 7)
            self.assertEqual(it.set_window(50), 8)
            self.assertEqual(it.delete(1), 9)
            kind = s4d.AuditKind
            self.assertEqual([(row.kind, row.first, row.second) for row in it.audit(3)], [
                (kind.WRITE, 5, 2), (kind.TRUNCATE, 4, 0), (kind.SET_ATTRIBUTE, 64, 0), (kind.FLUSH, 2, 2), (kind.FLUSH_OBJECT, 3, 3),
                (kind.SET_WINDOW, 50, 0), (kind.DELETE, 0, 0)])
            with self.assertRaises(s4d.NoObject):
                it.read(1)
        self.assertEqual(it.ended, (0, ""))

    def test_refusals(self):
        with drive("client", tick=1, window=3) as it:
            it.create()
            for kind, ask in (
                    (s4d.NotAdmin, lambda: it.set_window(1)),
                    (s4d.NotAdmin, lambda: list(it.audit())),
                    (s4d.BadAttr, lambda: it.set_attribute(1, b"x" * 65)),
                    (s4d.TooLarge, lambda: it.write(1, 98_304, b"x")),
                    (s4d.TooLarge, lambda: it.read(1, 0, 24_577)),
                    (s4d.Future, lambda: it.read(1, at=1_000)),
                    (s4d.Expired, lambda: it.read(1, at=0)),
                    (s4d.NoObject, lambda: it.delete(2))):
                with self.subTest(kind.__name__), self.assertRaises(kind):
                    ask()
        with drive() as it:
            it.create()
            with self.assertRaises(s4d.BadSpan):
                it.flush(2, 1)
            it.append(1, b"")
            it.flush(1, 1)
            with self.assertRaisesRegex(s4d.Flushed, "Flushed: read of object 1 at moment 1"):
                it.at(1).read(1)

    def test_the_greatest_requests(self):
        with drive(frames=64) as it:
            it.create(b"x" * 64)
            whole = bytes(range(256)) * 384
            self.assertEqual(it.write_pieces(1, 0, whole), [2, 3, 4, 5])
            self.assertEqual(it.read(1), whole)
            self.assertEqual(it.read(1, 98_000), whole[98_000:])
            self.assertEqual((it.at(3).read(1), it.at(5).read(1, 1)), (whole[:49_152], whole[1:]))
            with self.assertRaises(s4d.TooLarge):
                it.append(1, b"x" * (s4d.BODY_BYTES - 9))
            self.assertEqual(it.at(1).attributes(1).attribute, b"x" * 64)


@needs_program
class Pipelines(unittest.TestCase):
    def test_replies_come_in_order(self):
        with drive() as it:
            with it.pipeline() as batch:
                made = batch.create()
                wrote = batch.write(1, 0, b"abc")
                wrong = batch.read(7)
                read = batch.read(1)
            self.assertEqual((made.result(), wrote.result(), read.result()), (Created(1, 1), 2, b"abc"))
            self.assertIsInstance(wrong.refusal(), s4d.NoObject)
            with self.assertRaisesRegex(s4d.NoObject, "object 7"):
                wrong.result()
            self.assertIsNone(read.refusal())

    def test_nothing_is_sent_before_the_end(self):
        with drive() as it:
            batch = it.pipeline()
            made = batch.create()
            with self.assertRaises(s4d.Disconnected):
                made.result()
            self.assertEqual((len(batch), it.create().object), (1, 1))
            self.assertEqual(batch.run(), [made])
            self.assertEqual((len(batch), made.result().object), (0, 2))

    def test_more_than_all_buffers_hold(self):
        with drive() as it:
            it.create()
            it.truncate(1, 24_576)
            with it.pipeline() as batch:
                replies = [batch.read(1) for _ in range(100)] + [batch.append(9, b"x" * 30_000) for _ in range(100)]
            self.assertEqual(sum(len(reply.result()) for reply in replies[:100]), 100 * 24_576)
            self.assertTrue(all(reply.refusal() for reply in replies[100:]))

    def test_each_object_has_its_own_list(self):
        """As many flushes of one moment of each object as a list may have, and thousands in all."""
        with drive(frames=1024) as it:
            with it.pipeline() as batch:
                for _ in range(1_000):
                    batch.create()
            for at in range(1, 120, 2):
                with it.pipeline() as batch:
                    flushed = [batch.flush_object(number, at, at) for number in range(1, 1_001)]
                self.assertTrue(all(reply.refusal() is None for reply in flushed))


@needs_program
@unittest.skipUnless(shutil.which("valgrind"), "valgrind isn't installed")
class Instructions(unittest.TestCase):
    """What requests cost, in instructions: the same each time, whatever else the machine does."""

    def counted(self, requests):
        words = ["valgrind", "--tool=callgrind", "--callgrind-out-file=/dev/null", PROGRAM, "pipe",
                 "--frames", "64", "--window", "1000000", "--tick", "0", "admin"]
        data = b"".join(request.frame() for request in requests)
        ran = subprocess.run(words, input=data, stdout=subprocess.DEVNULL, stderr=subprocess.PIPE, check=False)
        if ran.returncode:
            self.skipTest("valgrind can't run this program: an unproved build has checks of its own")
        return int(re.search(rb"Collected : (\d+)", ran.stderr)[1])

    def test_a_flush_costs_its_own_list(self):
        """60 flushes of each of many objects: the last 15 of each cost about as much as the first 15."""
        objects = range(1, 26)
        made = [s4d.wire.create(b"") for _ in objects]
        flushes = [s4d.wire.flush_object(o, at, at) for at in range(1, 120, 2) for o in objects]
        none, first, most, all_of_them = (self.counted(made + flushes[:rounds * len(objects)]) for rounds in (0, 15, 45, 60))
        self.assertLess(all_of_them - most, 2 * (first - none))


@needs_program
class Ends(unittest.TestCase):
    def test_a_closed_session(self):
        it = drive()
        it.close()
        it.close()
        with self.assertRaises(s4d.Disconnected):
            it.create()
        self.assertEqual(it.ended, s4d.Ended(0, ""))

    def test_what_the_program_said(self):
        with self.assertRaisesRegex(s4d.Disconnected, r"s4d: usage \(status 2\)") as caught, drive("nobody") as it:
            it.create()
        self.assertEqual(caught.exception.ended, s4d.Ended(2, "s4d: usage"))
        with self.assertRaisesRegex(s4d.ProgramFailed, "s4d: usage"):
            drive("nobody").close()

    def test_an_error_on_its_way_is_not_hidden(self):
        with self.assertRaises(KeyError), drive("nobody"):
            raise KeyError

    def test_replies_that_are_never_read(self):
        it = drive()
        it.create()
        it.truncate(1, 24_576)
        it._connection.send(s4d.wire.read(1, 0, s4d.READ_BYTES, None).frame() * 100)
        with self.assertRaises(s4d.ProgramFailed):
            it.close()

    def test_no_program(self):
        with self.assertRaises(FileNotFoundError):
            s4d.Drive.pipe("/nowhere/s4d")


class Timeouts(unittest.TestCase):
    """Sessions with programs that never answer."""

    def setUp(self):
        folder = tempfile.TemporaryDirectory()
        self.addCleanup(folder.cleanup)
        self.program = f"{folder.name}/silent"
        self.start = time.monotonic()
        patch = mock.patch.object(program, "SECONDS_TO_END", 0.1)
        patch.start()
        self.addCleanup(patch.stop)

    def silent(self, line="exec sleep 600"):
        with open(self.program, "w", encoding="utf-8") as file:
            file.write(f"#!/bin/sh\n{line}\n")
        os.chmod(self.program, 0o700)

    def check_killed(self, it):
        """The wait has ended, and the program is killed once the session is closed."""
        self.assertIsNone(it.ended)
        with self.assertRaisesRegex(s4d.ProgramFailed, r"killed after 0.2 seconds \(status -9\)"):
            it.close()
        self.assertLess(time.monotonic() - self.start, 300)

    def test_a_reply_that_does_not_come(self):
        self.silent()
        for it in (s4d.Drive.pipe(self.program, timeout=0.2), s4d.Drive.image("none", self.program, timeout=0.2)):
            with self.assertRaisesRegex(s4d.Disconnected, "the reply could not be read: timed out after 0.2 seconds"):
                it.create()
            with self.assertRaises(s4d.Disconnected):
                it.create()
            self.check_killed(it)

    def test_a_request_that_is_not_taken(self):
        self.silent()
        it = s4d.Drive.pipe(self.program, timeout=0.2)
        with self.assertRaisesRegex(s4d.Disconnected, "the request could not be sent: timed out"):
            for _ in range(100):
                it._connection.send(s4d.wire.append(1, b"x" * 30_000).frame())
        self.check_killed(it)

    def test_a_program_that_does_not_end(self):
        self.silent("printf '\\0\\0\\0\\21\\2\\0\\0\\0\\0\\0\\0\\0\\1\\0\\0\\0\\0\\0\\0\\0\\1'; : > \"$0.said\"; exec sleep 600")
        it = s4d.Drive.pipe(self.program, timeout=0.2)
        wait_until(lambda: os.path.exists(f"{self.program}.said"), "the reply is there")
        self.assertEqual(it.create(), Created(1, 1))
        self.check_killed(it)

    def test_a_program_that_ends_is_no_timeout(self):
        self.silent("echo wrong >&2; exit 3")
        with self.assertRaises(s4d.Disconnected) as caught, s4d.Drive.pipe(self.program, timeout=600) as it:
            it.create()
        self.assertEqual(caught.exception.ended, s4d.Ended(3, "wrong"))

    def test_a_dropped_session_whose_program_does_not_end(self):
        self.silent()
        it = s4d.Drive.image("none", self.program)
        process = it._connection._peer._running.process
        with self.assertWarns(ResourceWarning):
            del it
            gc.collect()
        self.assertEqual(process.returncode, -9)


@needs_program
class TimedSessions(unittest.TestCase):
    def test_a_program_that_answers_in_time(self):
        with drive(timeout=600) as it:
            it.create()
            it.truncate(1, 24_576)
            with it.pipeline() as batch:
                replies = [batch.read(1) for _ in range(100)] + [batch.append(9, b"x" * 30_000) for _ in range(100)]
            self.assertEqual(sum(len(reply.result()) for reply in replies[:100]), 100 * 24_576)
            self.assertTrue(all(reply.refusal() for reply in replies[100:]))
        self.assertEqual(it.ended, (0, ""))


class Listener:
    """A socket that gives each connection the standard streams of a program of its own, as `socat` does."""

    def __init__(self, listener):
        self.listener = listener
        threading.Thread(target=self.accept, daemon=True).start()

    def accept(self):
        with contextlib.suppress(OSError):
            while True:
                link, _ = self.listener.accept()
                threading.Thread(target=self.serve, args=(link,), daemon=True).start()

    @staticmethod
    def serve(link):
        with link, subprocess.Popen([PROGRAM, "pipe", "--tick", "0", "admin"], stdin=link, stdout=link) as server:
            server.wait()


@needs_program
class Sockets(unittest.TestCase):
    def session(self, address):
        with s4d.Drive.connect(address, timeout=600) as it:
            it.create()
            it.write(1, 0, b"hello")
            with it.pipeline() as batch:
                reads = [batch.read(1) for _ in range(1_000)]
            self.assertTrue(all(reply.result() == b"hello" for reply in reads))

    def test_a_port(self):
        with socket.create_server(("127.0.0.1", 0)) as listener:
            Listener(listener)
            self.session(f"127.0.0.1:{listener.getsockname()[1]}")

    def test_a_path(self):
        with tempfile.TemporaryDirectory() as folder, socket.socket(socket.AF_UNIX) as listener:
            listener.bind(f"{folder}/s4d")
            listener.listen()
            Listener(listener)
            self.session(f"{folder}/s4d")


@needs_program
class Images(unittest.TestCase):
    def setUp(self):
        folder = tempfile.TemporaryDirectory()
        self.addCleanup(folder.cleanup)
        self.image = s4d.Image(os.path.join(folder.name, "drive.image"), PROGRAM)

    def test_sessions_one_after_another(self):
        self.image.make(24, window=50)
        self.assertEqual(self.image.verify(), s4d.Facts(frames=24, objects=0, clock=0, window=50, floor=0))
        with self.image.session() as it:
            it.create(b"note")
            it.write(1, 0, b"mill")
            with self.assertRaises(s4d.NotAdmin):
                it.set_window(1)
        self.assertEqual(it.ended, (0, ""))
        with self.image.session("admin", upkeep=False) as it:
            self.assertEqual(it.write(1, 0, b"moor"), 3)
            self.assertEqual((it.at(2).read(1), it.read(1)), (b"mill", b"moor"))
        self.assertEqual((self.image.read(1, at=2), self.image.read(1, at=3)), (b"mill", b"moor"))
        self.assertEqual(self.image.verify().clock, 3)

    def test_refusals(self):
        self.image.make(24)
        with self.assertRaisesRegex(s4d.NoObject, "read of object 7 at moment 0"):
            self.image.read(7, at=0)
        with self.assertRaisesRegex(s4d.Future, "read of object 7 at moment 1"):
            self.image.read(7, at=1)

    def test_a_drive_is_not_wiped_by_a_second_one(self):
        self.image.make(24)
        with self.assertRaises(s4d.ProgramFailed):
            self.image.make(32)
        self.assertEqual(self.image.verify().frames, 24)

    def test_a_live_session_over_fifos(self):
        self.image.make(24)
        requests, replies = f"{self.image.path}.in", f"{self.image.path}.out"
        os.mkfifo(requests)
        os.mkfifo(replies)
        server = subprocess.Popen([PROGRAM, "run", self.image.path, f"client:{requests}:{replies}"])
        with open(requests, "wb") as writer, open(replies, "rb") as reader:
            it = s4d.Drive(reader, writer)
            self.assertEqual((it.create(), it.read(1)), (Created(1, 1), b""))
        self.assertEqual(server.wait(), 0)
        self.assertEqual(self.image.verify().objects, 1)

    def flood(self, frames, objects):
        """Objects that hold what their owner wrote, and then a client's Writes to them, of which some are refused."""
        self.image.make(frames, window=1_000)
        with self.image.session("client", upkeep=False) as it:
            for _ in range(objects):
                kept = it.write(it.create().object, 0, b"mill")
            with it.pipeline() as batch:
                replies = [batch.write(1 + turn % objects, 0, b"moor") for turn in range(1_000)]
        flooded = max(reply.result() for reply in replies if not reply.refusal())
        return kept, flooded, type(replies[-1].refusal())

    def restore(self, kept, flooded, flush):
        """Hides the flood, which the cleaner then frees, and writes back what was there, in one live session."""
        with self.image.session("admin") as it:
            flush(it, kept + 1, flooded)
            it.write(1, 0, it.at(kept).read(1))
            self.assertEqual((it.read(1), it.at(kept).read(1)), (b"mill", b"mill"))

    def test_the_way_out_of_a_full_journal(self):
        kept, flooded, refusal = self.flood(frames=256, objects=1)
        self.assertIs(refusal, s4d.ChainFull)
        self.restore(kept, flooded, lambda it, first, last: it.flush_object(1, first, last))

    def test_the_way_out_of_a_full_drive(self):
        kept, flooded, refusal = self.flood(frames=24, objects=4)
        self.assertIs(refusal, s4d.NoSpace)
        self.restore(kept, flooded, lambda it, first, last: it.flush(first, last))

    def test_a_dropped_session_leaves_no_lock(self):
        self.image.make(24)
        for number in range(1, 4):
            it = self.image.session()
            self.assertEqual(it.create().object, number)
            if number == 2:
                it.cycle = it
            with self.assertWarns(ResourceWarning):
                del it
                gc.collect()
            self.assertEqual(self.image.verify().objects, number)
        with self.image.session() as it:
            self.assertEqual(it.create().object, 4)

    def test_a_session_that_python_ends(self):
        self.image.make(24)
        words = [sys.executable, "-c", "import s4d, sys; it = s4d.Image(*sys.argv[1:]).session(); it.create()"]
        subprocess.run([*words, self.image.path, PROGRAM], cwd=TOP / "python", check=True)
        with self.image.session() as it:
            self.assertEqual(it.create().object, 2)

    def test_what_is_no_image(self):
        with self.assertRaisesRegex(s4d.ProgramFailed, "cannot read"):
            self.image.verify()
        with self.assertRaisesRegex(s4d.Disconnected, "cannot read"), self.image.session() as it:
            it.create()
        with open(self.image.path, "wb") as file:
            file.write(b"x" * 700)
        with self.assertRaisesRegex(s4d.ProgramFailed, "Damaged header"):
            self.image.read(1, at=0)


if __name__ == "__main__":
    unittest.main()
