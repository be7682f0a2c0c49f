"""Moments that are given as numbers, times and ages."""
import asyncio
import socket
import tempfile
import time
import unittest
from datetime import datetime, timedelta, timezone

import s4d
from s4d import wire
from s4d.image import word_of
from s4d.moments import machine_time, moment_of

from .bridged import PATIENCE
from .test_sockets import Server

START = datetime(2026, 11, 27, 13, 18, 2, 123, tzinfo=timezone.utc)
MOMENT = 1_795_785_482_000_123
PARIS = timezone(timedelta(hours=1))


class Numbers(unittest.TestCase):
    def test_moments(self):
        for when in (MOMENT, START, START.astimezone(PARIS)):
            self.assertEqual(moment_of(when), MOMENT)
        self.assertEqual(moment_of(datetime(1970, 1, 1, tzinfo=timezone.utc)), 0)
        self.assertEqual(moment_of(datetime.max.replace(tzinfo=timezone.utc)), 253_402_300_799_999_999)

    def test_ages(self):
        before = time.time_ns() // 1_000
        moment = moment_of(timedelta(hours=2, microseconds=7))
        self.assertTrue(before <= moment + 7_200_000_007 <= machine_time())

    def test_what_is_no_moment(self):
        for when, why in ((START.replace(tzinfo=None), "has no offset from UTC"), (timedelta(microseconds=-1), "is no age"),
                          (timedelta(days=100_000), "lies before 1970"), (datetime(1969, 12, 31, tzinfo=timezone.utc), "lies before 1970")):
            for ask in (lambda at: wire.read(1, 0, 1, at), lambda at: wire.attributes(1, at), lambda at: wire.audit(at, 1),
                        lambda at: wire.flush(at, 1), lambda at: wire.flush(1, at), lambda at: wire.flush_object(1, at, 1),
                        lambda at: wire.flush_object(1, 1, at)):
                with self.assertRaisesRegex(ValueError, why):
                    ask(when)

    def test_words_for_s4(self):
        for when, word in ((7, "7"), (START, "2026-11-27T13:18:02.000123Z"), (timedelta(hours=2), "7200s"), (timedelta(), "0s"), ("2h", "2h")):
            self.assertEqual(word_of(when), word)
        self.assertRegex(word_of(timedelta(milliseconds=1)), r"^20\d\d-\d\d-\d\dT\d\d:\d\d:\d\d(\.\d+)?Z$")
        with self.assertRaisesRegex(ValueError, "is no age"):
            word_of(timedelta(seconds=-1))


class Sessions(unittest.TestCase):
    """Each method that takes a moment, over a drive whose clock is a time."""

    def setUp(self):
        folder = tempfile.TemporaryDirectory()
        self.addCleanup(folder.cleanup)
        listener = socket.socket(socket.AF_UNIX)
        self.addCleanup(listener.close)
        listener.bind(f"{folder.name}/s4d")
        listener.listen()
        self.address, self.server = f"unix:{folder.name}/s4d", Server(listener)
        self.addCleanup(lambda: [link.close() for link in self.server.links])
        self.server.drive.window = 10**18
        # An hour ago objects were made, half an hour ago they were written.
        for age, request in ((3_600, wire.create(b"a")), (3_600, wire.create(b"b")), (1_800, wire.append(1, b"x")),
                             (1_800, wire.write(2, 60_000, b"x"))):
            self.server.drive.clock = max(self.server.drive.clock, machine_time() - age * 1_000_000)
            self.server.drive.answer("admin", request.body)
        self.server.drive.clock = machine_time() + 10**9
        self.changed = [row[0] for row in self.server.drive.rows[2:]]

    def test_times_and_ages(self):
        past = timedelta(minutes=45)
        with s4d.Drive.connect(self.address, PATIENCE) as it:
            for at in (past, datetime.now(PARIS) - past, machine_time() - past // timedelta(microseconds=1)):
                self.assertEqual((it.read(1, at=at), it.read(1, 0, 1, at), it.at(at).read(1)), (b"", b"", b""))
                self.assertEqual((it.attributes(1, at).size, it.at(at).attributes(1).size), (0, 0))
                self.assertEqual([row.moment for row in it.audit(at)], self.changed)
                with it.pipeline() as batch:
                    replies = batch.read(1, at=at), batch.attributes(1, at), batch.read(1)
                self.assertEqual((replies[0].result(), replies[1].result().size, replies[2].result()), (b"", 0, b"x"))
            self.assertEqual(it.read(1, at=timedelta(minutes=15)), b"x")
            with self.assertRaisesRegex(s4d.NoObject, r"read of object 1 at moment 1\d{15}$"):
                it.read(1, at=timedelta(hours=2))
            for flush in (it.flush, lambda first, last: it.flush_object(1, first, last)):
                flush(datetime.now(timezone.utc) - timedelta(minutes=50), timedelta(minutes=40))
                with self.assertRaises(s4d.Flushed):
                    it.at(past).read(1)

    def test_an_age_is_one_moment(self):
        """All pieces of an object are read at it, and what a past is asked later, too."""
        with s4d.Drive.connect(self.address, PATIENCE) as it:
            self.assertEqual(len(it.read(2, at=timedelta(minutes=15))), 60_001)
            self.assertEqual((len(self.server.asked), len({body[-8:] for body in self.server.asked})), (3, 1))
            past = it.at(timedelta(minutes=15))
            for _ in range(3):
                self.assertEqual(past.read(1), b"x")
            self.assertEqual(len(set(self.server.asked[3:])), 1)

    def test_tasks(self):
        async def session():
            async with await s4d.AsyncDrive.connect(self.address, PATIENCE) as it:
                for at in (timedelta(minutes=45), datetime.now(PARIS) - timedelta(minutes=45)):
                    self.assertEqual((await it.read(1, at=at), await it.at(at).read(1), (await it.attributes(1, at)).size), (b"", b"", 0))
                    self.assertEqual([row.moment async for row in it.audit(at)], self.changed)
                with self.assertRaises(ValueError):
                    await it.read(1, at=START.replace(tzinfo=None))
                await it.flush(datetime.now(timezone.utc) - timedelta(minutes=50), timedelta(minutes=40))
                await it.flush_object(1, timedelta(minutes=50), timedelta(minutes=40))
                with self.assertRaises(s4d.Flushed):
                    await it.at(timedelta(minutes=45)).attributes(1)

        asyncio.run(session())


if __name__ == "__main__":
    unittest.main()
