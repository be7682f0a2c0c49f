"""The file of the access log, which has a bound."""
import asyncio
import contextlib
import io
import json
import os
import pathlib
import tempfile
import unittest
from unittest import mock

from s4d import access_log
from s4d.access_log import AccessLog


class Turned(unittest.TestCase):
    def setUp(self):
        folder = tempfile.TemporaryDirectory()
        self.addCleanup(folder.cleanup)
        self.folder = pathlib.Path(folder.name)
        self.path = self.folder / "access.log"

    def lines(self, path=None):
        return [json.loads(line) for line in (path or self.path).read_bytes().splitlines()]

    def test_a_file_is_turned(self):
        log = AccessLog(str(self.path), most_bytes=1_000)
        for number in range(500):
            log.write(number=number)
        log.close()
        names = sorted(it.name for it in self.folder.iterdir())
        self.assertEqual(names, ["access.log", *(f"access.log.{number}" for number in range(1, access_log.LOG_FILES))])
        self.assertTrue(all(it.stat().st_size <= 1_000 for it in self.folder.iterdir()))
        kept = [line["number"] for name in reversed(names) for line in self.lines(self.folder / name)]
        self.assertEqual(kept, list(range(500 - len(kept), 500)))
        self.assertEqual((self.path.stat().st_mode & 0o777, log.lost), (0o640 & ~os.umask(os.umask(0)), 0))

    def test_what_was_there_counts(self):
        self.path.write_bytes(b"{}\n" * 300)
        log = AccessLog(str(self.path), most_bytes=1_000)
        for number in range(4):
            log.write(number=number)
        log.close()
        self.assertEqual(len(self.lines(self.folder / "access.log.1")) - 300 + len(self.lines()), 4)
        self.assertLess(len(self.lines()), 4)

    def test_a_file_that_another_program_has_turned(self):
        log = AccessLog(str(self.path), most_bytes=1_000)
        log.write(number=0)
        asyncio.run(log.settle())
        self.path.rename(self.folder / "old")
        for number in range(1, 40):
            log.write(number=number)
        log.close()
        self.assertEqual(self.lines(self.folder / "old")[0]["number"], 0)
        self.assertLessEqual((self.folder / "old").stat().st_size, 1_000)
        self.assertEqual(self.lines()[-1]["number"], 39)

    def test_another_file_at_the_path_is_kept(self):
        """As one that who turned it has made there: lines go on in it."""
        log = AccessLog(str(self.path), most_bytes=1_000)
        log.write(number=0)
        asyncio.run(log.settle())
        self.path.rename(self.folder / "old")
        self.path.write_text("{}\n", encoding="ascii")
        for number in range(1, 25):
            log.write(number=number)
        log.close()
        self.assertEqual(sorted(os.listdir(self.folder)), ["access.log", "old"])
        self.assertEqual((self.lines()[0], self.lines()[-1]["number"]), ({}, 24))

    def test_a_link_is_not_turned(self):
        """Nor what it names: it may be another program's, as /dev/stdout."""
        (self.folder / "file").touch()
        self.path.symlink_to("file")
        log = AccessLog(str(self.path), most_bytes=100)
        for number in range(50):
            log.write(number=number)
        log.close()
        self.assertEqual((sorted(os.listdir(self.folder)), len(self.lines())), (["access.log", "file"], 50))

    def test_a_pipe_is_not_turned(self):
        os.mkfifo(self.path)
        reader = os.open(self.path, os.O_RDONLY | os.O_NONBLOCK)
        self.addCleanup(os.close, reader)
        log = AccessLog(str(self.path), most_bytes=100)
        for number in range(50):
            log.write(number=number)
        log.close()
        self.assertEqual((os.listdir(self.folder), os.read(reader, 65_536).count(b"\n"), log.lost), (["access.log"], 50, 0))

    def test_one_that_cannot_be_turned(self):
        """Its lines are lost, and counted: it doesn't grow."""
        said = io.StringIO()
        with contextlib.redirect_stderr(said), mock.patch.object(access_log.os, "replace", side_effect=PermissionError(13, "Permission denied")):
            log = AccessLog(str(self.path), most_bytes=1_000)
            for number in range(100):
                log.write(number=number)
            log.close()
        self.assertLessEqual(self.path.stat().st_size, 1_000)
        self.assertEqual(log.lost + len(self.lines()), 100)
        self.assertEqual(said.getvalue(), "s4d.bridge: access log: Permission denied: lines are lost\n")


if __name__ == "__main__":
    unittest.main()
