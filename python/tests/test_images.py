"""What `s4` says of an image and does to it, over the built programs."""
import json
import os
import pathlib
import subprocess
import tempfile
import unittest
from datetime import datetime, timedelta, timezone
from unittest import mock

import s4d
from s4d import (Aged, AuditKind, AuditRow, Change, ChangeKind, Flush, Hidden, HiddenVersions, Listed, ListedVersion, Range, Restored,
                 Stat, Widened, program)

from s4d.moments import moment_of

from .built import PROGRAM, S4, S4SERVE, needs_program, needs_s4, needs_s4serve


@needs_program
@needs_s4
class Images(unittest.TestCase):
    """An image with a note that an intruder changed, an object that is gone, and a tool that is new."""

    def setUp(self):
        folder = tempfile.TemporaryDirectory()
        self.addCleanup(folder.cleanup)
        self.image = s4d.Image(os.path.join(folder.name, "-drive.image"), PROGRAM, S4, timeout=600)
        self.image.make(24)
        with self.image.session("admin", upkeep=False) as it:
            it.create(b"note")
            it.write(1, 0, b"meet at the mill\n")
            it.create(b"\0\xff")
            it.delete(2)
            self.before = it.append(1, b"at noon\n")
            it.write(1, 13, b"oor")
            it.set_attribute(1, b"--memo")
            it.create("tööl".encode())
            it.flush_object(1, 2, 2)

    def test_list(self):
        note = Listed(1, "live", 25, 1, None, 7, None, b"--memo", "--memo")
        tool = Listed(3, "live", 0, 8, None, 8, None, "tööl".encode(), "tööl")
        self.assertEqual(self.image.list(), [note, tool])
        self.assertEqual(self.image.list(self.before), [Listed(1, "live", 25, 1, None, 5, None, b"note", "note")])
        self.assertEqual(self.image.list(at=4, deleted=True)[1], Listed(2, "deleted", 0, 3, None, 3, None, b"\0\xff", None))

    def test_list_versions(self):
        whole = b"meet at the mill\nat noon\n"
        listed = self.image.list(versions=True, contents=True)
        self.assertEqual(listed[0].versions, (
            ListedVersion(1, None, 1, None, 0, b"note", b""),
            ListedVersion(3, None, 2, None, 17, b"note", whole[:17]),
            ListedVersion(5, None, 5, None, 25, b"note", whole),
            ListedVersion(6, None, 6, None, 25, b"note", whole[:13] + b"oor" + whole[16:]),
            ListedVersion(7, None, 7, None, 25, b"--memo", whole[:13] + b"oor" + whole[16:])))
        then = self.image.list(self.before, versions=True)
        self.assertEqual([(it.moment, it.size, it.contents) for it in then[0].versions], [(1, 0, None), (3, 17, None), (5, 25, None)])
        self.assertEqual(self.image.list(deleted=True, versions=True)[1].versions, (ListedVersion(3, None, 3, None, 0, b"\0\xff", None),))

    def test_log(self):
        log = self.image.log()
        self.assertEqual([row for row in log if isinstance(row, Hidden)], [Hidden(2, None, 2, None, 1)])
        self.assertEqual(log[-1], Flush(9, None, 1, 2, None, 2, None))
        changes = [row for row in log if isinstance(row, Change)]
        self.assertEqual([row.moment for row in changes], [1, 3, 4, 5, 6, 7, 8])
        self.assertEqual(changes[0], Change(1, None, 1, ChangeKind.MADE, 0, 0, None, None, b"", b"note"))
        self.assertEqual(changes[4], Change(6, None, 1, ChangeKind.WRITTEN, 25, 25, 0, 0, None, None))

        def moments(**asked):
            return [row.moment for row in self.image.log(**asked)]

        self.assertEqual(moments(object=2), [3, 4])
        self.assertEqual(moments(name="--memo", since=6), [6, 7])
        self.assertEqual(moments(since="4", until=6), [4, 5, 6])
        self.assertEqual(moments(kind="made"), moments(kind=ChangeKind.MADE))
        self.assertEqual(moments(kind="made", limit=2), [1, 2, 3, 9])
        self.assertEqual(moments(since=4, reverse=True), [8, 7, 6, 5, 4])
        self.assertEqual(moments(since=3, by_object=True), [5, 6, 7, 3, 4, 8])
        self.assertEqual(self.image.stats(since=3)[1], Stat(2, 2, 3, None, 4, None))

    def test_audit(self):
        every = [(1, AuditKind.CREATE, 1, 4, 0), (2, AuditKind.WRITE, 1, 0, 17), (3, AuditKind.CREATE, 2, 2, 0),
                 (4, AuditKind.DELETE, 2, 0, 0), (5, AuditKind.WRITE, 1, 17, 8), (6, AuditKind.WRITE, 1, 13, 3),
                 (7, AuditKind.SET_ATTRIBUTE, 1, 6, 0), (8, AuditKind.CREATE, 3, 6, 0),
                 (9, AuditKind.FLUSH_OBJECT, 1, 2, 2), (10, AuditKind.TRUNCATE, 1, 4, 0),
                 (11, AuditKind.SET_WINDOW, 0, 50, 0), (12, AuditKind.FLUSH, 0, 3, 4)]
        with self.image.session("admin", upkeep=False) as it:
            it.truncate(1, 4)
            it.set_window(50)
            it.flush(3, 4)
            self.assertEqual(list(it.audit()), every)
        self.assertEqual(self.image.audit(), [AuditRow(*row) for row in every])
        self.assertEqual({row.kind for row in self.image.audit()}, set(AuditKind))

        def moments(**asked):
            return [row.moment for row in self.image.audit(**asked)]

        self.assertEqual(moments(object=1, since=5, until="9"), [5, 6, 7, 9])
        self.assertEqual(moments(object=0), [11, 12])
        self.assertEqual(moments(object=7), [])
        self.assertEqual(moments(kind="write", limit=2), [2, 5])
        for kind in AuditKind:
            self.assertEqual(self.image.audit(kind=kind), [row for row in every if row[1] is kind])

    def test_diff(self):
        found = self.image.diff(self.before)
        self.assertEqual([(it.object, it.kind, it.size_before, it.size_after) for it in found],
                         [(1, "changed", 25, 25), (3, "made", 0, 0)])
        self.assertEqual((found[0].attribute_before, found[0].attribute_after), (b"note", b"--memo"))
        self.assertEqual(found[0].ranges, (Range(13, 15, None, None),))
        self.assertIsNone(found[0].text)
        self.assertEqual(self.image.diff(self.before, 6, patch=True)[0].ranges, (Range(13, 15, b"ill", b"oor"),))
        self.assertEqual([it.object for it in self.image.diff(self.before, object=3)], [3])
        self.assertEqual([it.object for it in self.image.diff(self.before, name="note")], [1])

    def test_diff_of_lines(self):
        text = self.image.diff(self.before, text=True)[0].text
        self.assertIn("-meet at the mill\n+meet at the moor\n", text)

    def test_nothing_that_differs_is_no_failure(self):
        self.assertEqual(self.image.diff(9), [])
        self.assertEqual(self.image.diff(6, 6), [])

    def test_cat(self):
        self.assertEqual(self.image.cat(1), b"meet at the moor\nat noon\n")
        self.assertEqual(self.image.cat(1, at=self.before), b"meet at the mill\nat noon\n")
        self.assertEqual(self.image.cat(name="--memo"), self.image.cat(1))

    def test_numbers(self):
        info = self.image.info()
        self.assertEqual((info.frames, info.retired, info.live, info.deleted, info.next, info.clock, info.window,
                          info.floor), (24, 0, 2, 1, 4, 9, 100, 0))
        self.assertIsNone(info.time)
        self.assertEqual(info.hidden, s4d.HiddenCounts(runs=0, objects=1))
        checked = self.image.check()
        self.assertGreater(checked.versions, 5)
        self.assertEqual(len(bytes.fromhex(checked.sha256)), 32)
        compacted = self.image.compact()
        self.assertGreaterEqual(compacted.room_after, compacted.room_before)
        self.assertEqual(self.image.info().room, compacted.room_after)
        self.assertIn(compacted.full_pass, ("made", "costs room"))
        self.assertGreater(compacted.data, 0)
        self.assertEqual(self.image.check(), checked)

    def test_restore(self):
        whole = [Restored(1, "changed", None), Restored(3, "deleted", None)]
        self.assertEqual(self.image.restore(self.before, dry_run=True), whole)
        self.assertEqual(self.image.info().clock, 9)
        self.assertEqual(self.image.restore(3, objects=(2, 2)), [Restored(2, "made anew", 4)])
        self.assertEqual(self.image.restore(self.before, name="note", flush=True, skip=True), whole[:1])
        self.assertEqual(self.image.cat(1), b"meet at the mill\nat noon\n")
        self.assertEqual(self.image.restore(self.before, keep_newer=True), [])
        self.assertEqual(self.image.restore(self.before), [*whole[1:], Restored(4, "deleted", None)])
        self.assertEqual(self.image.restore(self.before), [])

    def test_what_can_not_be_restored(self):
        for ask, line in ((lambda: self.image.restore(2, objects=[1]), r"cannot restore 1 \(its moment is hidden\)"),
                          (lambda: self.image.restore(1, objects=[9]), "there is no object 9")):
            with self.assertRaisesRegex(s4d.ProgramFailed, line) as caught:
                ask()
            self.assertEqual(caught.exception.ended.status, 1)

    def test_a_window_that_is_widened(self):
        with self.image.session("admin") as it:
            it.set_window(5)
        self.assertEqual(self.image.restore(5, objects=[1, 3])[0], Widened(before=5, after=9))
        self.assertEqual(self.image.info().window, 9)

    def test_versions_that_age(self):
        image = s4d.Image(f"{self.image.path}.narrow", PROGRAM, S4)
        image.make(24, window=2)
        with image.session(upkeep=False) as it:
            note = it.create().object
            for text in (b"one", b"two", b"six"):
                it.write(note, 0, text)
        for dry_run in (True, False):
            self.assertEqual(image.restore(3, dry_run=dry_run), [Restored(note, "changed", None), Aged(versions=1)])

    def test_a_full_journal(self):
        image = s4d.Image(f"{self.image.path}.flooded", PROGRAM, S4)
        image.make(256, window=100_000)
        with image.session(upkeep=False) as it:
            before = it.write(it.create().object, 0, b"mine")
            with it.pipeline() as batch:
                for step in range(1_000):
                    batch.write(1, step, b"!")
        with self.assertRaisesRegex(s4d.ProgramFailed, "its journal is full"):
            image.restore(before)
        self.assertEqual(image.restore(before, skip=True), [Restored(1, "not restored", None)])
        hidden, *others = image.restore(before, flush=True)
        self.assertEqual((type(hidden), hidden.object, others), (HiddenVersions, 1, [Restored(1, "changed", None)]))
        self.assertLess(hidden.last - hidden.first, 5)
        self.assertEqual(image.cat(1), b"mine")

    def test_failures(self):
        for ask, line in (
                (lambda: self.image.diff(99), "moment 99 is to come; the clock is at 9, the last moment that can be read"),
                (lambda: self.image.diff(1, object=7), "there is no object 7; `s4 list --deleted` prints those that are"),
                (lambda: self.image.list(at=99), "moment 99 is to come; the clock is at 9, the last moment that can be read"),
                (lambda: self.image.log(name="nobody"), "no object has this name")):
            with self.subTest(line), self.assertRaises(s4d.ProgramFailed) as caught:
                ask()
            self.assertIn(f"s4: {self.image.path}: {line}", caught.exception.ended.said)
            self.assertIn(caught.exception.ended.status, (1, 2))
            self.assertIn(caught.exception.ended.said, str(caught.exception))

    def test_words_that_are_wrong(self):
        for ask in (lambda: self.image.list(at="soon"), lambda: self.image.log(kind="lost"),
                    lambda: self.image.audit(kind="made"), lambda: self.image.log(kind=AuditKind.WRITE),
                    lambda: self.image.log(object=1, name="note"), lambda: self.image.diff(1, patch=True, text=True)):
            with self.assertRaises(s4d.ProgramFailed) as caught:
                ask()
            self.assertEqual(caught.exception.ended.status, 2)
            self.assertTrue(caught.exception.ended.said)

    def test_a_path_that_looks_like_an_option(self):
        folder, name = os.path.split(self.image.path)
        self.addCleanup(os.chdir, os.getcwd())
        os.chdir(folder)
        self.assertEqual(s4d.Image(name, PROGRAM, S4).info(), self.image.info())


@needs_program
@needs_s4
class DatedImages(unittest.TestCase):
    """An image whose clock is the microseconds since 1970, as a service sets it."""

    START = datetime(2026, 11, 27, 13, 18, 2, 123, tzinfo=timezone.utc)

    def setUp(self):
        folder = tempfile.TemporaryDirectory()
        self.addCleanup(folder.cleanup)
        self.image = s4d.Image(pathlib.Path(folder.name) / "drive.image", PROGRAM, S4)
        self.image.make(24, window=10**15)
        self.moment = 1_795_785_482_000_123
        with self.image.session(tick=self.moment) as it:
            self.assertEqual(it.create(b"note").moment, self.moment)
        with self.image.session(tick=60_000_000) as it:
            it.append(1, b"mill")

    def test_times(self):
        later = self.START + timedelta(minutes=1)
        row = self.image.list()[0]
        self.assertEqual((row.created, row.created_time, row.changed_time), (self.moment, self.START, later))
        self.assertEqual([row.time for row in self.image.log()], [self.START, later])
        info = self.image.info()
        self.assertEqual((info.clock, info.time.clock), (self.moment + 60_000_000, later))
        self.assertEqual(self.image.stats()[0].last_time, later)

    def test_times_of_a_flush(self):
        last = self.moment + 60_000_000
        with self.image.session("admin") as it:
            it.flush_object(1, self.moment + 1, last)
        later = self.START + timedelta(minutes=1)
        first_time, time = [it + timedelta(microseconds=1) for it in (self.START, later)]
        self.assertEqual(self.image.log()[-1], Flush(last + 1, time, 1, self.moment + 1, first_time, last, later))
        self.assertEqual(self.image.audit(since=later, until=time, limit=1)[0].moment, last)

    def test_moments_that_are_times(self):
        paris = timezone(timedelta(hours=1))
        for at in (self.START, self.START.astimezone(paris), "2026-11-27T13:18:02.000123Z", self.moment):
            with self.subTest(at=at):
                self.assertEqual(self.image.cat(1, at=at), b"")
        # What is above the clock is the clock, as these ages from the machine's time are.
        for at in ("1m", timedelta(), self.START + timedelta(minutes=2)):
            with self.subTest(at=at):
                self.assertEqual(self.image.cat(1, at=at), b"mill")
        self.assertEqual(len(self.image.log(since=self.START + timedelta(seconds=1))), 1)
        self.assertEqual(len(self.image.diff(self.START)), 1)
        with self.assertRaisesRegex(ValueError, "has no offset from UTC"):
            self.image.list(at=self.START.replace(tzinfo=None))


    def test_a_restore_of_what_rested_for_long(self):
        rested = s4d.Image(pathlib.Path(self.image.path).with_name("rested.image"), PROGRAM, S4)
        rested.make(24, window=10**15)
        began = datetime.now(timezone.utc) - timedelta(days=60)
        with rested.session(tick=moment_of(began)) as it:
            made = it.create(b"note")
        with rested.session(tick=60_000_000) as it:
            it.append(made.object, b"mill")
        with self.assertRaisesRegex(s4d.ProgramFailed, "too much of its past would age"):
            rested.restore(made.moment)
        with self.assertRaisesRegex(s4d.ProgramFailed, "too much of its past would age"):
            rested.restore(made.moment, leap=timedelta(days=59))
        with self.assertRaises(ValueError):
            rested.restore(made.moment, leap=timedelta(seconds=-1))
        self.assertEqual(rested.restore(made.moment, leap=timedelta(days=61)), [Restored(1, "changed", None)])
        self.assertEqual(rested.cat(1), b"")
        self.assertGreater(rested.info().clock, moment_of(began + timedelta(days=59)))


@needs_program
class ServedImages(unittest.TestCase):
    """An image that another program has."""

    def setUp(self):
        folder = tempfile.TemporaryDirectory()
        self.addCleanup(folder.cleanup)
        self.folder = folder.name
        self.image = s4d.Image(f"{self.folder}/drive.image", PROGRAM, S4, timeout=600)

    def check_served(self):
        for _ in range(2):
            with self.assertRaisesRegex(s4d.ImageServed, "a program serves it") as caught:
                self.image.session()
            self.assertEqual(caught.exception.ended.status, 1)
            self.assertIsInstance(caught.exception, s4d.NotAsked)
        with self.assertRaises(s4d.ImageServed), s4d.Drive.image(self.image.path, PROGRAM) as it:
            it.create()
        with self.assertRaises(s4d.ImageServed), s4d.Drive.image(self.image.path, PROGRAM) as it, it.pipeline() as batch:
            batch.create()

    def test_another_session(self):
        self.image.make(24)
        with self.image.session(tick=5) as it:
            self.check_served()
            self.assertEqual(it.create().moment, 5)  # a session that begins draws no moment
        self.assertEqual((self.image.verify().objects, self.image.verify().clock), (1, 5))

    @needs_s4
    @needs_s4serve
    def test_a_service(self):
        os.mkfifo(f"{self.folder}/door")
        words = [S4SERVE, "--create", "24", "--keep", "30d", "--door", f"admin={self.folder}", self.image.path]
        with subprocess.Popen(words, stderr=subprocess.PIPE, text=True) as service:
            try:
                self.assertIn("serves", service.stderr.readline())
                self.check_served()
                self.assertEqual(self.image.list(), [])
                pathlib.Path(f"{self.folder}/door").write_text("stop\n", encoding="ascii")
                self.assertEqual(service.wait(600), 0)
            finally:
                service.kill()
        with self.image.session() as it:
            it.create()

    def test_an_image_that_is_not_there(self):
        with self.assertRaisesRegex(s4d.NotAsked, "the image was not opened: s4d: cannot read .* \\(status 1\\)"):
            self.image.session()


class Fakes(unittest.TestCase):
    """What another program prints in the place of `s4`, and of `s4d`."""

    def test_sessions_that_do_not_begin(self):
        line = "s4d: cannot write none: a program serves it; end that one"
        for said, kind in ((line, s4d.ImageServed), (f"{line} or another", s4d.NotAsked)):
            image = self.image(f"echo '{said}' >&2; exit 1")
            image.program = image.s4
            with self.assertRaises(s4d.NotAsked) as caught:
                image.session()
            self.assertIs(type(caught.exception), kind)
            self.assertEqual(caught.exception.ended, s4d.Ended(1, said))

    def test_a_session_whose_program_ends_later(self):
        """Only at its beginning the line means that nothing was asked."""
        image = self.image("printf '\\0\\0\\0\\2\\0\\17'; head -c 9 > /dev/null; echo 's4d: x: a program serves it; end that one' >&2; exit 1")
        image.program = image.s4
        with self.assertRaises(s4d.ReplyLost), image.session() as it:
            it.create()

    def image(self, line):
        folder = tempfile.TemporaryDirectory()
        self.addCleanup(folder.cleanup)
        path = f"{folder.name}/s4"
        pathlib.Path(path).write_text(f"#!/bin/sh\n{line}\n", encoding="utf-8")
        os.chmod(path, 0o700)
        return s4d.Image("none", s4=path)

    def test_what_is_no_row(self):
        for printed in ("1 live", "{}", "[]", '{"object":1,"kind":"turned"}'):
            image = self.image(f"echo '{printed}'")
            for ask in (image.list, image.log, image.audit, image.stats, image.info, lambda: image.diff(1)):
                with self.subTest(printed), self.assertRaisesRegex(s4d.BadReply, "s4 printed"):
                    ask()

    def test_a_row_that_has_more(self):
        image = self.image("""echo '{"versions":1,"bytes":2,"sha256":"00","more":3}'""")
        self.assertEqual(image.check(), s4d.Checked(1, 2, "00"))

    def test_statuses(self):
        note = "s4: FROM is 2026-11-27T13:18:02.000123Z"
        for said in ("", f"echo '{note}' >&2;", f"echo '{note}' >&2; echo '{note.replace('FROM', 'TO')}, where the clock is' >&2;"):
            self.assertEqual(self.image(f"{said} exit 1").diff(1), [])
        for line in ("exit 2", "echo wrong >&2; exit 1", f"echo '{note}' >&2; echo wrong >&2; exit 1"):
            with self.assertRaises(s4d.ProgramFailed):
                self.image(line).diff(1)
        with self.assertRaises(s4d.ProgramFailed) as caught:
            self.image("exit 1").list()
        self.assertEqual(caught.exception.ended, (1, ""))

    def test_moments_past_the_years_with_four_digits(self):
        row = {"object": 1, "state": "live", "size": 0, "created": 0, "created_time": None, "changed": 2**64 - 1,
               "changed_time": str(2**64 - 1), "attribute": "", "attribute_text": ""}
        found = self.image(f"echo '{json.dumps(row)}'").list()[0]
        self.assertEqual((found.changed, found.changed_time), (2**64 - 1, None))

    def test_timeouts(self):
        image = self.image("exec sleep 600")
        image.program, image.timeout = image.s4, 0.2
        for ask in (image.verify, image.list, image.compact, lambda: image.diff(1), lambda: image.read(1, 1)):
            with self.assertRaisesRegex(s4d.ProgramFailed, r"killed after 0.2 seconds \(status -9\)"):
                ask()
        with mock.patch.object(program, "SECONDS_TO_END", 0.1), self.assertRaisesRegex(s4d.Disconnected, "timed out"):
            with image.session() as it:
                it.create()

    def test_no_program(self):
        with self.assertRaises(FileNotFoundError):
            s4d.Image("none", s4="/nowhere/s4").info()


class Versions(unittest.TestCase):
    def test_the_version_is_that_of_the_repository(self):
        top = pathlib.Path(__file__).resolve().parents[2]
        self.assertEqual(s4d.__version__, (top / "VERSION").read_text(encoding="utf-8").strip())


if __name__ == "__main__":
    unittest.main()
