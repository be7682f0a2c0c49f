"""A drive's past as files: the names, the view of moments, and the mount where the machine has FUSE."""
import contextlib
import errno
import json
import mmap
import os
import pathlib
import random
import shutil
import signal
import stat
import subprocess
import sys
import tempfile
import threading
import time
import unittest
from unittest import mock

import s4d
from s4d.errors import Ended
from s4d.image import Export
from s4d.moments import moment_of
from s4d.mount import view
from s4d.mount.asked import AGE_SECONDS, NOW, NOW_SECONDS, PAST_SECONDS, asked_by
from s4d.mount.command import main
from s4d.mount.kernel import NoFuse, Requests, fuse_module, status_of
from s4d.mount.names import Names, safe_name
from s4d.mount.snapshots import Kind, seen_of
from s4d.mount.view import View
from s4d.rows import Exported

from .bridged import PACKAGE, PATIENCE, wait_until
from .built import PROGRAM, S4, needs_program, needs_s4, needs_s4serve
from .served import Served

HAS_MODULE = "from s4d.mount.kernel import fuse_module; fuse_module()"


def python_with_fuse():
    """The Python that has the module, this one or the system's; None where none has it, or the machine has no FUSE."""
    if not os.access("/dev/fuse", os.R_OK | os.W_OK) or shutil.which("fusermount") is None:
        return None
    for python in (sys.executable, "/usr/bin/python3"):
        with contextlib.suppress(OSError):
            if subprocess.run([python, "-c", HAS_MODULE], cwd=PACKAGE, capture_output=True, check=False).returncode == 0:
                return python
    return None


PYTHON = python_with_fuse()
needs_fuse = unittest.skipUnless(PYTHON, "no /dev/fuse that may be opened, no fusermount, or no python3-fusepy")


def walked(names, path=b""):
    """Each path that is reached from the top, with its object."""
    for part in names.in_folder(path):
        inner = path + b"/" + part if path else part
        object = names.object_at(inner)
        if object is None:
            assert names.is_folder(inner)
            yield from walked(names, inner)
        else:
            assert not names.is_folder(inner)
            yield inner, object


class ObjectNames(unittest.TestCase):
    def names(self, *attributes):
        names = Names(enumerate(attributes, 1))
        found = dict(walked(names))
        self.assertEqual(len(found), len(attributes))
        self.assertEqual({object: path for path, object in found.items()}, {it: names.of(it) for it in names.numbers()})
        return [names.of(object) for object in range(1, len(attributes) + 1)]

    def test_paths(self):
        self.assertEqual(self.names(b"note", b"/srv/a", b"srv/b", "srv/tööl \u2603".encode(), b"a b\\c*?"),
                         [b"note", b"srv/a", b"srv/b", "srv/tööl \u2603".encode(), b"a b\\c*?"])

    def test_what_is_no_path(self):
        unsafe = [b"", b"/", b"//srv", b"srv/", b"a//b", b".", b"..", b"../../etc/passwd", b"a/../b", b"/./a", b"a/..", b"\0", b"a\0b", b"a\nb",
                  b"\x1b[2J", b"\x7f", "\x85".encode(), b"\xff", b"\xc0\xaf", "a\u2028b".encode(), "exe.\u202etxt".encode(),
                  b"by-number", b"by-number/3", b"object-3", b"object-03/x", b"object-99999999999999999999"]
        self.assertEqual(self.names(*unsafe), [b"object-%d" % (at + 1) for at in range(len(unsafe))])
        for path in (b"...", b".a", b"a/by-number", b"object-", b"object-3x", b"an object-3", b"-rf"):
            self.assertEqual(safe_name(path), path)

    def test_clashes(self):
        self.assertEqual(self.names(b"a", b"/a", b"a", b"b"), [b"a", b"object-2", b"object-3", b"b"])

    def test_the_name_of_a_folder(self):
        self.assertEqual(self.names(b"srv", b"srv/a", b"srv/a/b", b"srv.old", b"srv0"),
                         [b"object-1", b"object-2", b"srv/a/b", b"srv.old", b"srv0"])
        self.assertEqual(self.names(b"srv/a", b"srv/a", b"srv"), [b"srv/a", b"object-2", b"object-3"])

    def test_long_ones(self):
        deep, long = b"/".join([b"d"] * 32), "\U0001f600".encode() * 16
        self.assertEqual(self.names(deep, long), [deep, long])

    def test_random_ones(self):
        chance = random.Random(7)
        for _ in range(300):
            parts = [b"a", b"b", b"a.", b"a0", b"..", b"", b"object-2", b"by-number"]
            self.names(*(b"/".join(chance.choice(parts) for _ in range(chance.randint(1, 4))) for _ in range(12)))

    def test_folders(self):
        names = Names([(1, b"a/b"), (2, b"a.b"), (3, b"a/c/d"), (4, b"a/c/e"), (5, b"a0")])
        self.assertEqual(names.in_folder(b""), [b"a.b", b"a", b"a0"])
        self.assertEqual(names.in_folder(b"a"), [b"b", b"c"])
        self.assertEqual(names.in_folder(b"a/c"), [b"d", b"e"])
        self.assertEqual([names.is_folder(it) for it in (b"", b"a", b"a/c", b"a/b", b"a/", b"a/c/", b"b")], [True] * 3 + [False] * 4)
        self.assertTrue(Names([]).is_folder(b""))
        self.assertEqual(Names([]).in_folder(b""), [])


class AskedMoments(unittest.TestCase):
    def test_now(self):
        self.assertEqual((asked_by(b"now"), NOW.at(), NOW.seconds), (NOW, None, NOW_SECONDS))

    def test_moments(self):
        for name, named, at in ((b"7", b"7", "7"), (b"007", b"7", "7"), (b"2026-11-29T10:00:00Z",) + 2 * (b"2026-11-29T10:00:00Z",),
                                (b"2026-11-29 12:00:00.50+02:00", b"2026-11-29T10:00:00.5Z", "2026-11-29T10:00:00.5Z"),
                                (b"2026-11-29t10:00:00.000001z",) + 2 * (b"2026-11-29T10:00:00.000001Z",),
                                (b"1970-01-01T00:00:00Z",) + 2 * (b"1970-01-01T00:00:00Z",)):
            asked = asked_by(name)
            self.assertEqual((asked.name, asked.at(), asked.seconds), (named, at if isinstance(at, str) else at.decode(), PAST_SECONDS))
            self.assertEqual(asked_by(asked.name), asked)

    def test_ages(self):
        with mock.patch("s4d.mount.asked.machine_time", lambda: 1_764_410_400_123_456):
            for name, at, seconds in ((b"2h", "2025-11-29T08:00:00.123456Z", 60), (b"090s", "2025-11-29T09:58:30.123456Z", AGE_SECONDS),
                                      (b"15m", "2025-11-29T09:45:00.123456Z", 9), (b"0s", "2025-11-29T10:00:00.123456Z", AGE_SECONDS)):
                self.assertEqual((asked_by(name).at(), asked_by(name).seconds), (at, seconds))
            self.assertEqual(asked_by(b"090s").name, b"90s")
            with self.assertRaisesRegex(ValueError, "9999w ago lies before 1970"):
                asked_by(b"9999w").at()

    def test_what_is_no_moment(self):
        for name in (b"", b"Now", b"-1", b"1.5", b"2y", b"0x1", b"18446744073709551616", b"2026-02-30T00:00:00Z", b"2026-11-29T10:00:00",
                     b"1960-01-01T00:00:00Z", b"9999-12-31T23:59:59-10:00", b".git", b"7 ", b"7\n", b"\xff", "٣".encode(), b"2H"):
            self.assertIsNone(asked_by(name), name)


class Standin:
    """An image whose objects are given, by their numbers: attribute, bytes and the moment of the last change."""

    def __init__(self, folder):
        self.path, self.asked, self.fault, self.is_clock = f"{folder}/image", [], None, False
        self.objects = {1: (b"note", b"mill", 7), 2: (b"srv/a", b"bytes", 1_764_410_400_000_000)}
        pathlib.Path(self.path).write_bytes(b"image")
        self.change()

    def change(self, seconds=1_000):
        """The file has changed, so many seconds ago."""
        self.count = getattr(self, "count", 0) + 1
        os.utime(self.path, ns=(0, time.time_ns() - seconds * 1_000_000_000 + self.count))

    def export(self, folder, at=None, is_ended=None):
        self.asked.append(at)
        os.mkdir(folder)
        for object, (_, data, _) in self.objects.items():
            pathlib.Path(f"{folder}/object-{object}").write_bytes(data)
        if self.fault is not None:
            raise self.fault
        return Export([Exported(object, f"object-{object}", len(data), 1, changed, attribute, None, "")
                       for object, (attribute, data, changed) in self.objects.items()], self.is_clock)


class Views(unittest.TestCase):
    def setUp(self):
        folder = tempfile.TemporaryDirectory()
        self.addCleanup(folder.cleanup)
        self.temporary = f"{folder.name}/tmp"
        os.mkdir(self.temporary)
        patched = mock.patch.object(tempfile, "tempdir", self.temporary)
        patched.start()
        self.addCleanup(patched.stop)
        self.image, self.said, self.time = Standin(folder.name), [], 100.0
        self.view = View(self.image, self.said.append, clock=lambda: self.time)
        self.addCleanup(self.view.end)

    def read(self, path):
        handle = self.view.open(path)
        try:
            return self.view.read(handle, 98_304, 0)
        finally:
            self.view.close(handle)

    def assert_fault(self, number, ask, *given):
        with self.assertRaises(OSError) as caught:
            ask(*given)
        self.assertEqual(errno.errorcode[caught.exception.errno], errno.errorcode[number])

    def folders(self):
        """How many snapshots are on the disk."""
        return sum(len(os.listdir(f"{self.temporary}/{it}")) for it in os.listdir(self.temporary))

    def test_paths(self):
        self.assertEqual(self.view.in_folder(b"/"), [b"now"])
        self.assertEqual(self.view.in_folder(b"/now"), [b"note", b"srv"])
        self.assertEqual(self.view.in_folder(b"/now/srv"), [b"a"])
        self.assertEqual(self.view.in_folder(b"/now/by-number"), [b"1", b"2"])
        self.assertEqual(self.view.target(b"/now/by-number/2"), b"../srv/a")
        self.assertEqual((self.read(b"/now/note"), self.read(b"/now/srv/a")), (b"mill", b"bytes"))
        self.assertEqual([self.view.entry(path).kind for path in (b"/", b"/now", b"/now/srv", b"/now/by-number")], [Kind.FOLDER] * 4)
        self.assertEqual(self.view.entry(b"/now/by-number/1"), (Kind.LINK, 7, os.stat(self.image.path).st_mtime_ns, b"../note"))
        self.assertEqual(self.view.entry(b"/now/note"), (Kind.FILE, 4, os.stat(self.image.path).st_mtime_ns, b""))
        self.assertEqual(self.view.entry(b"/now/srv/a"), (Kind.FILE, 5, 1_764_410_400_000_000_000, b""))
        self.assertEqual(self.image.asked, [None])

    def test_what_is_not_there(self):
        for path in (b"/else", b"/now/none", b"/now/srv/b", b"/now/note/x", b"/now/by-number/3", b"/now/by-number/01", b"/now/by-number/x",
                     b"/now/by-number/1/x", b"/now/by-number/" + b"9" * 60, b"/now/object-1", b"/.git"):
            for ask in (self.view.entry, self.view.in_folder, self.view.open, self.view.target):
                self.assert_fault(errno.ENOENT, ask, path)
        self.assert_fault(errno.EISDIR, self.view.open, b"/now/srv")
        self.assert_fault(errno.ELOOP, self.view.open, b"/now/by-number/1")
        self.assert_fault(errno.ENOTDIR, self.view.in_folder, b"/now/note")
        self.assert_fault(errno.EINVAL, self.view.target, b"/now/note")
        self.assertEqual((self.said, self.image.asked), ([], [None]))

    def test_now_follows(self):
        self.read(b"/now/note")
        held = self.view.open(b"/now/note")
        self.image.objects = {1: (b"note", b"moor!", 8)}
        self.image.change()
        self.assertEqual(self.read(b"/now/note"), b"mill")
        self.time += NOW_SECONDS
        self.assertEqual(self.read(b"/now/note"), b"moor!")
        self.assert_fault(errno.ENOENT, self.view.entry, b"/now/srv")
        self.assertEqual((self.view.read(held, 10, 1), self.view.opened(held).size), (b"ill", 4))
        self.time += 1_000_000
        self.view.entry(b"/now")
        self.assertEqual((len(self.image.asked), self.folders()), (2, 1))
        self.view.close(held)

    def test_a_change_that_a_further_one_may_follow(self):
        self.image.change(0)
        self.view.entry(b"/now")
        self.time += NOW_SECONDS
        self.view.entry(b"/now")
        self.assertEqual(len(self.image.asked), 2)
        self.assertIsNone(seen_of(f"{self.image.path}x", time.time_ns()))

    def test_what_takes_long(self):
        """A moment that takes long to make isn't made all the time."""
        export = self.image.export

        def slow(*given):
            self.time += 10
            return export(*given)
        self.image.export = slow
        for _ in range(2):
            self.image.change()
            self.view.entry(b"/now")
        self.time += 2.5
        self.view.entry(b"/now")
        self.assertEqual(len(self.image.asked), 2)

    def test_moments(self):
        self.view.entry(b"/2026-11-29T10:00:00Z")
        self.view.entry(b"/2026-11-29T12:00:00+02:00/srv")
        self.view.entry(b"/7")
        self.assertEqual(self.image.asked, ["2026-11-29T10:00:00Z", "7"])
        self.assertEqual(self.view.in_folder(b"/"), [b"now", b"2026-11-29T10:00:00Z", b"7"])
        self.image.change()
        self.view.entry(b"/7")
        self.time += PAST_SECONDS
        self.view.entry(b"/7")
        self.assertEqual(self.image.asked[2:], ["7"])

    def test_ages(self):
        with mock.patch("s4d.mount.asked.machine_time", lambda: int(1_764_410_400_000_000 + self.time * 1_000_000)):
            for seconds in (0, 59, 61):
                self.time = 100 + seconds
                self.view.entry(b"/2h")
        self.assertEqual(self.image.asked, ["2025-11-29T08:01:40Z", "2025-11-29T08:02:41Z"])
        self.assertEqual(self.view.in_folder(b"/"), [b"now"])
        self.assert_fault(errno.ENOENT, self.view.entry, b"/99999w")
        self.assertEqual(self.said, ["99999w: 99999w ago lies before 1970"])

    def test_a_time_above_the_clock(self):
        """What is so at a time above the clock may change still."""
        self.image.is_clock = True
        self.view.entry(b"/2020-11-29T10:00:00Z")
        self.image.change()
        self.time += NOW_SECONDS
        self.view.entry(b"/2020-11-29T10:00:00Z")
        self.assertEqual(len(self.image.asked), 2)
        self.assert_fault(errno.ENOENT, self.view.entry, b"/2999-01-01T00:00:00Z")
        self.assertEqual(self.said, ["2999-01-01T00:00:00Z: it lies ahead"])
        self.assertEqual(self.folders(), 1)

    def test_no_moment(self):
        for said in ("moment 3 is hidden or expired; the earliest that can be read is 12", "moment 3 is to come; the clock is at 2, ..",
                     "its moments are numbers, and no time or age is one; give one from 0 to 2"):
            self.image.fault = s4d.ProgramFailed(Ended(1, f"s4: image: {said}"))
            self.time += NOW_SECONDS
            for _ in range(2):
                self.assert_fault(errno.ENOENT, self.view.entry, b"/3")
            self.assertEqual(self.said.pop(), f"3: s4: image: {said}")
        self.assertEqual((self.said, len(self.image.asked), self.folders()), ([], 3, 0))

    def test_what_can_not_be_read(self):
        self.view.entry(b"/3")
        for fault in (s4d.ProgramFailed(Ended(1, "s4: image: Damaged\nlength")), s4d.BadReply("s4 printed .."), OSError(errno.ENOSPC, "full")):
            self.image.fault = fault
            self.image.change()
            for _ in range(3):
                self.time += NOW_SECONDS
                self.assert_fault(errno.EIO, self.view.entry, b"/now/note")
                self.view.entry(b"/3")
        self.assertEqual(self.said, ["now: s4: image: Damaged length", "now: s4 printed ..", "now: [Errno 28] full"])
        self.image.fault, self.time = None, self.time + NOW_SECONDS
        self.assertEqual(self.read(b"/now/note"), b"mill")

    def test_lines_and_failures_have_a_bound(self):
        self.image.fault = s4d.ProgramFailed(Ended(1, "x" * 10_000))
        for number in range(2 * view.MOST_FAILURES):
            self.assert_fault(errno.EIO, self.view.entry, b"/%d" % number)
        self.assertEqual(len(self.view._failed), view.MOST_FAILURES)
        self.assertLess(max(map(len, self.said)), view.LINE + 30)

    def test_how_many_are_kept(self):
        held = self.view.open(b"/0/note")
        for number in range(view.MOST_MOMENTS + 3):
            self.view.entry(b"/%d" % number)
            self.view.entry(b"/1")
        kept = [b"/%d" % number for number in (1, *range(4, view.MOST_MOMENTS + 3))]
        self.assertEqual(sorted(b"/" + it for it in self.view.in_folder(b"/")[1:]), sorted(kept))
        self.assertEqual(self.folders(), view.MOST_MOMENTS)
        self.assertEqual(self.view.read(held, 9, 0), b"mill")
        self.view.close(held)

    def test_how_many_bytes_are_kept(self):
        self.image.objects[3] = (b"large", b"l" * 98_304, 9)
        with mock.patch.object(view, "MOST_BYTES", 2 * 106_496):
            for number in range(3):
                self.view.entry(b"/%d" % number)
        self.assertEqual(self.view.in_folder(b"/"), [b"now", b"1", b"2"])
        with mock.patch.object(view, "MOST_BYTES", 1):
            self.assertEqual(self.read(b"/3/large"), b"l" * 98_304)
        self.assertEqual((self.view.in_folder(b"/"), self.folders()), ([b"now", b"3"], 1))

    def test_how_many_are_open(self):
        with mock.patch.object(view, "MOST_OPEN", 2):
            handles = [self.view.open(b"/now/note") for _ in range(2)]
            self.assert_fault(errno.ENFILE, self.view.open, b"/now/note")
            self.view.close(handles.pop())
            self.assertEqual(self.read(b"/now/note"), b"mill")

    def test_a_temporary_folder_that_others_clean(self):
        self.read(b"/now/note")
        shutil.rmtree(f"{self.temporary}/{os.listdir(self.temporary)[0]}")
        self.assertEqual(self.read(b"/now/note"), b"mill")
        self.assertEqual(len(self.image.asked), 2)

    def test_the_folder_is_private_and_goes(self):
        held = self.view.open(b"/now/note")
        folder, = os.listdir(self.temporary)
        self.assertEqual(stat.S_IMODE(os.stat(f"{self.temporary}/{folder}").st_mode), 0o700)
        self.view.end()
        self.assertEqual(os.listdir(self.temporary), [])
        with self.assertRaises(OSError):
            os.fstat(held)

    def test_many_threads(self):
        """One program is asked for a moment, however many ask; and `now` doesn't wait for another moment."""
        export, begun, go = self.image.export, threading.Event(), threading.Event()

        def slow(folder, at=None, is_ended=None):
            if at is not None:
                begun.set()
                self.assertTrue(go.wait(PATIENCE))
            return export(folder, at)
        self.image.export = slow
        found = []
        threads = [threading.Thread(target=lambda: found.append(self.read(b"/7/note"))) for _ in range(8)]
        for thread in threads:
            thread.start()
        self.assertTrue(begun.wait(PATIENCE))
        self.assertEqual(self.read(b"/now/note"), b"mill")
        self.assertEqual(found, [])
        go.set()
        for thread in threads:
            thread.join(PATIENCE)
        self.assertEqual((found, self.image.asked), ([b"mill"] * 8, [None, "7"]))

    def test_what_fuse_asks(self):
        asks = Requests(self.view, lambda: self.said.append("ready"))
        asks("init", "/")
        self.assertEqual(self.said, ["ready"])
        self.image.objects[4] = ("tööl".encode(), b"", 9)
        name = "tööl".encode().decode("latin-1")
        self.assertEqual(asks("readdir", "/now", 0), [".", "..", "note", "srv", name])
        self.assertEqual(asks("getattr", f"/now/{name}")["st_mode"], stat.S_IFREG | 0o444)
        self.assertEqual(asks("readlink", "/now/by-number/4"), f"../{name}")
        handle = asks("open", "/now/note", os.O_RDONLY)
        self.assertEqual((asks("read", "/now/note", 2, 1, handle), asks("getattr", "/now/note", handle)["st_size"]), (b"il", 4))
        asks("release", "/now/note", handle)
        self.assert_fault(errno.EROFS, asks, "open", "/now/note", os.O_RDWR)
        for name in ("write", "create", "unlink", "truncate", "rename", "chmod", "mkdir"):
            self.assert_fault(errno.EROFS, asks, name, "/now/note", 0, 0)
        found = status_of(self.view.entry(b"/now"))
        self.assertEqual((found["st_mode"], found["st_nlink"]), (stat.S_IFDIR | 0o555, 1))


class Modules(unittest.TestCase):
    def test_which_module(self):
        """Debian's python3-fuse is another module of the name that PyPI's fusepy has."""
        good, other = mock.Mock(spec=["FUSE"]), mock.Mock(spec=["Fuse"])
        for modules, found in (({"fusepy": good, "fuse": other}, good), ({"fusepy": None, "fuse": good}, good)):
            with mock.patch.dict(sys.modules, modules):
                self.assertIs(fuse_module(), found)
        with mock.patch.dict(sys.modules, {"fusepy": None, "fuse": other}), self.assertRaisesRegex(NoFuse, "python3-fusepy"):
            fuse_module()


def fill(image, attributes):
    """Gives an image an object for each attribute, whose bytes are its number and its attribute."""
    first = image.info().next
    with image.session() as drive, drive.pipeline() as batch:
        for object, attribute in enumerate(attributes, first):
            batch.create(attribute)
            batch.write(object, 0, b"%d %s" % (object, attribute))


def counting(folder):
    """A program `s4` that writes its command's name into a file, and that file."""
    path, log = pathlib.Path(folder, "s4"), pathlib.Path(folder, "s4.log")
    path.write_text(f'#!/bin/sh\necho "$1" >> "{log}"\nexec "{S4}" "$@"\n', encoding="utf-8")
    path.chmod(0o700)
    return str(path), log


@needs_program
@needs_s4
class Exports(unittest.TestCase):
    """Moments of an image, as `s4` gives them."""

    def setUp(self):
        folder = tempfile.TemporaryDirectory()
        self.addCleanup(folder.cleanup)
        self.folder, self.said = folder.name, []
        self.image = s4d.Image(f"{folder.name}/-image", PROGRAM, S4, timeout=PATIENCE)
        self.image.make(24, window=20)
        fill(self.image, [b"note", b"/srv/a"])
        with self.image.session("admin") as drive:
            drive.write(1, 2, b"else")
            drive.delete(2)
            drive.flush(3, 3)
        self.view = View(self.image, self.said.append)
        self.addCleanup(self.view.end)

    def read(self, path):
        handle = self.view.open(path)
        try:
            return self.view.read(handle, 98_304, 0)
        finally:
            self.view.close(handle)

    def test_export(self):
        found = self.image.export(f"{self.folder}/out", 4)
        self.assertEqual([(it.object, it.file, it.size, it.created, it.changed, it.attribute, it.attribute_text) for it in found.objects],
                         [(1, "object-1", 6, 1, 2, b"note", "note"), (2, "object-2", 8, 3, 4, b"/srv/a", "/srv/a")])
        self.assertFalse(found.is_clock)
        self.assertEqual(pathlib.Path(f"{self.folder}/out/object-2").read_bytes(), b"2 /srv/a")
        with self.assertRaisesRegex(s4d.ProgramFailed, "out"):
            self.image.export(f"{self.folder}/out")
        self.assertEqual([it.object for it in self.image.export(f"{self.folder}/else").objects], [1])

    def test_moments(self):
        self.assertEqual((self.read(b"/2/note"), self.read(b"/4/srv/a"), self.read(b"/now/note")), (b"1 note", b"2 /srv/a", b"1 else"))
        self.assertEqual(self.view.in_folder(b"/now"), [b"note"])
        self.assertEqual(self.view.in_folder(b"/0"), [])
        for name in (b"3", b"99", b"2h", b"2026-11-29T10:00:00Z"):
            with self.assertRaises(FileNotFoundError):
                self.view.entry(b"/" + name)
        self.assertRegex("\n".join(self.said), r"3: .* hidden or expired; .*\n99: .* to come; .*\n2h: .* numbers, .*\n2026-.*Z: .* numbers")

    def test_an_export_for_which_nobody_waits(self):
        asked = []
        self.image.s4 = f"{self.folder}/s4"
        pathlib.Path(self.image.s4).write_text("#!/bin/sh\nexec sleep 600\n", encoding="utf-8")
        os.chmod(self.image.s4, 0o700)
        with self.assertRaisesRegex(s4d.ProgramFailed, "nobody waits"):
            self.image.export(f"{self.folder}/out", is_ended=lambda: asked.append(1) or len(asked) == 3)
        self.image.timeout = 0.3
        with self.assertRaisesRegex(s4d.ProgramFailed, "killed after 0.3 seconds"):
            self.image.export(f"{self.folder}/out", is_ended=lambda: False)

    def test_a_moment_that_expires(self):
        self.read(b"/2/note")
        with self.image.session() as drive:
            for _ in range(30):
                drive.append(1, b".")
        self.view._clock = lambda: time.monotonic() + PAST_SECONDS
        with self.assertRaises(FileNotFoundError):
            self.view.entry(b"/2")
        self.assertIn("hidden or expired", self.said[0])
        self.assertEqual(self.view.in_folder(b"/"), [b"now"])

    def test_an_image_that_is_damaged_or_gone(self):
        data = pathlib.Path(self.image.path).read_bytes()
        for fault in (lambda: os.truncate(self.image.path, 1_000), lambda: os.unlink(self.image.path)):
            fault()
            with self.assertRaises(OSError) as caught:
                self.view.entry(b"/now")
            self.assertEqual(caught.exception.errno, errno.EIO)
            self.assertEqual(len(self.said), 1, self.said)
            self.said.clear()
            self.view._clock = lambda: time.monotonic() + PAST_SECONDS
        pathlib.Path(self.image.path).write_bytes(data)
        self.view._clock = lambda: time.monotonic() + 2 * PAST_SECONDS
        self.assertEqual(self.read(b"/now/note"), b"1 else")

    def test_commands_that_can_not_be_done(self):
        for words, line in (((self.image.path, f"{self.folder}/none"), "none"), ((f"{self.folder}/none", self.folder), "not empty|isn't empty"),
                            ((), "required: IMAGE, DIR; --help lists the options")):
            said = subprocess.run([sys.executable, "-B", "-m", "s4d.mount", "--s4", S4, *words], cwd=PACKAGE, stdin=subprocess.DEVNULL,
                                  stdout=subprocess.PIPE, stderr=subprocess.PIPE, check=False)
            text = said.stderr.decode()
            self.assertIn(said.returncode, (1, 2))
            self.assertEqual((said.stdout, text.count("\n"), text[:11]), (b"", 1, "s4d.mount: "))
            if PYTHON == sys.executable or said.returncode == 2:
                self.assertRegex(text, line)


class Mounted:
    """A mount that each test starts as it needs it, and that is gone at its end."""

    def start_mount(self, image):
        base = tempfile.mkdtemp()
        self.addCleanup(shutil.rmtree, base, True)
        self.mounted, self.temporary = pathlib.Path(base, "-mounted"), pathlib.Path(base, "tmp")
        self.mounted.mkdir()
        self.temporary.mkdir()
        program, self.calls = counting(base)
        words = [PYTHON, "-B", "-m", "s4d.mount", "--s4", program, "--", str(image), str(self.mounted)]
        self.log = open(f"{base}/log", "w+b")  # pylint: disable=consider-using-with
        self.addCleanup(self.log.close)
        self.program = subprocess.Popen(words, cwd=PACKAGE, env={**os.environ, "TMPDIR": str(self.temporary)}, stdin=subprocess.DEVNULL,
                                        stdout=subprocess.PIPE, stderr=self.log)
        self.addCleanup(self.end_mount)
        self.assertEqual(self.program.stdout.readline().decode(), f"{image} is mounted at {self.mounted}\n", self.lines())

    def end_mount(self):
        """Whatever has become of it, nothing is left."""
        if self.program.poll() is None:
            self.program.kill()
        self.program.wait()
        self.program.stdout.close()
        if is_mounted(self.mounted):
            subprocess.run(["fusermount", "-u", "-z", str(self.mounted)], check=False)

    def lines(self):
        self.log.seek(0)
        return self.log.read().decode()

    def exports(self):
        return self.calls.read_text(encoding="utf-8").split().count("export")

    def assert_ended(self):
        """The program has ended in order, and left nothing."""
        self.assertEqual(self.program.wait(PATIENCE), 0, self.lines())
        self.assertFalse(is_mounted(self.mounted))
        self.assertEqual(list(self.temporary.iterdir()), [])


def is_mounted(path):
    return f" {path} " in pathlib.Path("/proc/self/mounts").read_text(encoding="utf-8")


@needs_program
@needs_s4
@needs_fuse
class Mounts(Mounted, unittest.TestCase):
    """A mount of an image that nobody serves."""

    def setUp(self):
        folder = tempfile.TemporaryDirectory()
        self.addCleanup(folder.cleanup)
        self.folder = folder.name
        self.image = s4d.Image(f"{folder.name}/image", PROGRAM, S4, timeout=PATIENCE)
        self.image.make(256, window=10_000)

    def start(self, *attributes):
        fill(self.image, attributes)
        os.utime(self.image.path, (1_000_000_000, 1_000_000_000))
        self.start_mount(self.image.path)

    def test_a_thousand_files_by_one_program(self):
        attributes = [b"/srv/%d/file %d" % (number % 7, number) for number in range(1_000)]
        self.start(*attributes)
        found = {}
        for top, _, files in os.walk(f"{self.mounted}/now"):
            for name in files:
                found[os.path.join(top, name)] = pathlib.Path(top, name).read_bytes()
        self.assertEqual(found, {f"{self.mounted}/now{attribute.decode()}": b"%d %s" % (object, attribute)
                                 for object, attribute in enumerate(attributes, 1)})
        self.assertEqual(self.exports(), 1)
        before = pathlib.Path(self.mounted, "1000/srv")
        self.assertEqual([len(list(folder.iterdir())) for folder in sorted(before.iterdir())], [72] * 3 + [71] * 4)
        self.assertEqual((before / "2/file 499").read_bytes(), b"500 /srv/2/file 499")
        self.assertEqual(self.exports(), 2)
        self.assertEqual(os.readlink(f"{self.mounted}/now/by-number/8"), "../srv/0/file 7")
        self.assertEqual(pathlib.Path(f"{self.mounted}/now/by-number/8").read_bytes(), b"8 /srv/0/file 7")
        self.assertEqual(len(os.listdir(f"{self.mounted}/now/by-number")), 1_000)

    def test_large_ones(self):
        with self.image.session() as drive:
            data = random.Random(1).randbytes(98_304) if sys.version_info >= (3, 9) else os.urandom(98_304)
            drive.write_pieces(drive.create(b"large").object, 0, data)
        self.start()
        path = f"{self.mounted}/now/large"
        self.assertEqual(pathlib.Path(path).read_bytes(), data)
        with open(path, "rb") as large:
            large.seek(50_001)
            self.assertEqual(large.read(511), data[50_001:50_512])
            self.assertEqual(mmap.mmap(large.fileno(), 0, mmap.MAP_PRIVATE, mmap.PROT_READ)[:], data)

    def test_nothing_can_be_changed(self):
        self.start(b"note", b"srv/a")
        now = f"{self.mounted}/now"
        note, new = f"{now}/note", f"{now}/new"
        for ask in (lambda: open(note, "ab"), lambda: open(note, "r+b"), lambda: open(new, "wb"), lambda: os.unlink(note),
                    lambda: os.truncate(note, 0), lambda: os.rename(note, new), lambda: os.mkdir(new), lambda: os.rmdir(f"{now}/srv"),
                    lambda: os.chmod(note, 0o777), lambda: os.utime(note), lambda: os.symlink("a", new),
                    lambda: os.link(note, new), lambda: os.setxattr(note, "user.a", b""), lambda: os.mkdir(f"{self.mounted}/7")):
            with self.assertRaises(OSError) as caught:
                ask()
            self.assertEqual(caught.exception.errno, errno.EROFS)
        found = os.stat(f"{now}/note")
        self.assertEqual((found.st_mode, found.st_size, found.st_uid, found.st_gid, found.st_nlink, found.st_mtime),
                         (stat.S_IFREG | 0o444, 6, os.getuid(), os.getgid(), 1, 1_000_000_000))
        for folder in (str(self.mounted), now, f"{now}/srv", f"{now}/by-number"):
            self.assertEqual(os.stat(folder).st_mode, stat.S_IFDIR | 0o555)
        self.assertEqual(self.image.verify().clock, 4)

    def test_names_of_enemies(self):
        attributes = [b"../../etc/passwd", b"\x1b[2J", b"\xff\xfe", "\U0001f600".encode() * 16, b"note", b"note", b"srv", b"srv/a", b"by-number/1",
                      b"object-1", "tööl".encode(), b"", b"a\\b\"'$(x)", b"/".join([b"d"] * 32)]
        self.start(*attributes)
        top = os.fsencode(f"{self.mounted}/now")
        found = {os.path.relpath(os.path.join(here, name), top) for here, _, files in os.walk(top) for name in files}
        plain = {b"object-%d" % number for number in (1, 2, 3, 6, 7, 9, 10, 12)}
        self.assertEqual(found, plain | {attributes[at] for at in (3, 4, 7, 10, 12, 13)})
        for number, attribute in enumerate(attributes, 1):
            self.assertEqual(pathlib.Path(f"{self.mounted}/now/by-number/{number}").read_bytes(), b"%d %s" % (number, attribute))
        for name in (b"\xff", b"\x1b[2J", b"x" * 255, b"\n"):
            with self.assertRaises(FileNotFoundError):
                os.stat(top + b"/" + name)
            with self.assertRaises(FileNotFoundError):
                os.stat(os.path.join(os.fsencode(self.mounted), name))
        self.assertEqual(self.lines(), "")

    def test_moments_that_are_none(self):
        self.start(b"note")
        for name in ("99", "2h", "2026-11-29T10:00:00Z", "else"):
            self.assertFalse(os.path.exists(f"{self.mounted}/{name}"))
        self.assertEqual([line.split(":")[1] for line in self.lines().splitlines()], [" 99", " 2h", " 2026-11-29T10"])
        self.assertEqual(os.listdir(self.mounted), ["now"])

    def test_an_unmount_while_a_file_is_open(self):
        self.start(b"note")
        with open(f"{self.mounted}/now/note", "rb", 0) as note:
            self.assertNotEqual(subprocess.run(["fusermount", "-u", str(self.mounted)], capture_output=True, check=False).returncode, 0)
            subprocess.run(["fusermount", "-u", "-z", str(self.mounted)], check=True)
            self.assertEqual(note.read(), b"1 note")
            self.assertIsNone(self.program.poll())
        self.assert_ended()

    def test_an_unmount(self):
        self.start(b"note")
        os.stat(f"{self.mounted}/now/note")
        subprocess.run(["fusermount", "-u", str(self.mounted)], check=True)
        self.assert_ended()

    def test_signals(self):
        for number in (signal.SIGTERM, signal.SIGINT):
            with self.subTest(number):
                self.start(b"note")
                note = os.open(f"{self.mounted}/now/note", os.O_RDONLY)
                self.assertNotEqual(list(self.temporary.iterdir()), [])
                self.program.send_signal(number)
                self.assert_ended()
                for ask in (lambda: os.read(note, 1), lambda: os.close(note)):
                    with self.assertRaises(OSError):
                        ask()
                self.end_mount()

    def test_a_signal_while_a_moment_is_made(self):
        self.start(b"note")
        begun = pathlib.Path(self.folder, "begun")
        program = self.calls.with_name("s4")
        program.write_text(f'#!/bin/sh\ntouch "{begun}"; exec sleep 600\n', encoding="utf-8")
        asker = subprocess.Popen(["ls", f"{self.mounted}/now"], stdout=subprocess.DEVNULL, stderr=subprocess.DEVNULL)
        try:
            wait_until(begun.exists, "the moment is made")
            self.program.terminate()
            self.assert_ended()
            self.assertNotEqual(asker.wait(PATIENCE), 0)
        finally:
            asker.kill()
            asker.wait()

    def test_a_name_that_becomes_a_folder(self):
        self.start(b"srv")
        path = f"{self.mounted}/now/srv"
        self.assertEqual(pathlib.Path(path).read_bytes(), b"1 srv")
        fill(self.image, [b"srv/a"])
        wait_until(lambda: os.path.isdir(path), "the folder is there")
        self.assertEqual(pathlib.Path(f"{path}/a").read_bytes(), b"2 srv/a")
        self.assertEqual(pathlib.Path(f"{self.mounted}/now/object-1").read_bytes(), b"1 srv")

    def test_an_image_that_is_replaced_or_removed(self):
        self.start(b"note")
        self.assertEqual(os.listdir(f"{self.mounted}/now"), ["note"])
        other = s4d.Image(f"{self.folder}/other", PROGRAM, S4, timeout=PATIENCE)
        other.make(24)
        fill(other, [b"else"])
        os.replace(other.path, self.image.path)
        wait_until(lambda: os.listdir(f"{self.mounted}/now") == ["else"], "the other image is seen")
        os.unlink(self.image.path)
        wait_until(lambda: not os.path.exists(f"{self.mounted}/now"), "the image isn't there")
        with self.assertRaises(OSError) as caught:
            os.listdir(f"{self.mounted}/now")
        self.assertEqual(caught.exception.errno, errno.EIO)
        self.assertEqual(self.lines().count("\n"), 1, self.lines())


@needs_s4
@needs_s4serve
@needs_fuse
class MountsOfServed(Mounted, Served):
    """A mount beside a service that changes the image."""

    def test_now_follows(self):
        self.start(64)
        self.start_mount(self.image)
        now = pathlib.Path(self.mounted, "now")
        with self.session() as drive:
            note = drive.create(b"note").object
            for number in range(5):
                at = drive.write(note, 0, b"%d" % number)
                wait_until(lambda: (now / "note").exists() and (now / "note").read_bytes() == b"%d" % number, "the change is seen")
            wait_until(lambda: (now / "note").stat().st_mtime_ns == at * 1_000, "its time is that of the change")
            with open(now / "note", "rb", 0) as held:
                drive.truncate(note, 0)
                drive.delete(note)
                wait_until(lambda: not (now / "note").exists(), "the object is gone")
                self.assertEqual(held.read(), b"4")
        time_of = (s4d.moments.EPOCH + at * s4d.moments.MICROSECOND).isoformat().replace("+00:00", "Z")
        self.assertEqual((self.mounted / time_of / "note").read_bytes(), b"4")
        self.assertEqual((self.mounted / str(at) / "by-number" / "1").read_bytes(), b"4")
        self.assertEqual(os.listdir(self.mounted / "0s"), [])
        self.assertFalse((self.mounted / "2999-01-01T00:00:00Z").exists())
        self.assertEqual(self.lines(), "s4d.mount: 2999-01-01T00:00:00Z: it lies ahead\n")
        self.stop()
        self.assertEqual(os.listdir(now), [])

    def test_each_state_is_one_that_was(self):
        """While two objects are changed one after the other without end, `now` never has the second one ahead."""
        self.start(256)
        self.start_mount(self.image)
        ended = threading.Event()

        def change():
            with self.session() as drive:
                objects = [drive.create(name).object for name in (b"first", b"second")]
                number = 0
                while not ended.is_set():
                    number += 1
                    for object in objects:
                        drive.write(object, 0, b"%08d" % number)
                    time.sleep(0.01)
        thread = threading.Thread(target=change)
        thread.start()
        try:
            path = self.mounted / "now"
            wait_until((path / "second").exists, "the objects are there")
            seen = set()
            while len(seen) < 3:
                second = int((path / "second").read_bytes() or b"0")
                first = int((path / "first").read_bytes() or b"0")
                self.assertGreaterEqual(first, second)
                seen.add(first)
        finally:
            ended.set()
            thread.join(PATIENCE)
        self.assertEqual(self.lines(), "")


if __name__ == "__main__":
    unittest.main()
