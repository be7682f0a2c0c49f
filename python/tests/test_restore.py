"""A way back without stopping: objects of a drive that is served are made what they were at a moment."""
import contextlib
import io
import lzma
import os
import random
import subprocess
import tempfile
import threading
import unittest
from unittest import mock

import s4d
from s4d import AuditKind, AuditRow, wire
from s4d.moments import machine_time
from s4d.restore import Asker, Fault, Restore, Sayer, Wanted, plans
from s4d.restore.command import main
from s4d.restore.ledger import NEAR_RUNS, Ledger, Runs
from s4d.restore.room import Versions
from s4d.restore.standins import StandIns
from s4d.restore.words import text_of, word_in

from .bridged import PACKAGE, PATIENCE, wait_until
from .built import PROGRAM, S4, S4SERVE, TOP, needs_program, needs_s4, needs_s4serve
from .plain_drive import PlainDrive, Refusal
from .served import Served, restore_words
from .test_sockets import Served as Plain

HISTORIES = int(os.environ.get("RESTORE_HISTORIES", "8"))


class Plans(unittest.TestCase):
    """The fewest and smallest changes, by a plain drive that does them."""

    def done(self, then, now, attributes=(b"", b"")):
        """The changes by which an object is made what it was, which are tried."""
        drive = PlainDrive()
        drive.answer("client", wire.create(attributes[1]).body)
        if now:
            for start in range(0, len(now), wire.WRITE_BYTES):
                drive.answer("client", wire.append(1, now[start:start + wire.WRITE_BYTES]).body)
        changes = plans.changes_between(1, plans.Content(then, attributes[0]), plans.Content(now, attributes[1]))
        for it in changes:
            self.assertEqual(drive.answer("client", it.request.body)[0], 1)
            self.assertEqual(drive.rows[-1][1:], (it.row.kind.value, *it.row[2:]))
        version = drive.versions[1][-1]
        self.assertEqual((version.data, version.attribute), (then, attributes[0]))
        return [(it.row.kind, it.row.first, it.row.second) for it in changes]

    def test_what_is_asked(self):
        write, cut, name = AuditKind.WRITE, AuditKind.TRUNCATE, AuditKind.SET_ATTRIBUTE
        data = bytes(range(1, 251)) * 12
        evil = data[:700] + b"!" + data[701:1_500] + b"!!" + data[1_502:]
        for then, now, wanted in (
                (data, data, []),
                (b"", b"", []),
                (data, evil, [(write, 700, 802)]),  # blocks 1 and 2, which are neighbours
                (data, b"!" + data[1:2_000] + b"!" + data[2_001:], [(write, 0, 1), (write, 2_000, 1)]),
                (data, data + b"more", [(cut, 3_000, 0)]),
                (data, data[:2_000], [(write, 2_000, 1_000)]),
                (data + bytes(9), data, [(cut, 3_009, 0)]),  # zeros at the end come by a Truncate alone
                (bytes(9), b"", [(cut, 9, 0)]),
                (data, b"", [(write, 0, 3_000)]),
                (bytes(600) + b"x", b"", [(write, 600, 1)])):  # and zeros before by no bytes
            with self.subTest(sizes=(len(then), len(now))):
                self.assertEqual(self.done(then, now), wanted)
        self.assertEqual(self.done(b"x", b"x", (b"new", b"old")), [(name, 3, 0)])

    def test_pieces(self):
        whole = random.Random(1).randbytes(98_304)
        written = self.done(whole, b"")
        self.assertEqual([first % 512 for _, first, _ in written], [0] * 4)
        self.assertEqual((sum(length for _, _, length in written), max(length for _, _, length in written)), (98_304, 63 * 512))

    def test_random_texts(self):
        draw = random.Random(7)
        for _ in range(300):
            now = bytes(draw.randrange(3) for _ in range(draw.randrange(4_000)))
            then = bytearray(now[:draw.randrange(4_000)].ljust(draw.randrange(4_000), b"\0"))
            for _ in range(draw.randrange(4)):
                if then:
                    then[draw.randrange(len(then))] = draw.randrange(3)
            asked = self.done(bytes(then), now)
            blocks = [block for kind, first, length in asked if kind is AuditKind.WRITE
                      for block in range(first // 512, (first + length - 1) // 512 + 1)]
            there = now.ljust(len(then), b"\0")
            places = {place // 512 for place in range(len(then)) if then[place] != there[place]}
            self.assertEqual(blocks, sorted(places))


class Ledgers(unittest.TestCase):
    def test_runs(self):
        draw = random.Random(3)
        for _ in range(300):
            runs, hidden = Runs(), set()
            for _ in range(draw.randrange(12)):
                first = draw.randrange(40)
                last = first + draw.randrange(6)
                runs.add(7, first, last)
                hidden |= set(range(first, last + 1))
            self.assertEqual(runs.count, sum(it - 1 not in hidden for it in hidden))
            for first in range(45):
                last = first + draw.randrange(4)
                self.assertEqual(runs.hides(7, first, last), set(range(first, last + 1)) <= hidden)
                self.assertFalse(runs.hides(8, first, last))

    def test_newest_versions(self):
        rows = [AuditRow(5, AuditKind.CREATE, 1, 0, 0)] + [AuditRow(moment, AuditKind.WRITE, 1, 0, 1) for moment in (7, 9, 20, 30)]
        ledger = Ledger(rows)
        found = []
        while (span := ledger.newest_hidable(1, 6)) is not None:
            found.append(span)
            ledger.add(AuditRow(31 + len(found), AuditKind.FLUSH_OBJECT, 1, *span))
        self.assertEqual(found, [(20, 29), (9, 19), (7, 8)])
        self.assertIsNone(Ledger(rows[:1]).newest_hidable(1, 6))
        self.assertEqual([Ledger(rows).newest_hidable(1, moment) for moment in (9, 20)], [(20, 29), None])

    def test_oldest_versions(self):
        """Those of several objects in the order in which they began; present ones stay, until others follow."""
        def written(moment, object):
            return AuditRow(moment, AuditKind.WRITE, object, 0, 1)

        ledger = Ledger([written(5, 1), written(6, 2), written(11, 2), written(12, 1), written(13, 2), written(14, 2), written(15, 1), written(16, 3)])
        versions = Versions(ledger, 10)
        for object in (1, 2, 3):
            versions.offer(object)
        self.assertEqual(versions.take(2), [(2, 11, 12), (1, 12, 14)])
        ledger.add(AuditRow(17, AuditKind.FLUSH_OBJECT, 2, 11, 12))
        ledger.add(AuditRow(18, AuditKind.FLUSH_OBJECT, 1, 12, 14))
        self.assertEqual((versions.take(9), versions.take(9)), ([(2, 13, 13)], []))
        ledger.add(written(19, 3))
        ledger.add(written(20, 1))
        ledger.add(written(21, 3))
        for _ in range(2):
            versions.offer(3)
            versions.offer(1)
        self.assertEqual(versions.take(9), [(1, 15, 19), (3, 16, 20)])
        ledger.add(written(22, 1))
        ledger.add(AuditRow(23, AuditKind.FLUSH, 0, 1, 22))
        versions.offer(1)
        self.assertEqual(versions.take(9), [])

    def test_many_objects(self):
        """What is done for each doesn't grow with how many there are."""
        rows = [AuditRow(place + 1, AuditKind.WRITE, place % 3_000 + 1, 0, 1) for place in range(6_000)]
        ledger = Ledger(rows)
        versions, looked = Versions(ledger, 0), []
        hides = ledger.runs.hides

        def counted(*span):
            looked.append(span)
            return hides(*span)

        ledger.runs.hides = counted
        for object in range(1, 3_001):
            versions.offer(object)
        taken = [versions.take(1)[0][0] for _ in range(3_000)]
        self.assertEqual((taken, versions.take(1), len(looked)), (list(range(1, 3_001)), [], 3_000))


class Counting:
    """What an `Asker` is asked, of a plain drive."""

    def __init__(self, drive):
        self.drive, self.asked = drive, 0

    def all(self, requests):
        self.asked += len(requests)
        return [self.reply(request) for request in requests]

    def reply(self, request):
        answer = request.answer(self.drive.answer("admin", request.body))
        return mock.Mock(refusal=lambda: answer if isinstance(answer, s4d.Refused) else None, result=lambda: answer)

    versions = Asker.versions


class ManyStandIns(unittest.TestCase):
    def test_those_of_one_size(self):
        """Each is read once, however many there are that could be one another's."""
        drive, count = PlainDrive(), 300
        for place in range(count):
            drive.answer("client", wire.create(b"note").body)
            drive.answer("client", wire.append(place + 1, b"%9d" % (place // 2)).body)
        at = drive.clock
        for place in range(count):
            drive.answer("client", wire.delete(place + 1).body)
        for place in range(count):
            drive.answer("client", wire.create(b"note").body)
            drive.answer("client", wire.append(count + place + 1, b"%9d" % (place // 2 + 10)).body)
        asker = Counting(drive)
        found = StandIns(asker, range(count + 1, 2 * count + 1)).of(range(1, count + 1), at)
        self.assertEqual(found, {object: object + count - 20 for object in range(21, count + 1)})
        self.assertEqual(asker.asked, 3 * 2 * count)  # attributes twice, and one Read

    def test_words(self):
        now = 1_795_785_482_000_123
        for text, moment, is_time in (("7", 7, False), ("2h", now - 7_200_000_000, True), ("2026-11-27T13:18:02.000123Z", now, True),
                                      ("2026-11-27t14:18:02.0001239+01:00", now, True), ("18446744073709551615", 2**64 - 1, False)):
            self.assertEqual(word_in(text, now), (moment, is_time))
        for text in ("", "x", "-1", "2y", "9000w", "2026-11-27T13:18:02", "2026-13-27T13:18:02Z", "1969-12-31T23:59:59Z", "18446744073709551616"):
            with self.subTest(text), self.assertRaisesRegex(ValueError, "is no moment; give a number"):
                word_in(text, now)
        self.assertEqual((text_of(now), text_of(12)), ("2026-11-27T13:18:02.000123Z", "12"))


def restored(drive, at, *, facts=None, **more):
    """What a restore did, and the lines that it printed."""
    out, said = io.StringIO(), io.StringIO()
    sayer = Sayer(out, said)
    done = Restore(Asker(drive), Wanted(at, **more), sayer, facts).run()
    sayer.end()
    return done, out.getvalue().splitlines(), said.getvalue()


def present_of(drive, numbers):
    """What each object holds now."""
    versions = Asker(drive).versions([(number, None) for number in numbers])
    return {number: it for number, it in zip(numbers, versions) if not isinstance(it, s4d.Refused)}


class Numbers(Plain):
    """A plain drive, whose moments are numbers."""

    def setUp(self):
        super().setUp()
        self.server = self.serve()

    def serve(self):
        from .test_sockets import Server
        return Server(self.listener)

    def connect(self):
        return s4d.Drive.connect(self.address, PATIENCE)

    def command(self, *words):
        out, said = io.StringIO(), io.StringIO()
        with contextlib.redirect_stdout(out), contextlib.redirect_stderr(said):
            try:
                status = main(["--connect", self.address, *map(str, words)])
            except SystemExit as end:
                status = end.code
        return status, out.getvalue().splitlines(), said.getvalue()

    def story(self):
        """An owner's objects, and what an intruder does to them: the moment between."""
        with self.connect() as it:
            for name in (b"one", b"two", b"three", b"four"):
                it.append(it.create(name).object, name * 400)
            at = it.attributes(4).changed
            it.write(1, 700, b"evil")
            it.delete(2)
            it.set_attribute(3, b"changed")
            it.write(4, 0, b"!")
            it.write(4, 0, b"f")  # as it was
            it.append(it.create(b"new").object, b"bytes")
        return at

    def test_lines(self):
        at = self.story()
        asked = len(self.server.drive.rows)
        lines = ["         5  deleted", "         1  changed", "         3  changed"]
        status, printed, said = self.command("--at", at, "--dry-run")
        self.assertEqual((status, printed), (0, lines + ["         2  made anew"]))
        self.assertEqual(said, "s4d.restore: 2 would be changed, 1 would be deleted, 1 would be made anew, 0 not restored\n")
        self.assertEqual(len(self.server.drive.rows), asked)
        status, printed, said = self.command("--at", at)
        self.assertEqual((status, printed), (0, lines + ["         2  made anew as 6"]))
        self.assertRegex(said, r"^s4d.restore: 2 changed, 1 deleted, 1 made anew, 0 not restored, 0 spans of moments hidden, 0 changed by others "
                               r"meanwhile, by 5 changes in \d+\.\d s\n$")
        self.assertEqual([row[1] for row in self.server.drive.rows[asked:]], [2, 1, 4, 8, 4])
        with self.connect() as it:
            self.assertEqual([it.read(number) for number in (1, 6, 3, 4)], [name * 400 for name in (b"one", b"two", b"three", b"four")])
            self.assertEqual([it.attributes(number).attribute for number in (6, 3)], [b"two", b"three"])
        self.assertEqual(self.command("--at", at)[:2], (0, ["         2  is there as 6"]))  # there is nothing left to do
        self.assertEqual(len(self.server.drive.rows), asked + 5)

    def test_some_objects(self):
        at = self.story()
        self.assertEqual(self.command("--at", at, "--object", 3, "--object", 4)[:2], (0, ["         3  changed"]))
        made = self.server.drive.rows[-3][0]
        self.assertEqual(self.command("--at", at, "--created-since", made, "--dry-run")[:2], (0, ["         5  deleted"]))
        self.assertEqual(self.command("--at", at, "--object", 1, "--created-since", at)[:2], (0, ["         5  deleted", "         1  changed"]))
        self.assertEqual(self.command("--at", at, "--object", 9), (1, [], f"s4d.restore: there is no object 9, nor was there one at {at}\n"))

    def test_moments(self):
        self.story()
        clock = self.server.drive.clock
        for word in ("2h", "2026-11-27T13:18:02Z"):
            why = f"s4d.restore: the drive's moments are numbers, and no time or age is one; give one up to {clock}\n"
            self.assertEqual(self.command("--at", word), (1, [], why))
        status, _, said = self.command("--at", "soon")
        self.assertEqual((status, said.split(";")[0]), (2, "s4d.restore: argument --at: soon is no moment"))
        self.assertEqual(self.command("--at", 99), (1, [], "s4d.restore: moment 99 is to come\n"))
        with self.connect() as it:
            it.flush(3, 4)
        self.assertEqual(self.command("--at", 3), (1, [], "s4d.restore: moment 3 is hidden\n"))
        self.server.drive.floor = 3
        self.assertEqual(self.command("--at", 2), (1, [], "s4d.restore: moment 2 has expired: the window doesn't reach back to it\n"))

    def test_no_object_is_left(self):
        with self.connect() as it:
            it.set_window(10**6)
            at = it.flush(0, 0)
            for _ in range(3):
                it.create()
        self.assertEqual(self.command("--at", at), (1, [], "s4d.restore: no object would be left; --to-nothing deletes them all\n"))
        self.assertEqual(self.command("--at", at, "--object", 2)[:2], (0, ["         2  deleted"]))
        self.assertEqual(self.command("--at", at, "--to-nothing")[:2], (0, ["         1  deleted", "         3  deleted"]))

    def test_hidden_versions(self):
        """An object of which the moment is hidden stays as it is."""
        at = self.story()
        with self.connect() as it:
            it.flush_object(1, at, at)
        self.assertEqual(self.command("--at", at)[:2], (1, ["         5  deleted", "         3  changed", "         2  made anew as 6",
                                                            "         1  not restored (its moment is hidden)"]))

    def test_an_audit_that_does_not_reach_back(self):
        """The rows begin where an image was migrated: what was changed before has none."""
        at = self.story()
        drive = self.server.drive
        del drive.rows[:next(place for place, row in enumerate(drive.rows) if row[0] > at) + 1]  # the first change too
        why = (f"s4d.restore: the audit doesn't reach back to {at}: object 1 was changed since, and it has no row of that, as where the image was "
               "migrated since; stop the service, and use s4 restore\n")
        self.assertEqual(self.command("--at", at), (1, [], why))
        rows = list(drive.rows)
        drive.rows[:] = [row for row in rows if row[1] != 1]  # no object was made since, so there may be any number of them
        why = f"s4d.restore: the audit has nothing up to {at}, so whether it reaches back can't be known; give --image IMAGE\n"
        self.assertEqual(self.command("--at", at), (1, [], why))
        drive.rows[:] = rows
        self.assertEqual(self.command("--at", rows[0][0], "--dry-run")[0], 0)

    def test_an_audit_that_lacks_a_creation(self):
        """An object was made and the image migrated, both since: only what it became later has rows."""
        at = self.story()
        with self.connect() as it:
            it.append(5, b"more")
        drive = self.server.drive
        for number in (1, 2, 3, 4):
            drive.versions[number] = [version for version in drive.versions[number] if version.moment <= at]
        drive.rows[:] = [row for row in drive.rows if row[0] > at and row[2] == 5 and row[1] != 1]
        with self.connect() as it:
            it.create(b"later")
        why = (f"s4d.restore: the audit doesn't reach back to {at}: object 5 was changed since, and it has no row of that, as where the image was "
               "migrated since; stop the service, and use s4 restore\n")
        asked = len(drive.rows)
        self.assertEqual(self.command("--at", at), (1, [], why))
        self.assertEqual(len(drive.rows), asked)

    def test_what_is_said_of_an_interruption(self):
        at = self.story()
        for error, said in ((KeyboardInterrupt, ""), (s4d.Disconnected("the stream ended"), "s4d.restore: the stream ended\n")):
            with mock.patch("s4d.restore.asking.Asker.change", side_effect=error):
                why = f"s4d.restore: interrupted; the same command with --at {at} goes on where it was\n{said}"
                self.assertEqual(self.command("--at", at), (1, [], why))

    def test_nothing_was_before(self):
        """Where the first row is later, but of all objects that were made before nothing was changed since."""
        at = self.story()
        drive = self.server.drive
        del drive.rows[:next(place for place, row in enumerate(drive.rows) if row[0] > at)]
        self.assertEqual(self.command("--at", at, "--dry-run")[0], 0)

    def test_a_moment_near_the_floor(self):
        with self.connect() as it:
            it.set_window(4_000)
            at = it.create(b"old").moment
            it.append(1, b"mill")
            it.truncate(1, 1)
        status, printed, _ = self.command("--at", at + 1)
        clock = self.server.drive.clock
        after = clock - 2 + 2 * 4_096 - (at + 1)
        self.assertEqual((status, printed), (0, [f"window 4000 widened to {after}; SetWindow 4000 puts it back", "         1  changed"]))
        self.assertEqual(self.server.drive.window, after)
        self.assertEqual(self.command("--at", at + 1)[:2], (0, []))

    def test_a_window_that_no_row_has(self):
        """The floor says it; before it rises nothing can expire."""
        self.server.drive.window = 5_000
        with self.connect() as it:
            at = it.create(b"old").moment
            it.append(1, b"mill")
            self.assertEqual(self.command("--at", at)[:2], (0, ["         1  changed"]))
            self.server.drive.clock = at + 4_990
            it.truncate(1, 3)
            it.truncate(1, 1)
            self.server.drive.clock = at + 5_000  # as time goes on
            it.attributes(1)
            self.server.drive.floor = at
        clock = self.server.drive.clock
        status, printed, _ = self.command("--at", at, "--dry-run")
        self.assertEqual((status, printed), (0, ["window 5000 would be widened, since the moment is near the floor", "         1  changed"]))
        status, printed, _ = self.command("--at", at)
        self.assertEqual((status, printed[0]), (0, f"window 5000 widened to {clock + 2 * 4_096 - at}; SetWindow 5000 puts it back"))

    def test_progress(self):
        """It is shown at a terminal alone."""
        class Terminal(io.StringIO):
            def isatty(self):
                return True

        at = self.story()
        shown, plain = Terminal(), io.StringIO()
        with self.connect() as it, mock.patch("s4d.restore.saying.PROGRESS_SECONDS", 0):
            for errors in (shown, plain):
                Restore(Asker(it), Wanted(at), Sayer(io.StringIO(), errors)).run()
        states = [it.strip() for it in shown.getvalue().split("\r") if it.strip()]
        self.assertEqual(states[0], "1 of 5 objects, 0 not restored, 0 spans of moments hidden")
        self.assertEqual((states[-1][:6], plain.getvalue()), ("5 of 5", ""))

    def test_what_is_said_where_room_is_short(self):
        at = self.story()
        for words, more in (((), "--flush hides moments of what is deleted, "), (("--flush",), "no more may be hidden: what objects held at the moment ")):
            with mock.patch.object(PlainDrive, "_create", side_effect=Refusal(9)), mock.patch("s4d.restore.room.WAITS", ()):
                status, printed, said = self.command("--at", at, *words)
            self.assertEqual((status, printed[-1]), (1, "         2  not restored (no room for its blocks)"))
            self.assertRegex(said.splitlines()[-1], f"^s4d.restore: {more}")
        self.assertEqual(self.command("--at", at)[0], 0)

    def test_what_was_made_anew_in_part_goes(self):
        at = self.story()
        write, lacks = PlainDrive._changed, [True]

        def changed(drive, kind, number, *more):
            if kind == 4 and number == 6 and lacks:
                raise Refusal(9)
            return write(drive, kind, number, *more)

        with mock.patch.object(PlainDrive, "_changed", changed), mock.patch("s4d.restore.room.WAITS", ()):
            status, printed, _ = self.command("--at", at)
        self.assertEqual((status, printed[-1]), (1, "         2  not restored (no room for its blocks)"))
        with self.connect() as it, self.assertRaises(s4d.NoObject):
            it.attributes(6)
        self.assertEqual(self.command("--at", at)[:2], (0, ["         2  made anew as 7"]))

    def test_who_is_not_there(self):
        address = f"{self.address}-other"
        status, _, said = self.command("--connect", address, "--at", 1)
        self.assertEqual((status, said), (1, f"s4d.restore: {address}: No such file or directory\n"))

    def test_runs_near_their_end(self):
        at = self.story()
        with self.connect() as it:
            for moment in (1, 3):
                it.flush_object(2, moment, moment)
        why = "s4d.restore: 2 runs of moments are hidden, and there can be 65,536; where none is left nothing more can be hidden\n"
        for near, said in ((2, why), (3, "")):
            with mock.patch("s4d.restore.room.NEAR_RUNS", near):
                self.assertEqual(self.command("--at", at, "--dry-run")[2].partition("s4d.restore: 2 would")[0], said)
        self.server.drive.floor = 3  # one of them has aged
        with mock.patch("s4d.restore.room.NEAR_RUNS", 2):
            self.assertEqual(self.command("--at", at, "--dry-run")[2].partition("s4d.restore: 2 would")[0], "")


@needs_program
@needs_s4
@needs_s4serve
class Histories(Served):
    """Random histories of a service: a restore leaves what `s4 restore` makes of a copy of the image."""

    @staticmethod
    def thrown(draw, numbers):
        """A random request for a change."""
        number = draw.choice(numbers or [1])
        data = draw.choice((draw.randbytes(draw.randrange(700)), bytes(draw.randrange(600)), draw.randbytes(draw.randrange(5_000))))
        kind = draw.randrange(10)
        if kind == 0 or not numbers:
            return wire.create(draw.choice((b"", b"note", b"other")))
        if kind == 1:
            return wire.delete(number)
        if kind == 2:
            return wire.truncate(number, draw.randrange(6_000))
        if kind == 3:
            return wire.set_attribute(number, draw.choice((b"", b"note", b"name")))
        return wire.append(number, data) if kind == 4 else wire.write(number, draw.randrange(5_000), data)

    def throw(self, drive, draw, numbers, count):
        """So many random changes, of which some are refused. `numbers` has the objects that were made."""
        while count > 0:
            with drive.pipeline() as batch:
                replies = [batch.add(self.thrown(draw, numbers)) for _ in range(8)]
            made = [reply.result() for reply in replies if reply.refusal() is None]
            numbers += [it.object for it in made if isinstance(it, s4d.Created)]
            count -= len(replies)

    def test_histories(self):
        compared = 0
        for seed in range(HISTORIES):
            with self.subTest(seed=seed):
                compared += bool(self.one(random.Random(seed)))
        self.assertGreater(2 * compared, HISTORIES)

    def one(self, draw):
        """Throws a history and restores a moment of it: whether both ways did."""
        self.begin_anew()
        self.start(draw.choice((24, 64)))
        numbers, drive, admin = [], self.session(), self.session("admin")
        with drive, admin:
            self.throw(drive, draw, numbers, draw.randrange(1, 60))
            at = machine_time()
            self.throw(drive, draw, numbers, draw.randrange(80))
            image = s4d.Image(self.copy(), PROGRAM, S4)
            status = self.status_of(lambda: image.restore(at, to_nothing=True, flush=True))
            done, printed, _ = restored(admin, at, to_nothing=True, flush=True)
            if status == 0:
                self.assertEqual(done.failed, 0, printed)
            if done.failed:
                return False
            with self.subTest("again"):
                again, lines, _ = restored(admin, at, to_nothing=True, flush=True)
                self.assertEqual((again.changes, [it for it in lines if "is there as" not in it]), (0, []))
            if status == 0:
                self.compare(admin, image, numbers)
            return status == 0

    @staticmethod
    def status_of(work):
        try:
            work()
        except s4d.ProgramFailed as failure:
            return failure.ended.status
        return 0

    def compare(self, drive, image, numbers):
        """What a session and an image have: the same under each number that was given, and the same objects that were made anew."""
        every = range(1, max(numbers, default=0) + 60)
        with image.session("admin", upkeep=False) as other:
            here, there = present_of(drive, every), present_of(other, every)
        known = [number for number in every if number in numbers and (number in here) == (number in there)]
        self.assertEqual([here.get(it) for it in known], [there.get(it) for it in known])
        self.assertEqual(sorted(here.values()), sorted(there.values()))


@needs_program
@needs_s4
@needs_s4serve
class Floods(Served):
    """Drives that clients have filled."""

    def owned(self, frames, *more):
        """A service, with an owner's objects: a client's session, and what there is at which moment."""
        self.begin_anew()
        self.start(frames, "30d", *more)
        drive = self.session()
        self.addCleanup(drive.close)
        for count in range(6):
            drive.append(drive.create(b"owned %d" % count).object, bytes([65 + count]) * (900 * count))
        return drive, present_of(drive, range(1, 7)), machine_time()

    def filled(self, drive, request):
        """Asks for changes, as many at once as may be, until none is accepted: the refusals."""
        while True:
            with drive.pipeline() as batch:
                replies = [batch.add(request(count)) for count in range(32)]
            if all(reply.refusal() for reply in replies):
                return {type(reply.refusal()) for reply in replies}

    def check(self, before, at, **more):
        """Restores what was there: what was done, and the lines."""
        with self.session("admin") as admin:
            done, printed, _ = restored(admin, at, **more)
            if not done.failed:
                self.assertEqual(present_of(admin, range(1, 200)), before, printed)
            return done, printed

    def test_empty_objects(self):
        for frames in (24, 64):
            with self.subTest(frames=frames):
                drive, before, at = self.owned(frames)
                self.assertEqual(self.filled(drive, lambda _: wire.create(b"")), {s4d.NoSpace})
                done, _ = self.check(before, at)
                self.assertGreater(done.failed, 0)  # what was there can still be read, and takes all room
                done, printed = self.check(before, at, flush=True)
                hidden = [line for line in printed if "hidden" in line]
                self.assertEqual((done.failed, done.hidden), (0, len(hidden)))
                self.assertGreater(done.hidden, 0)
                self.assertLess(done.hidden, drive_count(printed))
                drive.read(2, at=at)

    def test_large_and_small_writes(self):
        for size in (20, 3_000, 30_000):
            with self.subTest(size=size):
                drive, before, at = self.owned(64)
                draw = random.Random(size)
                number = drive.create().object
                refusals = self.filled(drive, lambda count: wire.write((1, 2, 3, 4, number)[count % 5], draw.randrange(500), draw.randbytes(size)))
                self.assertEqual(refusals, {s4d.NoSpace})
                done, printed = self.check(before, at, flush=True)
                self.assertEqual((done.failed, done.deleted, done.changed), (0, 1, 4), printed)

    def test_more_than_an_administrator_has_room_for(self):
        """What was overwritten takes more than the reserve: versions since are hidden, and none from before."""
        self.begin_anew()
        self.start(64)
        with self.session() as drive:
            draw = random.Random(5)
            numbers = [drive.create().object for _ in range(8)]
            for number in numbers:
                drive.write(number, 0, draw.randbytes(12_000))
            before, at = present_of(drive, numbers), machine_time()
            for _ in range(3):
                with drive.pipeline() as batch:
                    replies = [batch.write(number, 0, draw.randbytes(12_000)) for number in numbers]
            self.assertIsInstance(replies[-1].refusal(), s4d.NoSpace)
        done, printed = self.check(before, at)
        self.assertEqual((done.hidden, done.is_short), (0, True))
        self.assertGreater(done.failed, 0)
        done, printed = self.check(before, at, flush=True)
        self.assertEqual(done.failed, 0, printed)
        self.assertGreater(done.hidden, 0)
        with self.session("admin") as admin:
            self.assertEqual({number: it for number, it in zip(numbers, Asker(admin).versions([(it, at) for it in numbers]))}, before)

    def test_a_small_drive_full_of_live_objects(self):
        """What was overwritten first is hidden and restored first, and so makes room for what was overwritten next."""
        self.begin_anew()
        self.start(64)
        draw, replies = random.Random(7), []
        with self.session() as drive:
            numbers = [reply.result().object for reply in self.asked(drive, [wire.create(b"owned")] * 60)]
            self.asked(drive, [wire.write(number, 0, draw.randbytes(2_000)) for number in numbers])
            before, at = present_of(drive, numbers), machine_time()
            while not all(reply.refusal() for reply in replies) or not replies:
                draw.shuffle(numbers)
                replies = self.asked(drive, [wire.write(number, 0, draw.randbytes(2_000)) for number in numbers])
        without, _ = self.check(before, at)
        self.assertGreater(without.failed, 30)  # an administrator has room for some fifteen of them
        done, printed = self.check(before, at, flush=True)
        restored = without.changed + done.changed
        self.assertEqual(restored + done.failed, 60, printed)
        self.assertGreater(done.changed, without.changed, printed)  # and all, where the cleaner doesn't come late, as on a busy machine
        with self.session("admin") as admin:
            now = present_of(admin, numbers)
        self.assertGreaterEqual(sum(now[it] == before[it] for it in numbers), restored)

    @staticmethod
    def asked(drive, requests):
        """The replies to requests that are sent together."""
        batch = drive.pipeline()
        for request in requests:
            batch.add(request)
        return batch.run()

    def test_a_full_journal(self):
        drive, before, at = self.owned(256)
        number = drive.create().object
        for it in (2, number):
            self.assertEqual(self.filled(drive, lambda count: wire.set_attribute(it, bytes([count]) * 64)), {s4d.ChainFull})
        last = drive.attributes(2).changed
        full = [f"{it:10}  not restored (its journal is full)" for it in (number, 2)]
        done, printed = self.check(before, at)
        self.assertEqual((done.failed, done.changes, printed), (2, 0, full))
        image = s4d.Image(self.copy(), PROGRAM, S4)
        wanted = [it for it in image.restore(at, flush=True) if isinstance(it, s4d.HiddenVersions)]
        done, printed = self.check(before, at, flush=True)
        self.assertEqual((done.failed, done.deleted, done.changed), (0, 1, 1))
        self.assertEqual(done.hidden, sum(len(self.versions_in(it)) for it in wanted), printed)
        with self.session("admin") as admin:
            for it in (2, number):
                spans = [(row.first, row.second) for row in admin.audit(at) if row.kind is AuditKind.FLUSH_OBJECT and row.object == it]
                self.assertEqual(max(span[1] for span in spans), (last if it == 2 else self.last_of(admin, number)) - 1)
                self.assertTrue(all(span[0] > at for span in spans))

    def versions_in(self, hidden):
        """The moments at which versions begin among hidden ones."""
        with self.session("admin") as admin:
            return [row.moment for row in admin.audit(hidden.first) if row.object == hidden.object and row.moment <= hidden.last]

    @staticmethod
    def last_of(admin, number):
        """When an object got its last attribute."""
        return [row.moment for row in admin.audit() if row.object == number and row.kind is AuditKind.SET_ATTRIBUTE][-1]


def drive_count(printed):
    """How many objects were deleted."""
    return sum("deleted" in line for line in printed)


@needs_s4serve
class Interrupted(Served):
    def test_each_step(self):
        """After as many groups of changes the session is lost; the next restore finds only what is left."""
        self.start(256)
        with self.session() as drive, self.session("admin") as admin:
            numbers = [drive.create(b"%d" % (count % 3)).object for count in range(24)]
            for number in numbers:
                drive.write(number, 0, b"%d" % (number % 5) * 2_000)
            before = sorted(present_of(admin, numbers).values())
            at = machine_time()
            for number in numbers:
                self.spoil(drive, number)
            asked = []
            for steps in range(40):
                try:
                    with mock.patch("s4d.restore.restoring.DELETED", 3), mock.patch("s4d.restore.restoring.GROUP", 2):
                        self.restore_some(admin, at, steps % 7, asked)
                except KeyboardInterrupt:
                    continue
                break
            self.assertEqual(sorted(present_of(admin, range(1, 200)).values()), before)
            self.assertEqual(restored(admin, at)[0].changes, 0)
            deleted = [row.object for row in admin.audit(at) if row.kind is AuditKind.DELETE]
            self.assertEqual(len(deleted), len(set(deleted)))
            self.assertLess(steps, 39)

    @staticmethod
    def spoil(drive, number):
        if number % 3 == 0:
            drive.delete(number)
        else:
            drive.append(number, b"more")
            drive.write(drive.create(b"new").object, 0, b"new")

    @staticmethod
    def restore_some(admin, at, steps, asked):
        """A restore that is interrupted after so many groups of changes."""
        asker, left = Asker(admin), [steps]
        change = asker.change

        def counted(changes):
            if changes and not left[0]:
                raise KeyboardInterrupt
            left[0] -= bool(changes)
            asked.extend(changes)
            return change(changes)

        asker.change = counted
        Restore(asker, Wanted(at), Sayer(io.StringIO(), io.StringIO())).run()


@needs_program
@needs_s4
class Migrated(unittest.TestCase):
    """An image that an earlier version made, without an audit, and that was migrated."""

    def setUp(self):
        folder = tempfile.TemporaryDirectory()
        self.addCleanup(folder.cleanup)
        earlier, path = (os.path.join(folder.name, name) for name in ("earlier", "image"))
        with open(earlier, "wb") as file:
            file.write(lzma.decompress((TOP / "tests" / "images" / "v2" / "attributes.xz").read_bytes()))
        subprocess.run([PROGRAM, "migrate", earlier, path], check=True, capture_output=True, timeout=PATIENCE)
        self.image = s4d.Image(path, PROGRAM, S4)

    def test_a_moment_before_the_audit_begins(self):
        facts, at = self.image.info(), 40
        with self.image.session("admin", upkeep=False) as drive:
            with self.assertRaisesRegex(Fault, "^the audit has nothing up to 40, so whether it reaches back can't be known; give --image IMAGE$"):
                restored(drive, at)
            made = drive.create(b"made")
            for known in (facts, None):
                with self.assertRaisesRegex(Fault, r"^the audit doesn't reach back to 40: object \d+ was changed since, "):
                    restored(drive, at, facts=known)
            drive.write(1, 0, b"evil")
            with self.assertRaisesRegex(Fault, r"^the audit doesn't reach back to 40: "):
                restored(drive, at)
            self.assertEqual(len(list(drive.audit())), 2)
            self.assertEqual(restored(drive, made.moment)[0].changed, 1)  # all rows since are there


@needs_s4serve
class Windows(Served):
    def test_a_moment_near_the_floor(self):
        """A drive that keeps five minutes: the window is widened before anything else, by what the audit or the floor says of it."""
        self.start(24, "5m")
        with self.session() as drive, self.session("admin") as admin:
            number = drive.create(b"note").object
            drive.write(number, 0, b"mill")
            at = machine_time()
            drive.write(number, 0, b"evil")
            done, printed, _ = restored(admin, at)
            self.assertEqual((done.widened.before, done.changed), (300_000_000, 1))
            self.assertRegex(printed[0], r"^window 300000000 widened to 1\d{9}; SetWindow 300000000 puts it back$")
            rows = [row.kind for row in admin.audit(at)]
            self.assertEqual(rows, [AuditKind.WRITE, AuditKind.SET_WINDOW, AuditKind.WRITE])
            self.assertEqual((drive.read(number), restored(admin, at)[0].widened), (b"mill", None))


@needs_s4serve
class Programs(Served):
    """The program, by a bridge, beside clients that go on."""

    def test_beside_a_client(self):
        self.start(256)
        self.start_bridge()
        address = f"unix:{self.folder}/client.sock"
        ended, faults = threading.Event(), []
        with s4d.Drive.connect(address, PATIENCE) as it:
            owned = [it.create(b"%d" % count).object for count in range(12)]
            for number in owned:
                it.write(number, 0, b"mine")
            busy = it.create(b"busy").object
            at = machine_time()
            for number in owned:
                it.write(number, 1, b"evil")

        def work():
            with s4d.Drive.connect(address, PATIENCE) as client:
                while not ended.is_set():
                    try:
                        client.write(busy, 0, b"work")
                    except s4d.Refused as refusal:
                        faults.append(refusal)

        worker = threading.Thread(target=work, daemon=True)
        worker.start()
        try:
            self.assertEqual(self.run_restore("--at", at, "--object", owned[0])[0], 0)
            status, printed, said = self.run_restore("--at", at, *[word for it in owned[:-1] for word in ("--object", it)])
        finally:
            ended.set()
            worker.join(PATIENCE)
        self.assertEqual((status, printed[:-1]), (0, [f"{it:10}  changed" for it in owned[1:-1]]), said)
        self.assertRegex(printed[-1], rf"^ +{busy}  changed by others meanwhile, last at 20\d\d-")
        self.assertEqual(faults, [])
        with s4d.Drive.connect(address, PATIENCE) as it:
            self.assertEqual([it.read(number) for number in owned[:-1]], [b"mine"] * 11)
            self.assertEqual((it.read(owned[-1]), it.read(busy)), (b"mevil", b"work"))

    def run_restore(self, *words, role="admin"):
        ran = subprocess.run(restore_words(f"unix:{self.folder}/{role}.sock", *words), cwd=PACKAGE, capture_output=True, text=True, timeout=PATIENCE)
        return ran.returncode, ran.stdout.splitlines(), ran.stderr

    def test_killed(self):
        """A restore that is killed in the midst is gone on with by the next."""
        self.start(256)
        self.start_bridge()
        with self.session() as it:
            owned = [it.create(b"mine").object for _ in range(10)]
            for number in owned:
                it.write(number, 0, b"mine")
            at = machine_time()
            with it.pipeline() as batch:
                made = [batch.create(b"flood") for _ in range(600)]
            for number in owned:
                it.delete(number)
        made = [reply.result().object for reply in made]
        with self.session("admin") as admin:
            words = restore_words(f"unix:{self.folder}/admin.sock", "--at", at)
            with subprocess.Popen(words, cwd=PACKAGE, stdout=subprocess.DEVNULL, stderr=subprocess.DEVNULL) as child:
                wait_until(lambda: child.poll() is not None or made[0] not in present_of(admin, made[:1]), "an object is deleted")
                child.kill()
            status, printed, _ = self.run_restore("--at", at)
            self.assertEqual(status, 0)
            there = [line.replace("made anew", "is there") for line in printed if " as " in line]
            self.assertEqual((len(there), self.run_restore("--at", at)[1]), (10, there))
            self.assertEqual(sorted(present_of(admin, range(1, 700)).values()), [plans.Content(b"mine", b"mine")] * 10)

    def test_roles_and_ages(self):
        self.start(24)
        self.start_bridge()
        status, printed, said = self.run_restore("--at", "1h", role="client")
        why = "s4d.restore: the session has a client's role; connect to the administrators' socket"
        self.assertEqual((status, printed, said.splitlines()[-1]), (1, [], why))
        with self.session() as it:
            it.create(b"note")
        status, printed, said = self.run_restore("--at", "0s")
        self.assertEqual((status, printed), (0, []), said)
        self.assertRegex(said.splitlines()[0], r"^s4d.restore: --at is 20\d\d-\d\d-\d\dT\d\d:\d\d:\d\d\.\d{6}Z")
        status, printed, said = self.run_restore("--at", "10m")
        self.assertEqual((status, said.splitlines()[-1]), (1, "s4d.restore: no object would be left; --to-nothing deletes them all"))


if __name__ == "__main__":
    unittest.main()
