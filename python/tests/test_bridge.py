"""The bridge from sockets to a service's doors, before a stand-in for the service."""
import asyncio
import contextlib
import fcntl
import io
import itertools
import json
import os
import random
import signal
import socket
import ssl
import subprocess
import sys
import termios
import threading
import time
import unittest
from unittest import mock

import s4d
from s4d import Attributes, Created, bridge, wire
from s4d.access_log import AccessLog
from s4d.handshakes import HANDSHAKES
from s4d.metrics import of_drive, text_of
from s4d.status import MOST_ASKING, DriveNumbers

from .bridged import PACKAGE, PATIENCE, Bridged, Certificates, free_port, got, needs_openssl, value_of, wait_until, words_of
from .standin import Service, frame

BAD_FRAME = frame(b"\0\x0f")
AWAY = frame(wire.TURNED_AWAY)
SHORT = 4  # seconds that one waits in vain: the service has to open a session within them, on a busy machine too


def received(link, count):
    """This number of bytes, or fewer where the stream ends."""
    found = b""
    while len(found) < count:
        more = link.recv(count - len(found))
        if not more:
            break
        found += more
    return found


def rest_of(link):
    """All bytes up to the end, which a side that was cut off finds, too."""
    found = b""
    with contextlib.suppress(ConnectionError):
        while more := link.recv(65_536):
            found += more
    return found


class Sessions(Bridged):
    def test_each_request(self):
        self.start()
        modes = [os.stat(self.folder / f"{role}.sock").st_mode & 0o777 for role in ("client", "admin")]
        self.assertEqual(modes, [0o660, 0o600])
        with self.connect() as it:
            self.assertEqual((it.create(b"note"), it.write(1, 2, b"abc"), it.append(1, b"de")), (Created(1, 1), 2, 3))
            self.assertEqual((it.read(1), it.at(2).read(1), it.truncate(1, 4)), (b"\0\0abcde", b"\0\0abc", 4))
            self.assertEqual((it.set_attribute(1, b"x"), it.attributes(1)), (5, Attributes(4, 1, 5, b"x")))
            for kind, ask in ((s4d.NotAdmin, lambda: it.flush(1, 2)), (s4d.NoObject, lambda: it.delete(7)),
                              (s4d.Future, lambda: it.read(1, at=1_000)), (s4d.TooLarge, lambda: it.read(1, 0, 24_577))):
                with self.subTest(kind.__name__), self.assertRaises(kind):
                    ask()
        with self.connect("admin") as it:
            self.assertEqual((it.flush(2, 2), it.flush_object(1, 3, 3), it.set_window(1_000)), (6, 7, 8))
            self.assertEqual([row.moment for row in it.audit(5)], [5, 6, 7, 8])
            with self.assertRaises(s4d.Flushed):
                it.at(2).read(1)
        self.wait_for_line(2, event="session", end="client ended")
        self.assertEqual((self.pipes("client"), self.pipes("admin")), ([], []))

    def test_more_than_all_buffers_hold(self):
        self.start()
        with self.connect() as it:
            it.create()
            it.truncate(1, 24_576)
            with it.pipeline() as batch:
                replies = [batch.read(1) for _ in range(40)] + [batch.append(9, b"x" * 30_000) for _ in range(40)]
                replies += [batch.attributes(1) for _ in range(2_000)]
            self.assertEqual(sum(len(reply.result()) for reply in replies[:40]), 40 * 24_576)
            self.assertTrue(all(reply.refusal() for reply in replies[40:80]))
            self.assertTrue(all(reply.result().size == 24_576 for reply in replies[80:]))

    def test_a_client_that_ends_its_requests_first(self):
        self.start()
        link = self.raw()
        link.sendall(wire.create(b"").frame() * 500)
        link.shutdown(socket.SHUT_WR)
        self.assertEqual(len(rest_of(link)), 500 * 21)
        self.assertEqual(self.wait_for_line(event="session")["end"], "client ended")

    def test_what_a_killed_bridge_left_is_removed(self):
        self.start()
        link = self.raw()
        link.sendall(wire.create(b"").frame())
        received(link, 21)
        self.process.kill()
        self.process.wait()
        self.assertEqual((len(self.pipes()), rest_of(link)), (2, b""))
        self.start()
        self.assertEqual(self.pipes(), [])
        with self.connect() as it:
            self.assertEqual(it.create(), Created(2, 2))


class Clients(Bridged):
    """Clients that end, or send what they shouldn't, and others that aren't disturbed."""

    def test_clients_that_die_inside_frames(self):
        self.start()
        whole = wire.append(1, b"x" * 1_000).frame()
        with self.connect() as it:
            it.create()
            for number, count in enumerate((1, 3, 4, 5, 500, len(whole) - 1), 1):
                link = self.raw()
                link.sendall(whole + whole[:count])
                self.assertEqual(len(received(link, 13)), 13)
                link.close()
                self.assertEqual(it.attributes(1).size, number * 1_000)
        self.wait_for_line(7, event="session")
        self.assertEqual((len(self.lines(end="cut frame")), self.service.cut), (6, []))
        self.assertEqual(self.pipes(), [])

    def test_frames_that_are_too_long(self):
        self.start()
        link = self.raw()
        link.sendall(wire.create(b"").frame() + (32_769).to_bytes(4, "big") + b"x" * 100)
        self.assertEqual(rest_of(link)[21:], BAD_FRAME)
        line = self.wait_for_line(event="session")
        self.assertEqual((line["end"], line["requests"]), ("long frame", 2))
        self.assertEqual((self.service.cut, self.lines(refusal="BadFrame")[0]["request"]), ([], "bad frame"))

    def test_bad_frames_that_are_not_too_long(self):
        """The service judges them, and the session goes on."""
        self.start()
        link = self.raw()
        link.sendall(frame(b"") + frame(b"\xff") + frame(b"\x03") + frame(b"x" * 32_768) + wire.create(b"").frame())
        self.assertEqual(received(link, 24 + 21)[:24], BAD_FRAME * 4)
        kinds = [line["request"] for line in self.lines(event="request")]
        self.assertEqual(kinds, ["bad frame", "create"])
        self.assertEqual(self.wait_for_line(event="refused")["more"], {"BadFrame": 3})

    def test_a_client_that_does_not_read(self):
        self.start()
        with self.connect() as it:
            it.create()
            it.truncate(1, 24_576)
            link = self.raw()
            link.sendall(wire.read(1, 0, 24_576, None).frame() * 100)
            wait_until(lambda: len(self.lines(request="read")) > 5, "replies that nobody reads")
            self.assertEqual(it.attributes(1).size, 24_576)
            link.close()
        self.wait_for_line(event="session", end="client gone")
        self.assertTrue(self.lines(lost=True))
        self.assertLessEqual(len(self.lines(request="read")), 100)

    def test_idle_sessions_make_room_for_who_waits(self):
        self.start("--sessions", "client=2", "--share", "sessions=2", "--idle", "0.3")
        first, second = self.connect(), self.connect()
        with first, second:
            first.create()
            second.create()
            time.sleep(1)  # idle, but nobody waits
            first.append(1, b"")
            with self.connect() as third:
                self.assertEqual(third.create().object, 3)
            self.wait_for_line(event="session", end="idle")
            self.assertEqual(len(self.lines(event="session", end="idle")), 1)
            with self.assertRaises(s4d.ReplyLost):
                first.append(1, b"")
                second.append(1, b"")

    def test_who_waits_for_the_service_is_not_idle(self):
        self.start("--sessions", "client=1", "--idle", "0.1", "--wait", SHORT)
        link = self.raw()
        self.service.may_answer.clear()
        link.sendall(wire.create(b"").frame())
        wait_until(lambda: self.service.asked, "a request")
        self.assertEqual(rest_of(self.raw()), AWAY)
        self.wait_for_line(event="turned away", why="waited too long")
        self.service.may_answer.set()
        self.assertEqual(len(received(link, 21)), 21)
        self.assertEqual(self.lines(end="idle"), [])


class Limits(Bridged):
    def test_a_queue_has_a_limit(self):
        self.start("--sessions", "client=1", "--queue", "2")
        with self.connect() as it:
            it.create()
            waiting = [self.raw(), self.raw()]
            for link in waiting:
                link.sendall(wire.append(1, b"").frame())
            self.assertEqual(rest_of(self.raw()), AWAY)
            self.wait_for_turned_away(1, "queue full", role="client")
            with self.connect("admin") as admin:  # which has seats of its own
                self.assertEqual(admin.create().object, 2)
        for link in waiting:
            self.assertEqual(len(received(link, 13)), 13)
            link.close()
        self.assertEqual(self.service.most_open["client"], 1)

    def test_a_queue_has_a_time(self):
        self.start("--sessions", "client=1", "--wait", SHORT)
        with self.connect() as it:
            it.create()
            self.assertEqual(rest_of(self.raw()), AWAY)
            self.wait_for_turned_away(1, "waited too long", role="client")
            self.assertEqual(it.append(1, b"x"), 2)

    def test_who_is_turned_away_knows_that_nothing_was_asked(self):
        self.start("--sessions", "client=1", "--queue", "0")
        with self.connect() as it:
            it.create()
            with self.connect() as late, self.connect() as later, self.connect() as last:
                self.wait_for_turned_away(3, "queue full", role="client")
                for wait in (0, 1.5):  # before the bridge closes the connection, and after that
                    time.sleep(wait)
                    with self.assertRaisesRegex(s4d.NotAsked, "nothing was passed on"):
                        late.append(1, b"x")
                batch = last.pipeline()
                replies = [batch.append(1, b"x") for _ in range(3)]
                with self.assertRaises(s4d.NotAsked):
                    batch.run()
                for reply in replies:
                    with self.assertRaisesRegex(s4d.Disconnected, "was not sent"):
                        reply.result()
                with self.assertRaises(s4d.NotAsked):
                    later.append(1, b"x" * 30_000)
            asyncio.run(self.check_tasks())
            self.assertEqual(it.read(1), b"")

    async def check_tasks(self):
        for wait in (0, 0.5):
            async with await s4d.AsyncDrive.connect(f"unix:{self.folder}/client.sock", PATIENCE) as it:
                await asyncio.sleep(wait)
                for _ in range(2):
                    found = await asyncio.gather(it.append(1, b"x"), it.read(1), return_exceptions=True)
                    self.assertEqual([type(error) for error in found], [s4d.NotAsked] * 2)

    def test_first_come_first_served(self):
        self.start("--sessions", "client=1")
        first, second, third = (self.raw() for _ in range(3))
        for link in (third, second, first):
            link.sendall(wire.create(b"").frame())
        objects = []
        for link in (first, second, third):
            objects.append(received(link, 21)[12])
            link.close()
        self.assertEqual(objects, [1, 2, 3])

    def test_who_leaves_the_queue_makes_room_there(self):
        self.start("--sessions", "client=1", "--queue", "1")
        with self.connect() as it:
            it.create()
            self.raw().close()
            self.wait_for_turned_away(1, "client gone", role="client")
            link = self.raw()
            link.sendall(wire.append(1, b"").frame())
        self.assertEqual(len(received(link, 13)), 13)

    def test_no_service(self):
        self.service = Service(self.folder / "doors", ["client"])
        (self.folder / "doors" / "admin").mkdir()
        self.start_without_service()
        for number in (1, 2):
            if number == 2:
                os.mkfifo(self.folder / "doors" / "admin" / "door")
            with self.assertRaises(s4d.NotAsked), self.connect("admin") as it:
                it.create()
            self.wait_for_turned_away(number, "no service", role="admin")
            time.sleep(1.1)  # so that the next one has a line of its own
            line = self.lines(event="turned away", why="no service")[-1]
            self.assertIn(("No such file", "No such device")[number - 1], line["fault"])
        self.assertEqual(self.pipes("admin"), [])

    def test_a_door_that_is_a_file_or_a_link_is_none(self):
        self.start()
        door = self.folder / "doors" / "client" / "door"
        door.rename(f"{door}.away")
        for number, make in enumerate((lambda: door.write_text("", encoding="ascii"), lambda: door.symlink_to(f"{door}.away")), 1):
            make()
            with self.assertRaises(s4d.NotAsked), self.connect() as it:
                it.create()
            self.wait_for_turned_away(number, "no service")
            self.assertTrue(door.is_symlink() or door.read_bytes() == b"")
            door.unlink()

    def test_a_service_that_does_not_open_a_session(self):
        self.start("--wait", SHORT)
        self.service.opens = False
        with self.assertRaises(s4d.ReplyLost), self.connect() as it:
            it.create()
        self.wait_for_line(event="session", end="not opened", requests=1)
        link = self.raw()
        link.sendall(wire.create(b"").frame())
        link.shutdown(socket.SHUT_WR)
        self.assertEqual(rest_of(link), b"")
        self.assertTrue(self.wait_for_line(2, event="request")["lost"])

    def test_a_slow_service_is_waited_for(self):
        self.start("--wait", SHORT)
        self.service.may_answer.clear()
        threading.Timer(SHORT + 1, self.service.may_answer.set).start()
        with self.connect() as it:
            self.assertEqual(it.create().object, 1)


class Killed(Bridged):
    def test_a_service_that_dies(self):
        words = [*words_of(self.folder)[:2], "-m", "tests.standin", f"{self.folder}/doors"]
        service = subprocess.Popen(words, cwd=PACKAGE)
        self.addCleanup(service.wait)
        self.addCleanup(service.kill)
        wait_until((self.folder / "doors" / "admin" / "door").exists, "the service is there")
        self.service, port = mock.Mock(), free_port()
        self.start("--local", port)
        wait_until(lambda: got(port, "/health") == (200, "ok\n"), "the service is healthy")
        with self.connect() as it:
            it.create()
            service.send_signal(signal.SIGSTOP)
            link = self.raw()
            link.sendall(wire.create(b"").frame())
            wait_until(lambda: any(self.unread(name) for name in self.pipes()), "a request is passed on")
            service.kill()
            with self.assertRaisesRegex(s4d.ReplyLost, "append of object 1: "):
                it.append(1, b"x")
            self.assertEqual(rest_of(link), b"")
        self.wait_for_line(event="session", end="service ended")
        self.wait_for_line(event="session", end="not opened")  # the other's line was lost with the service
        self.assertEqual(got(port, "/health"), (503, "client: no service\nadmin: no service\n"))
        self.assertEqual(self.pipes(), [])

    def unread(self, name):
        """How many bytes of requests nobody has read in the pipe of a session."""
        if not name.endswith(".in"):
            return 0
        pipe = os.open(self.folder / "doors" / "client" / name, os.O_RDONLY | os.O_NONBLOCK)
        try:
            return int.from_bytes(fcntl.ioctl(pipe, termios.FIONREAD, bytes(4)), sys.byteorder)
        finally:
            os.close(pipe)

    def test_bridges_that_are_killed(self):
        """What was acknowledged is there, and in the log, whenever the bridge is killed."""
        acknowledged, dice = [], random.Random(7)

        def change():
            with contextlib.suppress(s4d.Disconnected, OSError), self.connect() as it:
                made = it.create()
                acknowledged.append((made.moment, made.object))
                for _ in range(10_000):
                    acknowledged.append((it.append(made.object, b"x"), made.object))

        for _ in range(3):
            self.start()
            threads = [threading.Thread(target=change) for _ in range(4)]
            for thread in threads:
                thread.start()
            enough = len(acknowledged) + dice.randrange(10, 60)
            wait_until(lambda: len(acknowledged) > enough, "changes")
            self.process.kill()
            for thread in threads:
                thread.join()
            self.process.wait()
        with self.service.lock:
            rows = [(row[0], row[2]) for row in self.service.drive.rows]
        logged = [(line["moment"], line["object"]) for line in self.lines(event="request", role="client")]
        self.assertEqual(sorted(set(acknowledged) - set(rows)), [])
        self.assertEqual(sorted(set(acknowledged) - set(logged)), [])
        self.assertLessEqual(len(rows) - len(acknowledged), 12)  # each session's last request at most


class Crowds(Bridged):
    """200 clients that come and go; some of them die inside frames."""

    def client(self, number, address, tls, kept):
        """A session of some changes. What was acknowledged is noted."""
        dice = random.Random(number)
        with s4d.Drive.connect(address, PATIENCE, tls=tls) as it:
            made = it.create(b"%d" % number).object
            text = b""
            for _ in range(dice.randrange(1, 5)):
                piece = bytes([65 + number % 26]) * dice.randrange(1, 200)
                it.append(made, piece)
                text += piece
                self.assertEqual(it.read(made), text)
            kept[made] = text
            if number % 3 == 0:
                data = wire.append(made, b"never").frame()
                it._connection._writer.write(data[:dice.randrange(1, len(data))])
                it._connection._writer.flush()

    def check_crowd(self, addresses, tls=None):
        kept, failures, numbers = {}, [], iter(range(200))
        lock = threading.Lock()

        def come_and_go():
            while True:
                with lock:
                    number = next(numbers, None)
                if number is None:
                    return
                try:
                    self.client(number, addresses[number % len(addresses)], tls, kept)
                except Exception as error:  # pylint: disable=broad-except
                    failures.append(error)

        threads = [threading.Thread(target=come_and_go) for _ in range(24)]
        for thread in threads:
            thread.start()
        for thread in threads:
            thread.join()
        self.assertEqual(failures, [])
        self.assertEqual(len(kept), 200)
        with self.connect("admin") as it:
            self.assertEqual({number: it.read(number) for number in kept}, kept)
        wait_until(lambda: len(self.lines(event="session", role="client")) == 200, "all sessions ended")
        self.assertEqual(len(self.lines(event="session", end="cut frame")), 67)
        self.assertEqual((self.service.cut, self.pipes()), ([], []))
        self.assertLessEqual(self.service.most_open["client"], 16)

    @needs_openssl
    def test_over_unix_sockets_and_tls(self):
        port, certificates = free_port(), Certificates(self.folder)
        certificates.make("bridge")
        tls = certificates.make("alice")
        (self.folder / "roles").write_text("client alice\n", encoding="utf-8")
        self.start(*tls_words(self.folder, port))
        self.check_crowd([f"unix:{self.folder}/client.sock", f"tls:127.0.0.1:{port}"], tls)


def tls_words(folder, port):
    return ["--tls", f"127.0.0.1:{port}", "--cert", f"{folder}/bridge.pem", "--key", f"{folder}/bridge.key", "--client-ca", f"{folder}/ca.pem",
            "--roles", f"{folder}/roles"]


@needs_openssl
class Certified(Bridged):
    def setUp(self):
        super().setUp()
        self.port, self.certificates = free_port(), Certificates(self.folder)
        self.certificates.make("bridge")
        self.roles("# who may come\n\nclient alice\nadmin  The Root Admin \n")

    def roles(self, text):
        (self.folder / "roles").write_text(text, encoding="utf-8")

    def begin(self, *more, **how):
        self.page = free_port()
        self.start(*tls_words(self.folder, self.port), "--local", self.page, *more, **how)

    def drive(self, tls):
        return s4d.Drive.connect(f"tls:127.0.0.1:{self.port}", PATIENCE, tls=tls)

    def test_roles(self):
        alice, root = self.certificates.make("alice"), self.certificates.make("The Root Admin", "root")
        self.begin(unix=False)
        with self.drive(alice) as it:
            it.create()
            with self.assertRaises(s4d.NotAdmin):
                it.set_window(5)
            with it.pipeline() as batch:
                replies = [batch.append(1, b"x" * 3_000) for _ in range(30)] + [batch.read(1) for _ in range(100)]
            self.assertEqual(replies[-1].result(), b"x" * 24_576)
        with self.drive(root) as it:
            self.assertEqual(it.set_window(5_000), 32)
        line = self.wait_for_line(event="session", role="admin")
        self.assertEqual((line["peer"]["name"], line["end"]), ("The Root Admin", "client ended"))

    def test_who_has_no_role(self):
        stranger = self.certificates.make("mallory")
        self.begin()
        with self.assertRaises(s4d.NotAsked), self.drive(stranger) as it:
            it.create()
        self.assertEqual(self.wait_for_line(event="turned away", why="no role")["peer"]["name"], "mallory")

    def test_who_has_no_certificate(self):
        (self.folder / "other").mkdir()
        other = Certificates(self.folder / "other", "others").make("alice")
        forged = s4d.Tls(self.certificates.authority, other.cert, other.key)
        self.begin()
        for number, tls in enumerate((s4d.Tls(self.certificates.authority), forged), 1):
            with self.assertRaisesRegex(s4d.NotAsked, "the certificate was refused"), self.drive(tls) as it:
                it.create()
            self.wait_for_turned_away(number, "no tls")
        with self.assertRaises(OSError):
            self.drive(s4d.Tls())  # it doesn't know the bridge's authority
        with self.assertRaises(s4d.Disconnected), s4d.Drive.connect(f"127.0.0.1:{self.port}", PATIENCE) as it:
            it.create()
        self.assertEqual(self.service.names, [])

    def test_roles_and_certificates_are_taken_anew(self):
        alice, bob = self.certificates.make("alice"), self.certificates.make("bob")
        self.begin()
        with self.drive(alice) as it:
            it.create()
            self.roles("client bob\nclient alice\n")
            self.certificates.make("bridge")
            self.process.send_signal(signal.SIGHUP)
            wait_until(lambda: self.is_served(bob), "bob has a role")
            self.assertEqual(it.read(1), b"")  # who keeps role and certificate stays
            self.roles("client bob\n")
            self.process.send_signal(signal.SIGHUP)
            wait_until(lambda: not self.is_served(alice), "alice has no role")
            self.roles("nobody bob\n")
            self.process.send_signal(signal.SIGHUP)
            wait_until(lambda: any("nobody: No such file" in line for line in self.said), "a line on the role without a door")
            self.assertTrue(self.is_served(bob))

    def test_who_loses_a_role_loses_the_session(self):
        """An administrator who becomes a client, while writing; all that was acknowledged is there, and others go on."""
        alice, root = self.certificates.make("alice"), self.certificates.make("The Root Admin", "root")
        self.begin()
        acknowledged = []
        with self.connect("admin") as owner, self.drive(alice) as client, self.drive(root) as demoted:
            moments = [client.create().moment, owner.append(1, b"x")]

            def write():
                with contextlib.suppress(s4d.Disconnected):
                    while True:
                        acknowledged.append(demoted.append(1, b"x"))

            writing = threading.Thread(target=write)
            writing.start()
            wait_until(lambda: len(acknowledged) > 20, "changes")
            self.roles("client alice\nclient The Root Admin\n")
            self.process.send_signal(signal.SIGHUP)
            writing.join()
            self.wait_for_line(event="session", role="admin", end="role lost")
            with self.assertRaises(s4d.Disconnected):
                demoted.flush(1, 1)
            moments += [client.append(1, b"y"), owner.append(1, b"y")]
            self.assertEqual([row.moment for row in owner.audit()], sorted(moments + acknowledged))
            with self.drive(root) as it, self.assertRaises(s4d.NotAdmin):
                it.flush(1, 1)

    def test_who_loses_a_role_and_does_not_read(self):
        """Time is over for replies that nobody takes."""
        root = self.certificates.make("The Root Admin", "root")
        self.begin("--grace", "0.5")
        with self.connect() as it:
            it.create()
            it.truncate(1, 24_576)
            _, side, perform = self.greeted(root)
            perform(lambda: side.write(wire.read(1, 0, 24_576, None).frame() * 400))
            wait_until(lambda: len(self.lines(request="read")) > 5, "replies that nobody reads")
            self.roles("client The Root Admin\n")
            self.process.send_signal(signal.SIGHUP)
            self.wait_for_line(event="session", role="admin", end="role lost")
            self.assertEqual(it.read(1), bytes(24_576))

    def test_who_loses_a_role_while_waiting(self):
        root = self.certificates.make("The Root Admin", "root")
        self.begin("--sessions", "admin=1")
        with self.connect("admin") as owner:
            owner.create()
            with self.drive(root) as it:
                wait_until(lambda: self.is_waiting("admin"), "who waits")
                self.roles("client The Root Admin\n")
                self.process.send_signal(signal.SIGHUP)
                self.assertEqual(self.wait_for_line(event="turned away", why="role lost")["peer"]["name"], "The Root Admin")
                with self.assertRaises(s4d.NotAsked):
                    it.flush(1, 1)
            self.assertEqual(owner.append(1, b"x"), 2)

    def is_waiting(self, role):
        return value_of(got(self.page, "/metrics")[1], "s4_bridge_waiting", role=role) == 1

    def test_who_loses_a_certificate_loses_the_session(self):
        """Its authority goes; that of others stays, or one is added."""
        alice = self.certificates.make("alice")
        (self.folder / "other").mkdir()
        second = Certificates(self.folder / "other", "second")
        bob = second.make("bob")
        self.roles("client alice\nclient bob\n")
        first = self.certificates.authority.read_text(encoding="ascii")
        both = self.folder / "both.pem"
        both.write_text(first, encoding="ascii")
        self.begin("--client-ca", both)
        with self.drive(alice) as stays:
            stays.create()
            both.write_text(second.authority.read_text(encoding="ascii") + first, encoding="ascii")
            self.process.send_signal(signal.SIGHUP)
            tls = s4d.Tls(self.certificates.authority, bob.cert, bob.key)
            wait_until(lambda: self.is_served(tls), "another authority")
            stays.append(1, b"x")
            with self.drive(tls) as goes:
                goes.append(1, b"y")
                both.write_text(first, encoding="ascii")
                self.process.send_signal(signal.SIGHUP)
                self.assertEqual(self.wait_for_line(event="session", end="certificate lost")["peer"]["name"], "bob")
                with self.assertRaises(s4d.Disconnected):
                    goes.append(1, b"never")
            self.assertEqual(stays.read(1), b"xy")

    def test_an_authority_that_goes_inside_a_handshake(self):
        alice = self.certificates.make("alice")
        bob, path = self.certificates.make("bob"), self.folder / "authority.pem"
        path.write_bytes(self.certificates.authority.read_bytes())
        self.roles("client alice\nclient bob\n")
        self.begin("--client-ca", path)
        link, side, (incoming, outgoing), perform = self.ungreeted(alice)
        with self.assertRaises(ssl.SSLWantReadError):
            side.do_handshake()
        link.sendall(outgoing.read())
        incoming.write(link.recv(65_536))
        Certificates(self.folder, "other")
        path.write_bytes((self.folder / "other.pem").read_bytes())
        self.process.send_signal(signal.SIGHUP)
        wait_until(lambda: not self.is_served(bob), "another authority")
        perform(side.do_handshake)
        self.assertEqual(perform(lambda: side.read(100)), AWAY)
        self.wait_for_line(event="turned away", why="certificate lost")

    def is_served(self, tls):
        try:
            with self.drive(tls) as it:
                it.create()
                return True
        except s4d.NotAsked:
            return False

    def test_a_client_that_ends_its_requests_first(self):
        """Whether it says so by TLS, or just ends its side of the connection."""
        alice, requests = self.certificates.make("alice"), wire.create(b"").frame() * 500
        self.begin()
        for number, (version, says_so) in enumerate(itertools.product((ssl.TLSVersion.TLSv1_2, ssl.TLSVersion.TLSv1_3), (True, False)), 1):
            with self.subTest(version.name, says_so=says_so):
                self.assertEqual(len(self.replies(alice, version, requests, says_so)), 500 * 21)
                self.wait_for_line(number, event="session", end="client ended")

    def replies(self, tls, version, requests, says_so):
        """All that comes to a client that ends its side after its requests."""
        link, side, perform = self.greeted(tls, version)
        perform(lambda: side.write(requests))
        if says_so:
            with contextlib.suppress(ssl.SSLWantReadError):
                side.unwrap()
        perform(lambda: None)
        link.shutdown(socket.SHUT_WR)
        found = b""
        with contextlib.suppress(ssl.SSLZeroReturnError):
            while more := perform(lambda: side.read(65_536)):
                found += more
        return found

    def greeted(self, tls, version=ssl.TLSVersion.TLSv1_3):
        """A socket and its TLS after the handshake, and what performs a step of that."""
        link, side, _, perform = self.ungreeted(tls, version)
        perform(side.do_handshake)
        return link, side, perform

    def ungreeted(self, tls, version=ssl.TLSVersion.TLSv1_3):
        """The same before the handshake, with what was received and what is to be sent."""
        context, incoming, outgoing = tls.context(), ssl.MemoryBIO(), ssl.MemoryBIO()
        context.maximum_version = version
        side = context.wrap_bio(incoming, outgoing, server_hostname="127.0.0.1")
        link = socket.create_connection(("127.0.0.1", self.port), PATIENCE)
        self.addCleanup(link.close)

        def perform(step):
            while True:
                try:
                    return step()
                except ssl.SSLWantReadError:
                    pass
                finally:
                    if outgoing.pending:
                        link.sendall(outgoing.read())
                incoming.write(link.recv(65_536) or self.fail("the connection ended without an end of TLS"))

        return link, side, (incoming, outgoing), perform

    def test_an_end_in_order(self):
        """A client that sends ever more requests gets the replies to those that were passed on, and then an end of TLS."""
        alice = self.certificates.make("alice")
        self.begin()
        self.service.may_answer.clear()
        _, side, perform = self.greeted(alice)
        perform(lambda: side.write(wire.create(b"").frame() * 3))
        wait_until(lambda: self.service.asked, "a request")
        self.process.send_signal(signal.SIGTERM)
        wait_until(lambda: not (self.folder / "client.sock").exists(), "the bridge is stopping")
        perform(lambda: side.write(wire.create(b"").frame() * 100))
        self.service.may_answer.set()
        found = b""
        while more := perform(lambda: side.read(65_536)):
            found += more
        self.assertEqual(len(found), 3 * 21)
        perform(side.unwrap)
        self.assertEqual(self.process.wait(PATIENCE), 0)

    def test_connections_that_say_nothing(self):
        """They keep nobody out, however long their handshakes may take: where there are too many the oldest go."""
        root = self.certificates.make("The Root Admin", "root")
        self.begin()
        silent = []
        for count in (200, 300):
            while len(silent) < count:
                link = socket.create_connection(("127.0.0.1", self.port), PATIENCE)
                self.addCleanup(link.close)
                silent.append(link)
            for _ in range(5):
                with self.drive(root) as it:
                    it.create()
        self.assertEqual(rest_of(silent[0]), b"")
        self.wait_for_turned_away(300 - HANDSHAKES, "too many handshakes")
        silent[-1].setblocking(False)
        with self.assertRaises(BlockingIOError):
            silent[-1].recv(1)
        self.assertEqual(self.turned_away("no tls"), 0)

    def test_handshakes_that_do_not_go_on(self):
        """Those of one address keep nobody of another one out, and end in time."""
        alice = self.certificates.make("alice")
        self.begin()
        for _ in range(300):
            link = socket.create_connection(("127.0.0.1", self.port), PATIENCE, source_address=("127.0.0.2", 0))
            self.addCleanup(link.close)
            link.sendall(b"\x16\x03\x01")
        for _ in range(5):
            with self.drive(alice) as it:
                it.create()
        self.wait_for_turned_away(300 - HANDSHAKES, "too many handshakes")

    def test_a_handshake_has_a_time(self):
        self.begin("--handshake", "0.2")
        for said in (b"", b"\x16\x03\x01"):
            with socket.create_connection(("127.0.0.1", self.port), PATIENCE) as link:
                link.sendall(said)
                self.assertEqual(rest_of(link), b"")
        self.wait_for_turned_away(2, "no tls")
        line = self.lines(event="turned away")[0]
        self.assertEqual((line["why"], line["fault"]), ("no tls", "its handshake took too long"))

    def test_clients_whose_tls_breaks(self):
        """One that has a session, one that waits, and strangers in their handshakes; others aren't disturbed."""
        alice = self.certificates.make("alice")
        self.begin("--sessions", "client=1")
        first, side, perform = self.greeted(alice)
        perform(lambda: side.write(wire.create(b"").frame()))
        self.assertEqual(len(perform(lambda: side.read(21))), 21)
        second, _, _ = self.greeted(alice)
        wait_until(lambda: self.is_waiting("client"), "its handshake is done at the other side, too")
        waiting = self.drive(alice)
        second.sendall(b"no record of TLS")
        self.wait_for_line(event="turned away", why="client gone")  # else it could get the seat that the first one leaves
        first.sendall(b"no record of TLS")
        self.wait_for_line(event="session", end="client gone")
        for number, said in enumerate((b"no record of TLS", b"", b"\x16\x03\x01"), 1):
            with socket.create_connection(("127.0.0.1", self.port), PATIENCE) as link:
                link.sendall(said)
                link.shutdown(socket.SHUT_WR)
                rest_of(link)
            self.wait_for_turned_away(number, "no tls")
        with waiting as it:
            self.assertEqual(it.create().object, 2)
        self.assertEqual(self.said, [])


class Logs(Bridged):
    def test_what_a_line_has(self):
        self.start()
        with self.connect("admin") as it:
            it.create(b"note")
            it.write(1, 0, b"mill")
            it.read(1, at=1)
            it.flush(1, 1)
            with self.assertRaises(s4d.Flushed):
                it.read(1, at=1)
            it.set_window(7)
            list(it.audit())
        end = self.wait_for_line(event="session")
        lines = self.lines(event="request")
        said = [{key: line[key] for key in line if key not in ("time", "event", "session", "role", "peer", "seconds")} for line in lines]
        self.assertEqual(said, [
            {"request": "create", "object": 1, "moment": 1}, {"request": "write", "object": 1, "moment": 2},
            {"request": "read", "object": 1, "at": 1, "bytes": 0}, {"request": "flush", "first": 1, "last": 1, "moment": 3},
            {"request": "read", "object": 1, "at": 1, "refusal": "Flushed"}, {"request": "set_window", "window": 7, "moment": 4},
            {"request": "audit", "rows": 4}])
        for line in [*lines, end]:
            self.assertRegex(line["time"], r"^20\d\d-\d\d-\d\dT\d\d:\d\d:\d\d\.\d{6}Z$")
            self.assertEqual(line["peer"], {"pid": os.getpid(), "uid": os.getuid(), "gid": os.getgid()})
            self.assertEqual((line["role"], line["session"]), ("admin", self.service.names[0]))
            self.assertGreaterEqual(line["seconds"], 0)
        self.assertEqual((end["requests"], end["end"]), (7, "client ended"))

    def test_it_is_opened_anew(self):
        self.start()
        with self.connect() as it:
            it.create()
            (self.folder / "access.log").rename(self.folder / "old.log")
            it.append(1, b"")
            self.process.send_signal(signal.SIGHUP)
            wait_until((self.folder / "access.log").exists, "a new log")
            it.delete(1)
            self.wait_for_line(request="delete")
        self.assertEqual([line["request"] for line in self.lines("old.log")], ["create", "append"])
        self.wait_for_line(event="session")
        self.assertEqual(len(self.lines()), 2)

    def test_one_that_cannot_be_opened_anew(self):
        self.start()
        with self.connect() as it:
            it.create()
            (self.folder / "access.log").rename(self.folder / "old.log")
            (self.folder / "access.log").mkdir()
            self.process.send_signal(signal.SIGHUP)
            wait_until(lambda: any("stays as it was" in line for line in self.said), "a line on standard error")
            it.append(1, b"")
        asked = [line["request"] for line in self.lines("old.log") if "request" in line]  # the session may have its line, too
        self.assertEqual(asked, ["create", "append"])

    @unittest.skipUnless(os.path.exists("/dev/full"), "there is no /dev/full")
    def test_one_that_cannot_be_written(self):
        port = free_port()
        os.symlink("/dev/full", self.folder / "access.log")
        self.start("--local", port)
        with self.connect() as it:
            it.create()
            it.append(1, b"")
        wait_until(lambda: value_of(got(port, "/metrics")[1], "s4_bridge_log_lines_lost_total") == 3, "lines that are lost")
        self.assertEqual(self.said, ["s4d.bridge: access log: No space left on device: lines are lost"])


    def test_a_disk_that_takes_nothing(self):
        """Replies wait for it once, and then no more; the lines come when it goes on."""
        os.mkfifo(self.folder / "access.log")
        disk = os.open(self.folder / "access.log", os.O_RDWR)
        self.addCleanup(os.close, disk)
        self.start()
        with self.connect() as it:
            it.create()
            replies = 0
            while replies < 2_000:  # far more lines than a pipe holds
                with it.pipeline() as batch:
                    replies += len([batch.attributes(1) for _ in range(100)])
        text = b""
        while text.count(b"\n") < 2_002:
            text += os.read(disk, 65_536)
        lines = [json.loads(line) for line in text.splitlines()]
        self.assertEqual([line.get("request") for line in lines], ["create"] + ["attributes"] * 2_000 + [None])

    def test_lines_that_no_room_is_left_for(self):
        said = io.StringIO()
        path = self.folder / "access.log"
        os.mkfifo(path)
        disk = os.open(path, os.O_RDWR)
        self.addCleanup(os.close, disk)
        with contextlib.redirect_stderr(said):
            log = AccessLog(str(path), 100)
            for number in range(500):
                log.write(number=number, text="x" * 1_000)
            kept = 500 - log.lost
            self.assertLessEqual(100, kept)
            self.assertLess(kept, 250)
            text = b""
            while text.count(b"\n") < kept:
                text += os.read(disk, 65_536)
            log.write(number=500)
            log.close()
        numbers = [json.loads(line)["number"] for line in text.splitlines()]
        self.assertEqual(numbers[:100], list(range(100)))
        self.assertEqual(json.loads(os.read(disk, 1_000))["number"], 500)
        self.assertEqual(said.getvalue().splitlines(), ["s4d.bridge: access log: 100 lines wait for its disk: more are lost",
                                                         "s4d.bridge: access log: lines are taken again"])


class Pages(Bridged):
    INFO = ('{"clock":13,"deleted":1,"floor":3,"frames":24,"free":21,"hidden":{"objects":1,"runs":1},"live":2,"next":4,"retired":2,'
            '"room":165,"time":null,"window":100}')

    def s4(self, line, status=0):
        """A program in the place of `s4`, which notes its words."""
        path = self.folder / "s4"
        path.write_text(f"#!/bin/sh\necho \"$@\" >> {self.folder}/asked\necho '{line}'\nexit {status}\n", encoding="utf-8")
        path.chmod(0o700)
        return path

    def test_metrics(self):
        port = free_port()
        self.start("--local", port, "--image", "drive.image", "--s4", self.s4(self.INFO))
        with self.connect() as it:
            it.create()
            it.append(1, b"x")
            with self.assertRaises(s4d.NotAdmin):
                it.set_window(1)
            text = got(port, "/metrics")[1]
            self.assertEqual(value_of(text, "s4_bridge_sessions", role="client"), 1)
        self.wait_for_line(event="session")
        status, text = got(port, "/metrics")
        self.assertEqual(status, 200)
        for wanted, name, labels in (
                (0, "s4_bridge_sessions", {"role": "client"}), (0, "s4_bridge_waiting", {"role": "admin"}),
                (1, "s4_bridge_requests_total", {"role": "client", "request": "append"}),
                (1, "s4_bridge_refusals_total", {"role": "client", "refusal": "NotAdmin"}),
                (1, "s4_bridge_ended_total", {"role": "client", "end": "client ended"}),
                (3, "s4_bridge_reply_seconds_count", {"role": "client"}),
                (3, "s4_bridge_reply_seconds_bucket", {"role": "client", "le": "+Inf"}),
                (0, "s4_bridge_reply_seconds_count", {"role": "admin"}),
                (1, "s4_drive_readable", {}), (13, "s4_drive_clock", {}), (3, "s4_drive_floor", {}), (24, "s4_drive_frames", {}),
                (21, "s4_drive_free_frames", {}), (2, "s4_drive_retired_frames", {}),
                (165, "s4_drive_room_blocks", {}), (0, "s4_bridge_log_lines_lost_total", {})):
            with self.subTest(name, **labels):
                self.assertEqual(value_of(text, name, **labels), wanted)
        for line in text.splitlines():
            self.assertRegex(line, r"^(# (HELP|TYPE) s4_\w+ .+|s4_\w+(\{(\w+=\"[^\"]*\",?)+\})? [0-9.e+-]+)$")
        self.assertEqual((self.folder / "asked").read_text(encoding="ascii"), "info --json drive.image\n")

    def test_an_image_that_cannot_be_read(self):
        async def read(program):
            return await DriveNumbers("image", str(program)).read()

        for program in (self.s4("{}"), self.s4(self.INFO, 1), self.folder / "none"):
            self.assertIsNone(asyncio.run(read(program)))
        text = text_of(of_drive(None))
        self.assertEqual((value_of(text, "s4_drive_readable"), value_of(text, "s4_drive_clock")), (0, None))

    def test_pages(self):
        port = free_port()
        self.start("--local", port)
        self.assertEqual(got(port, "/health"), (200, "ok\n"))
        self.assertEqual(got(port, "/other")[0], 404)
        with socket.create_connection(("127.0.0.1", port), PATIENCE) as link:
            link.sendall(b"POST /health HTTP/1.1\r\n\r\n")
            self.assertTrue(rest_of(link).startswith(b"HTTP/1.1 405 "))
        with socket.create_connection(("127.0.0.1", port), PATIENCE) as link:
            link.sendall(b"GET /" + b"x" * 20_000)
            self.assertEqual(rest_of(link), b"")
        self.assertEqual(self.service.names, [])  # nothing was asked of the drive

    def test_connections_that_ask_for_no_page(self):
        """There are few at once, and they keep nobody out."""
        port = free_port()
        self.start("--local", port)
        silent = []
        for _ in range(MOST_ASKING + 1):
            link = socket.create_connection(("127.0.0.1", port), PATIENCE)
            self.addCleanup(link.close)
            silent.append(link)
        self.assertEqual(got(port, "/health"), (200, "ok\n"))
        self.assertEqual(rest_of(silent[0]), b"")


class Ready(Bridged):
    """What is said once a client gets a session."""

    def test_it_waits_for_the_service(self):
        doors = self.folder / "doors"
        for role in ("client", "admin"):
            (doors / role).mkdir(parents=True)
        source, sink = os.pipe()
        self.addCleanup(os.close, source)
        self.start_without_service("--ready-fd", sink, pass_fds=[sink])
        os.close(sink)
        self.service = Service(doors, ["client"])
        time.sleep(0.3)  # far longer than it takes where it doesn't wait for the other door
        self.assertEqual(self.printed, [])
        self.service.attend("admin")
        self.assertEqual(os.read(source, 100), b"ready\n")
        self.assertEqual(os.read(source, 100), b"")
        wait_until(lambda: self.printed == ["ready"], "a line")
        with self.connect("admin") as it:
            it.create()

    def test_a_service_that_does_not_come(self):
        (self.folder / "doors" / "client").mkdir(parents=True)
        (self.folder / "doors" / "admin").mkdir()
        self.start_without_service()
        wait_until(lambda: self.said, "a line")
        self.assertEqual(self.said, ["s4d.bridge: client: no service, admin: no service: who comes is turned away until there is one"])
        self.assertEqual(self.printed, [])

    def test_where_standard_output_is_the_log(self):
        Service(self.folder / "doors")
        words = words_of(self.folder, "--unix", f"client={self.folder}/client.sock")
        with subprocess.Popen(words, cwd=PACKAGE, stdout=subprocess.PIPE, text=True) as process:
            self.assertEqual(json.loads(process.stdout.readline())["event"], "ready")
            self.connect().close()
            self.assertEqual(json.loads(process.stdout.readline())["event"], "session")
            process.terminate()

    def test_words(self):
        for word, why in (("1", "is a standard stream: give 3 or more"), ("99", "is no open descriptor"), ("x", "is no number")):
            with self.subTest(word):
                ran = subprocess.run(words_of(self.folder, "--unix", "client=s", "--ready-fd", word), cwd=PACKAGE, capture_output=True,
                                     text=True, check=False)
                self.assertEqual((ran.returncode, ran.stderr), (2, f"s4d.bridge: argument --ready-fd: {word!r} {why}; --help lists the options\n"))


class Ends(Bridged):
    def test_an_end_in_order(self):
        self.start("--sessions", "client=1")
        self.service.may_answer.clear()
        busy, waiting, idle = self.raw(), self.raw(), self.raw("admin")
        busy.sendall(wire.create(b"").frame() * 3 + b"\0")
        wait_until(lambda: self.service.asked and self.service.open_sessions == {"client": 1, "admin": 1}, "two sessions, and a request")
        self.process.send_signal(signal.SIGTERM)
        self.assertEqual((rest_of(waiting), rest_of(idle)), (AWAY, b""))
        self.assertFalse((self.folder / "client.sock").exists())
        self.service.may_answer.set()
        self.assertEqual(len(rest_of(busy)), 3 * 21)
        self.assertEqual(self.process.wait(PATIENCE), 0)
        ends = [(line["role"], line["end"]) for line in self.lines(event="session")]
        self.assertEqual(sorted(ends), [("admin", "stopped"), ("client", "stopped")])
        self.assertEqual((self.lines(event="turned away")[0]["why"], self.pipes()), ("stopping", []))

    def test_an_end_that_a_service_delays(self):
        self.start("--grace", "0.5")
        self.service.may_answer.clear()
        link = self.raw()
        link.sendall(wire.create(b"").frame())
        wait_until(lambda: self.service.asked, "a request")
        self.assertEqual((self.stop(), rest_of(link)), (0, b""))
        self.assertEqual(len(self.lines(event="request", lost=True)), 1)

    def test_a_bridge_that_starts_again(self):
        """What systemd waits for is said each time."""
        with self.systemd() as systemd:
            for number in (1, 2):
                self.start(NOTIFY_SOCKET=f"{self.folder}/systemd")
                self.assertEqual(systemd.recv(100), b"READY=1")
                with self.connect() as it:
                    self.assertEqual(it.create().object, number)
                self.assertEqual((self.stop(), systemd.recv(100)), (0, b"STOPPING=1"))


class Calls(Bridged):
    """Each fault has one line, and a status."""

    def check(self, status, line, *words):
        with self.subTest(line):
            said = io.StringIO()
            with contextlib.redirect_stderr(said):
                try:
                    found = bridge.main(["--doors", f"{self.folder}/doors", *map(str, words)])
                except SystemExit as end:
                    found = end.code
            self.assertEqual(said.getvalue(), f"s4d.bridge: {line}\n".replace("DIR", str(self.folder)))
            self.assertEqual(found, status)

    def test_a_program(self):
        ran = subprocess.run(words_of(self.folder), cwd=PACKAGE, capture_output=True, text=True, check=False, timeout=PATIENCE)
        self.assertEqual((ran.returncode, ran.stdout), (2, ""))
        self.assertEqual(ran.stderr, "s4d.bridge: give at least one --unix or --tls; --help lists the options\n")
        words = [*words_of(self.folder, "--unix", "client=s"), ">&-"]
        ran = subprocess.run(["sh", "-c", " ".join(words)], cwd=PACKAGE, capture_output=True, text=True, check=False, timeout=PATIENCE)
        self.assertEqual((ran.returncode, ran.stderr), (1, "s4d.bridge: standard output: it is closed; give --log\n"))

    def test_wrong_words(self):
        more = "; --help lists the options"
        self.check(2, "give at least one --unix or --tls" + more)
        self.check(2, "argument --unix: 'client' is no ROLE=PATH[:MODE], as client=client.sock:660" + more, "--unix", "client")
        self.check(2, "argument --unix: '../x=y' is no ROLE=PATH[:MODE], as client=client.sock:660" + more, "--unix", "../x=y")
        self.check(2, "argument --tls: '7400' is no HOST:PORT" + more, "--tls", "7400")
        self.check(2, "--tls needs --key" + more, "--tls", "a:1", "--cert", "c")
        self.check(2, "--roles is for --tls alone" + more, "--unix", "client=s", "--roles", "r")
        self.check(2, "--image is for --local alone" + more, "--unix", "client=s", "--image", "i")
        self.check(2, "argument --queue: '-1' is no number" + more, "--unix", "client=s", "--queue=-1")
        self.check(2, "unrecognized arguments: --nothing" + more, "--unix", "client=s", "--nothing")

    def test_what_cannot_be_had(self):
        Service(self.folder / "doors")
        good = ["--unix", f"client={self.folder}/s"]
        self.check(1, "DIR/doors/nobody: No such file or directory", "--unix", f"nobody={self.folder}/s")
        self.check(1, "DIR/none/s: No such file or directory", "--unix", f"client={self.folder}/none/s")
        self.check(1, "DIR/none/log: No such file or directory", *good, "--log", f"{self.folder}/none/log")
        (self.folder / "file").write_text("", encoding="ascii")
        self.check(1, "DIR/file: what is there is no socket", "--unix", f"client={self.folder}/file")
        long = "x" * 120
        self.check(1, f"DIR/{long}: AF_UNIX path too long", "--unix", f"client={self.folder}/{long}")
        with socket.create_server(("127.0.0.1", 0)) as listener:
            self.check(1, f"127.0.0.1:{listener.getsockname()[1]}: Address already in use", *good, "--local", listener.getsockname()[1])
        self.assertFalse((self.folder / "s").exists())

    def test_a_second_bridge(self):
        self.start()
        self.check(1, "DIR/doors/client: another bridge has this door", "--unix", f"client={self.folder}/s")

    @needs_openssl
    def test_files_of_tls(self):
        Service(self.folder / "doors")
        certificates = Certificates(self.folder)
        certificates.make("bridge")
        certificates.make("other")
        words = tls_words(self.folder, free_port())
        for text, line in (("client\n", "1: give a role and a common name"), ("# x\nclient a\nadmin a\n", "3: a is named twice"),
                           ("Client a\n", "1: Client is no role: give lower-case letters, digits and -")):
            (self.folder / "roles").write_text(text, encoding="ascii")
            self.check(1, f"DIR/roles:{line}", *words)
        (self.folder / "roles").write_bytes(b"client a\nclient \xff\n")
        self.check(1, "DIR/roles:2: it is no text in UTF-8", *words)
        self.check(1, "DIR/none: No such file or directory", *words, "--cert", f"{self.folder}/none")
        subprocess.run(["openssl", "ec", "-in", self.folder / "bridge.key", "-aes256", "-passout", "pass:word", "-out", self.folder / "locked.key"],
                       check=True, capture_output=True)
        self.check(1, "DIR/bridge.pem: no certificate with this key (no PEM, or the key has a password)", *words, "--key", f"{self.folder}/locked.key")
        self.check(1, "DIR/bridge.pem: no certificate with this key (KEY_VALUES_MISMATCH)", *words, "--key", f"{self.folder}/other.key")
        self.check(1, "DIR/roles: no certificate (NO_CERTIFICATE_OR_CRL_FOUND)", *words, "--client-ca", f"{self.folder}/roles")


if __name__ == "__main__":
    unittest.main()
