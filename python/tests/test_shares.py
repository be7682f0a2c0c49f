"""Peers of a bridge and their shares, before the built service."""
import asyncio
import contextlib
import os
import signal
import socket
import subprocess
import time
from unittest import mock

import s4d
from s4d import wire
from s4d.access_log import LOG_FILES

from .bridged import PATIENCE, Bridged, Certificates, free_port, got, needs_openssl, value_of, wait_until
from .built import S4SERVE, needs_s4serve
from .standin import frame
from .test_bridge import AWAY, BAD_FRAME, SHORT, received, rest_of, tls_words

CREATE = wire.create(b"").frame()
CREATED = 21  # bytes of a reply to it


@needs_s4serve
class Served(Bridged):
    """A service, and a bridge before it. This test's user is one peer, and who comes by TLS another."""

    def setUp(self):
        super().setUp()
        self.page, self.port = free_port(), free_port()
        for role in ("client", "admin"):
            (self.folder / "doors" / role).mkdir(parents=True)
            os.mkfifo(self.folder / "doors" / role / "door")
        doors = [word for role in ("client", "admin") for word in ("--door", f"{role}={self.folder}/doors/{role}")]
        with open(self.folder / "service.log", "wb") as said:
            program = subprocess.Popen([S4SERVE, "--create", "64", "--keep", "30d", *doors, self.folder / "drive.image"], stdin=subprocess.DEVNULL,
                                       stderr=said)
        self.addCleanup(program.wait)
        self.addCleanup(program.kill)
        wait_until(lambda: b"serves" in (self.folder / "service.log").read_bytes() or program.poll() is not None, "the service serves")
        self.assertIsNone(program.poll(), (self.folder / "service.log").read_bytes())
        self.service = mock.Mock()
        self.uid = f"uid {os.getuid()}"

    def begin(self, *more, **how):
        self.start("--local", self.page, *more, **how)

    def certify(self, *names):
        """The sides of TLS of clients of these names."""
        certificates = Certificates(self.folder)
        certificates.make("bridge")
        (self.folder / "roles").write_text("".join(f"client {name}\n" for name in names), encoding="ascii")
        return [certificates.make(name) for name in names]

    def certified(self, tls):
        return s4d.Drive.connect(f"tls:127.0.0.1:{self.port}", PATIENCE, tls=tls)

    def metric(self, name, role="client", **labels):
        return value_of(got(self.page, "/metrics")[1], name, role=role, **labels)

    def audited(self):
        """How many changes were accepted."""
        with self.connect("admin") as it:
            return len(list(it.audit()))

    def test_a_share_of_changes(self):
        """What a full bucket holds at once, and then as many as come."""
        self.begin("--share", "changes=30/min")
        began, change = time.monotonic(), wire.set_attribute(1, b"x").frame()
        with self.connect() as it:
            made = it.create().object
            for _ in range(29):
                it.set_attribute(made, b"x")
            full = time.monotonic() - began
            for _ in range(3):
                it.set_attribute(made, b"x")
        seconds = time.monotonic() - began
        self.assertGreaterEqual(seconds, 3 / 0.5 - 0.1)
        self.assertEqual(self.metric("s4_bridge_peer_changes_total", peer=self.uid), 33)
        self.assertEqual(self.metric("s4_bridge_peer_change_bytes_total", peer=self.uid), len(CREATE) + 32 * len(change))
        waited = self.metric("s4_bridge_peer_waited_seconds_total", peer=self.uid)
        self.assertLessEqual(waited, seconds)
        self.assertTrue(waited > 0 or full > 1, (waited, full))  # else the bucket was filled as fast as it was asked

    def test_a_share_of_bytes(self):
        self.begin("--share", "bytes=100KiB/min", "--wait", SHORT)
        with self.connect() as it:
            made = it.create().object
            for _ in range(3):
                it.write(made, 0, b"x" * 32_000)
            with self.assertRaisesRegex(s4d.NotAsked, "wasn't passed on"):
                it.write(made, 0, b"y" * 32_000)
        with self.connect() as it:
            self.assertEqual(it.read(made), b"x" * 24_576 + b"x" * (32_000 - 24_576))  # reading takes none of it

    def test_who_waits_too_long_gets_what_is_due(self):
        self.begin("--share", "changes=2/min", "--wait", SHORT)
        link = self.raw()
        read = wire.attributes(1, None).frame()
        link.sendall(CREATE + wire.append(1, b"x").frame() + read * 5 + wire.append(1, b"never").frame() * 3 + read)
        replies = rest_of(link)
        due = received_frames(replies)
        self.assertEqual([reply[0] for reply in due], [2, 1] + [4] * 5 + [0])
        self.assertEqual(frame(due[-1]), AWAY)
        line = self.wait_for_line(event="session")
        self.assertEqual((line["end"], line["requests"]), ("over share", 7))
        self.assertEqual(self.audited(), 2)
        self.assertEqual(self.metric("s4_bridge_ended_total", end="over share"), 1)
        wait_until(lambda: self.metric("s4_bridge_sessions") == 0, "its seat is free")

    def test_a_session_that_is_over_is_not_asked_again(self):
        self.begin("--share", "changes=1/min", "--wait", SHORT)
        with self.connect() as it:
            made = it.create().object
            batch = it.pipeline()
            replies = [batch.attributes(made), batch.append(made, b"x"), batch.attributes(made)]
            with self.assertRaises(s4d.NotAsked):
                batch.run()
            self.assertEqual(replies[0].result().size, 0)
            for reply in replies[1:]:
                with self.assertRaisesRegex(s4d.Disconnected, "was not sent"):
                    reply.result()
            with self.assertRaises(s4d.NotAsked):
                it.attributes(made)
        self.assertEqual(self.audited(), 1)

    def test_tasks_whose_session_is_over(self):
        self.begin("--share", "changes=1/min", "--wait", SHORT)

        async def ask():
            async with await s4d.AsyncDrive.connect(f"unix:{self.folder}/client.sock", PATIENCE) as it:
                made = (await it.create()).object
                asked = it.attributes(made), it.append(made, b"x"), it.attributes(made)
                return await asyncio.gather(*asked, return_exceptions=True)

        first, second, third = asyncio.run(ask())
        self.assertEqual((first.size, type(second), type(third)), (0, s4d.NotAsked, s4d.NotAsked))
        self.assertIn("wasn't passed on", str(second))
        self.assertEqual(self.audited(), 1)

    def test_administrators_have_no_share(self):
        self.begin("--share", "sessions=1,changes=1/min,bytes=1KiB/min", "--wait", SHORT)
        with contextlib.ExitStack() as sessions:
            admins = [sessions.enter_context(self.connect("admin")) for _ in range(4)]
            made = admins[0].create().object
            for it in admins:
                for _ in range(25):
                    it.append(made, b"x" * 50)
            self.assertEqual(self.metric("s4_bridge_peer_sessions", "admin", peer=self.uid), 4)
        self.assertEqual(self.metric("s4_bridge_peer_waited_seconds_total", "admin", peer=self.uid), 0)
        self.assertEqual(self.audited(), 101)

    def test_a_hangup_fills_no_bucket(self):
        self.begin("--share", "changes=1/min", "--wait", SHORT)
        with self.connect() as it:
            it.create()
        (self.folder / "access.log").rename(self.folder / "old.log")
        self.process.send_signal(signal.SIGHUP)
        wait_until((self.folder / "access.log").exists, "a new log")
        with self.connect() as it, self.assertRaises(s4d.NotAsked):
            it.create()

    def test_an_end_while_a_change_waits(self):
        """What wasn't passed on isn't, and what was is answered."""
        self.begin("--share", "changes=1/min")
        link = self.raw()
        link.sendall(CREATE + wire.append(1, b"x").frame())
        self.assertEqual(len(received(link, CREATED)), CREATED)
        self.assertEqual((self.stop(), rest_of(link)), (0, b""))
        self.assertEqual(self.wait_for_line(event="session")["end"], "stopped")

    @needs_openssl
    def test_who_has_none_holds_up_no_other(self):
        """Twelve sessions of one peer flood; another makes at least half of the changes that it makes alone."""
        (alice,) = self.certify("alice")
        self.begin(*tls_words(self.folder, self.port), "--share", "changes=100/min")
        for _ in range(10):
            alone = self.made_in(2, alice)
            flood = [self.raw() for _ in range(12)]
            for link in flood:
                link.sendall(wire.set_attribute(1, b"x").frame() * 200)
            wait_until(lambda: self.metric("s4_bridge_peer_changes_total", peer=self.uid) >= 100, "its bucket is empty")
            beside = self.made_in(2, alice)
            for link in flood:
                link.close()
            if beside >= alone / 2:  # else the machine was busy with something else, perhaps
                break
        self.assertGreaterEqual(beside, alone / 2)
        self.assertLessEqual(self.metric("s4_bridge_peer_changes_total", peer=self.uid), 100 + 100)
        self.assertEqual(self.metric("s4_bridge_peer_waited_seconds_total", peer="name alice"), 0)

    def made_in(self, seconds, tls):
        """How many requests another peer has answered in this time: few changes, so that it isn't over its own share."""
        with self.certified(tls) as it:
            made, count, end = it.create().object, 0, time.monotonic() + seconds
            while time.monotonic() < end:
                it.attributes(made)
                count += 1
                if count % 100 == 0:
                    it.append(made, b"")
            return count

    @needs_openssl
    def test_each_name_has_a_share_of_its_own(self):
        alice, bob = self.certify("alice", "bob")
        self.begin(*tls_words(self.folder, self.port), "--share", "changes=1/min", "--wait", SHORT)
        with self.certified(alice) as first, self.certified(alice) as second, self.certified(bob) as other, self.connect() as user:
            made = first.create().object
            with self.assertRaisesRegex(s4d.NotAsked, "nothing was passed on"):  # it was this session's first request
                second.append(made, b"x")
            self.assertEqual(first.read(made), b"")
            self.assertEqual([it.create().object for it in (other, user)], [made + 1, made + 2])
        self.assertEqual(self.wait_for_line(event="session", end="over share")["peer"]["name"], "alice")

    def check_seats(self, hold):
        """Sixteen connections of one peer hold what they can; another gets a session at once."""
        alice, bob = self.certify("alice", "bob")
        self.begin(*tls_words(self.folder, self.port))
        with self.connect() as it:
            it.create()
            it.truncate(1, 24_576)
        links = [self.raw() for _ in range(16)]
        for link in links:
            hold(link)
        wait_until(lambda: self.metric("s4_bridge_peer_sessions", peer=self.uid) == 12, "twelve sessions")
        with self.certified(alice) as first, self.certified(alice) as second, self.certified(bob) as third:
            for it in (first, second, third):
                it.append(1, b"x")
            self.assertEqual(self.metric("s4_bridge_peer_sessions", peer="name alice"), 2)
        self.assertEqual(self.metric("s4_bridge_peer_sessions", peer=self.uid), 12)
        self.assertEqual(self.metric("s4_bridge_waiting"), 4)
        return links

    @needs_openssl
    def test_idle_sessions_leave_seats(self):
        self.check_seats(lambda link: None)

    @needs_openssl
    def test_half_sent_requests_leave_seats(self):
        self.check_seats(lambda link: link.sendall(wire.append(1, b"x" * 1_000).frame()[:500]))

    @needs_openssl
    def test_sessions_that_do_not_read_leave_seats(self):
        self.check_seats(lambda link: link.sendall(wire.read(1, 0, 24_576, None).frame() * 60))

    @needs_openssl
    def test_idle_sessions_end_for_those_who_may_have_their_seats(self):
        """Not for more of a peer that has as many as it may."""
        (alice,) = self.certify("alice")
        self.begin(*tls_words(self.folder, self.port), "--idle", "0.5", "--sessions", "client=3", "--share", "sessions=2")
        with self.certified(alice) as it:
            it.create()
            links = [self.raw() for _ in range(2)]
            wait_until(lambda: self.metric("s4_bridge_peer_sessions", peer=self.uid) == 2, "two sessions")
            links += [self.raw() for _ in range(4)]
            self.wait_for_line(4, event="session", end="idle", peer=links_peer())
            self.assertEqual(it.append(1, b"x") > 0, True)  # it was idle for longer than any of these

    def test_refused_requests_fill_no_log(self):
        self.begin()
        began, count = time.monotonic(), 0
        with self.connect() as it:
            made = it.create().object
            for _ in range(20):
                with it.pipeline() as batch:
                    replies = [batch.delete(made + 7) for _ in range(100)] + [batch.set_window(1) for _ in range(50)]
                count += len([reply for reply in replies if reply.refusal()])
        link = self.raw()
        link.sendall(frame(b"") * 1_000)
        self.assertEqual(received(link, 6_000), BAD_FRAME * 1_000)
        self.assertEqual(self.stop(), 0)
        seconds = time.monotonic() - began
        refused = [line for line in self.lines() if "refusal" in line or line["event"] == "refused"]
        self.assertLessEqual(len(refused), seconds + 2)
        counted = {}
        for line in refused:
            for name, number in line.get("more", {line.get("refusal"): 1}).items():
                counted[name] = counted.get(name, 0) + number
        self.assertEqual((count, counted), (3_000, {"NoObject": 2_000, "NotAdmin": 1_000, "BadFrame": 1_000}))

    def test_the_log_has_an_end(self):
        self.begin("--log-size", "4KiB")
        with self.connect() as it:
            it.create()
            with it.pipeline() as batch:
                for _ in range(500):
                    batch.attributes(1)
        self.assertEqual(self.stop(), 0)
        files = sorted(path.name for path in self.folder.iterdir() if path.name.startswith("access.log"))
        self.assertEqual(len(files), LOG_FILES)
        self.assertTrue(all((self.folder / name).stat().st_size <= 4_096 for name in files))
        self.assertEqual(self.lines()[-1]["event"], "session")

    def test_many_who_come_fill_no_log(self):
        self.begin("--queue", "0", "--sessions", "client=1")
        with self.connect() as it:
            it.create()
            for _ in range(300):
                with socket.socket(socket.AF_UNIX) as link:
                    link.settimeout(PATIENCE)
                    link.connect(f"{self.folder}/client.sock")
                    self.assertEqual(rest_of(link), AWAY)
        wait_until(lambda: self.metric("s4_bridge_turned_away_total", why="queue full") == 300, "300 were turned away")
        self.assertEqual(self.stop(), 0)
        lines = self.lines(event="turned away")
        self.assertEqual(sum(line["more"]["queue full"] if "more" in line else 1 for line in lines), 300)
        self.assertLess(len(lines), 150)


def links_peer():
    """What the log has of a connection of this process."""
    return {"pid": os.getpid(), "uid": os.getuid(), "gid": os.getgid()}


def received_frames(data):
    """The bodies of the frames that these bytes are."""
    found = []
    while data:
        length = int.from_bytes(data[:4], "big")
        found.append(data[4:4 + length])
        data = data[4 + length:]
    return found
