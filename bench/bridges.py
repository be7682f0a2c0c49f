#!/usr/bin/env python3
"""A service with a bridge before it, whose clients come by sockets: kills at random moments, and crowds.

    bridges.py [COUNT [SEED]]          COUNT kills (1,000) of the service, of the bridge, or of both
    bridges.py crowd [SECONDS]         clients that come and go over Unix sockets and TLS for as long (60), 200 of them at least

S4SERVE and S4 name the programs. Clients make objects, change and read them, also at moments of the past, one request after another
or several together. After each kill the audit is asked for, and all is compared with a plain model of what was accepted: each
acknowledged change is there at its moment, as it was asked; no change is there that nobody asked; what was read now is a version that is
there; and what was read at a moment is what the object had then, also by the changes that were accepted later. Half of the images are
ahead of the machine's time, so that a service that begins anew goes on from what was kept alone. Prints the faults, and last how much was
done. Status 0: no faults; 1: some."""
import bisect
import contextlib
import hashlib
import json
import os
import pathlib
import random
import shutil
import signal
import socket
import struct
import subprocess
import sys
import threading
import time
import urllib.request

sys.dont_write_bytecode = True
import service  # noqa: E402
import s4d  # noqa: E402
from s4d import AuditKind, wire  # noqa: E402

PATIENCE = service.PATIENCE
DAY = 86_400_000_000
CLIENTS = 6
ROUNDS = 12  # kills of one image
WEIGHTS = (6, 1, 2, 3), (1, 0, 12, 6), (6, 3, 1, 1)  # how often a client changes once, several times together, reads now, and the past
LOST = (s4d.Disconnected, s4d.BadReply, OSError)


def wait_until(holds, what):
    end = time.monotonic() + PATIENCE
    while not holds():
        if time.monotonic() > end:
            raise TimeoutError(what)
        time.sleep(0.01)


class Bridge:
    """A bridge before the doors of a service, with a socket for each of them in the service's folder."""

    def __init__(self, it, *words):
        self.folder, self.words, self.child = it.folder, words, None

    def begin(self):
        """Starts it, and waits until clients get sessions."""
        self.start()
        return self.wait_until_ready()

    def start(self):
        sockets = [it for role in ("client", "admin") for it in ("--unix", f"{role}={self.folder}/{role}.sock")]
        words = [sys.executable, "-B", "-m", "s4d.bridge", "--doors", self.folder, "--log", f"{self.folder}/access.log", *sockets, *self.words]
        with open(f"{self.folder}/bridge.log", "wb") as log:
            self.child = subprocess.Popen(words, cwd=os.path.join(service.TOP, "python"), stdin=subprocess.DEVNULL, stdout=log, stderr=log)

    def wait_until_ready(self):
        wait_until(lambda: "ready" in self.said().splitlines() or self.child.poll() is not None, "the bridge is ready")
        if self.child.poll() is not None:
            raise RuntimeError(f"the bridge didn't begin: {self.said()}")
        return self

    def said(self):
        return pathlib.Path(f"{self.folder}/bridge.log").read_text(encoding="utf-8")

    def address(self, role="client"):
        return f"unix:{self.folder}/{role}.sock"

    def session(self, role="client"):
        return s4d.Drive.connect(self.address(role), PATIENCE)

    def log(self, **wanted):
        """The lines of the access log that have these members."""
        with open(f"{self.folder}/access.log", encoding="utf-8") as log:
            found = [json.loads(line) for line in log if line.endswith("}\n")]
        return [line for line in found if all(line.get(key) == value for key, value in wanted.items())]

    def kill(self):
        self.child.kill()
        self.child.wait()

    def stop(self):
        self.child.send_signal(signal.SIGTERM)
        return self.child.wait(PATIENCE)

    def __enter__(self):
        return self

    def __exit__(self, *_):
        if self.child and self.child.poll() is None:
            self.kill()


class Change:
    """A change that is asked: its row in an audit, where that is known, and what it makes of an object's bytes."""

    def __init__(self, kind, number, first, second, after):
        self.kind, self.object, self.first, self.second, self.after = kind, number, first, second, after

    def is_row(self, row):
        return (self.kind, self.first, self.second) == (row.kind, row.first, row.second) and self.object in (row.object, None)


class Book:
    """What was acknowledged, asked and read, and the versions of each object as an audit has them."""

    def __init__(self):
        self.lock = threading.Lock()
        self.acknowledged, self.doubts = {}, []  # by moment; of each session, what it asked and what wasn't answered
        self.seen, self.facts = [], []  # objects and bytes, now; objects, moments and bytes
        self.moments, self.contents, self.last = {}, {}, 0  # of versions that were judged, and the last moment of all
        self.faults = []

    def content(self, number, at):
        """What an object had at a moment; None where it wasn't there."""
        place = bisect.bisect_right(self.moments.get(number, []), at)
        return self.contents[number][place - 1] if place else None

    def note(self, change, number, moment):
        with self.lock:
            change.object = number
            if moment in self.acknowledged:
                self.faults.append(f"moment {moment} was given twice")
            self.acknowledged[moment] = change

    def judge(self, drive, draw, is_new_run):
        """Compares all with the audit, once nobody asks any more. Later nothing is in doubt where a new service runs."""
        rows = {row.moment: row for row in drive.audit()}
        for moment, change in self.acknowledged.items():
            if moment not in rows:
                self.faults.append(f"the change at {moment} was acknowledged, and isn't there")
            elif not change.is_row(rows[moment]):
                self.faults.append(f"the change at {moment} was acknowledged as another: {rows[moment]}")
        for moment in sorted(rows):
            if moment > self.last:
                self.take(moment, rows[moment])
        self.last = max([self.last, *rows])
        for number, data in self.seen:
            if data not in self.contents.get(number, []):
                self.faults.append(f"object {number} was read with {len(data)} bytes that it never had")
        self.seen.clear()
        for number, at, data in self.facts:
            if self.content(number, at) != data:
                self.faults.append(f"object {number} at {at} was read otherwise before")
        for number, at, data in draw.sample(self.facts, min(10, len(self.facts))):
            if read_at(drive, number, at) != data:
                self.faults.append(f"object {number} at {at} is read otherwise now")
        if is_new_run:
            self.doubts.clear()

    def take(self, moment, row):
        """A change that is in the audit: it was acknowledged, or somebody asked it."""
        change = self.acknowledged.get(moment)
        if change is None:
            mine = next((asked for asked in self.doubts for it in asked if it.is_row(row)), None)
            if mine is None:
                self.faults.append(f"nobody asked the change at {moment}: {row}")
                return
            place = next(place for place, it in enumerate(mine) if it.is_row(row))
            change = mine[place]
            del mine[:place + 1]  # those before it in its session were refused
        self.moments.setdefault(row.object, []).append(moment)
        self.contents.setdefault(row.object, []).append(change.after)


def read_at(drive, number, at):
    try:
        return drive.read(number, at=at)
    except s4d.NoObject:
        return None


class Client:
    """It makes an object, or takes one over, and changes and reads until its session is lost."""

    def __init__(self, book, address, seed, numbers, weights, taken=None):
        self.book, self.address, self.draw, self.numbers, self.weights = book, address, random.Random(seed), numbers, weights
        self.object, self.data, self.last, self.asked = None, b"", 0, []
        if taken is not None:
            self.object, self.data, self.last = taken, book.content(taken, wire.LAST), book.moments[taken][-1]
        self.count, self.ahead = 0, 1_000  # changes that were acknowledged, and how far beyond the last one the past may be read

    def run(self):
        self.book.doubts.append(self.asked)
        with contextlib.suppress(*LOST):
            drive = s4d.Drive.connect(self.address, PATIENCE)
            try:
                if self.object is None:
                    self.create(drive)
                while True:
                    self.draw.choices((self.change, self.several, self.look, self.look_back), self.weights)[0](drive)
            finally:
                with contextlib.suppress(*LOST):
                    drive.close()

    def create(self, drive):
        name = self.draw.randbytes(self.draw.randrange(20))
        change = Change(AuditKind.CREATE, None, len(name), 0, b"")
        self.asked.append(change)
        made = drive.create(name)
        self.answered(change, made.object, made.moment)
        self.object, self.data = made.object, b""
        self.numbers.append(made.object)

    def answered(self, change, number, moment):
        self.asked.remove(change)
        self.book.note(change, number, moment)
        self.last, self.ahead = moment, 1_000
        self.count += 1

    def next_change(self, data):
        """A change of these bytes, and how it is asked."""
        piece, number = self.draw.randbytes(self.draw.randrange(1, 200)), self.object
        kind = self.draw.randrange(4)
        if kind == 0:
            return Change(AuditKind.WRITE, number, len(data), len(piece), data + piece), lambda it: it.append(number, piece)
        if kind == 1:
            size = self.draw.randrange(len(data) + 50)
            after = data[:size].ljust(size, b"\0")
            return Change(AuditKind.TRUNCATE, number, size, 0, after), lambda it: it.truncate(number, size)
        if kind == 2:
            return Change(AuditKind.SET_ATTRIBUTE, number, 7, 0, data), lambda it: it.set_attribute(number, b"another")
        place = self.draw.randrange(len(data) + 20)
        after = data.ljust(place, b"\0")[:place] + piece + data[place + len(piece):]
        return Change(AuditKind.WRITE, number, place, len(piece), after), lambda it: it.write(number, place, piece)

    def change(self, drive):
        change, ask = self.next_change(self.data)
        self.asked.append(change)
        try:
            moment = ask(drive)
        except s4d.Refused:  # the drive is full
            self.asked.remove(change)
            return
        self.data = change.after
        self.answered(change, self.object, moment)

    def several(self, drive):
        """Up to five changes that are asked together."""
        batch, asked, data = drive.pipeline(), [], self.data
        for _ in range(self.draw.randrange(2, 6)):
            change, ask = self.next_change(data)
            asked.append((change, ask(batch)))
            data = change.after
        self.asked += (change for change, _ in asked)
        try:
            batch.run()
        finally:
            for change, reply in asked:
                if reply.done and not reply.refusal():
                    self.data = change.after
                    self.answered(change, self.object, reply.result())
        if any(reply.refusal() for _, reply in asked):
            for change, _ in asked:
                if change in self.asked:
                    self.asked.remove(change)
            self.create(drive)  # those after a refused one came out otherwise, so the object isn't followed any further

    def look(self, drive):
        number = self.draw.choice(self.numbers[-CLIENTS:])
        with contextlib.suppress(s4d.Refused):
            data = drive.read(number)
            self.book.seen.append((number, data))

    def look_back(self, drive):
        """A moment of the past, or one between the last change and now, which no later change may have."""
        number, draw = self.draw.choice([*self.numbers[-2 * CLIENTS:], max(self.numbers) + 1]), self.draw
        at = self.last + draw.choice((0, 1, draw.randrange(3_000), -draw.randrange(2_000_000), self.ahead))
        try:
            self.book.facts.append((number, at, read_at(drive, number, at)))
            self.ahead += self.ahead // 4 if at == self.last + self.ahead else 0
        except s4d.Future:
            self.ahead = self.ahead * 9 // 10 if at == self.last + self.ahead else self.ahead
        except s4d.Refused:
            pass


def with_clock(path, clock):
    """Puts an empty drive's clock into its image."""
    with open(path, "rb") as file:
        data = bytearray(file.read()[:-32])
    floor = max(clock - int.from_bytes(data[24:32], "big"), 0)
    data[16:24], data[32:40] = clock.to_bytes(8, "big"), floor.to_bytes(8, "big")
    with open(path, "wb") as file:
        file.write(data + hashlib.sha256(data).digest())


def compare_file(it, book, draw):
    """What `s4` reads in the image's file, once the service was stopped."""
    s4 = service.program("s4")
    for number in draw.sample(sorted(book.moments), min(8, len(book.moments))):
        at = draw.choice(book.moments[number])
        ran = subprocess.run([s4, "cat", "--at", str(at), it.image, str(number)], capture_output=True, check=False)
        if (ran.returncode, ran.stdout) != (0, book.content(number, at)):
            book.faults.append(f"object {number} at {at} in the file: status {ran.returncode}, {ran.stderr.decode().strip()}")


def kill_one(it, bridge, book, draw, numbers, taken):
    """Clients, a kill, and what is there after it: how many changes were acknowledged, and objects that can be taken over."""
    clients = [Client(book, bridge.address("admin" if place == 0 else "client"), draw.random(), numbers, WEIGHTS[place % len(WEIGHTS)], number)
               for place, number in zip(range(CLIENTS), [*taken, *[None] * CLIENTS])]
    threads = [threading.Thread(target=client.run) for client in clients]
    for thread in threads:
        thread.start()
    wait_until(lambda: sum(client.count for client in clients) > CLIENTS, "changes")
    is_quiet = draw.random() < 0.25
    if is_quiet:  # nothing is changed for a while, so that the past was read up to a moment that is later than the last change
        for client in clients:
            client.weights = 0, 0, 1, 3
        time.sleep(1.5)
    time.sleep(draw.random() * 0.2)
    victims = (it,) if is_quiet else draw.choice(((it,), (it,), (bridge,), (it, bridge), (bridge, it)))
    for victim in victims:
        victim.kill()
    for thread in threads:
        thread.join(PATIENCE)
        if thread.is_alive():
            raise TimeoutError("a client's session doesn't end")
    for victim in victims:  # a bridge also before the service that it waits for
        victim.start() if victim is bridge else victim.begin()
    bridge.wait_until_ready()
    with bridge.session("admin") as drive:
        book.judge(drive, draw, it in victims)
    mine = [client.object for client in clients if client.object in book.moments]
    return sum(client.count for client in clients), draw.sample(mine, len(mine) // 2) if it in victims else []


def kills(count, seed):
    draw, faults, done, changes = random.Random(seed), [], 0, 0
    while done < count:
        book, numbers, taken = Book(), [], []
        new = ("--create", "256", "--keep", "30d")
        with service.Service(new=new, env=service.without_waits()) as it, Bridge(it) as bridge:
            it.begin()
            if (done // ROUNDS) % 2 == 0:
                it.stop()
                with_clock(it.image, time.time_ns() // 1_000 + 3 * DAY)
                it.begin()
            bridge.begin()
            for _ in range(min(ROUNDS, count - done)):
                acknowledged, taken = kill_one(it, bridge, book, draw, numbers, taken)
                changes += acknowledged
                done += 1
            if bridge.stop() or it.stop():
                book.faults.append(f"it wasn't stopped in order: {bridge.said()}{it.said()}")
            compare_file(it, book, draw)
        faults += book.faults
        if book.faults:
            print(*book.faults[:10], sep="\n")
    return done, faults, changes


class Crowd:
    """Clients that come and go. Some die inside frames, some while a reply is due."""

    def __init__(self, addresses, tls, least):
        self.addresses, self.tls, self.least, self.lock = addresses, tls, least, threading.Lock()
        self.numbers, self.kept, self.failures, self.refused = 0, {}, [], 0

    def next_number(self, end):
        with self.lock:
            if time.monotonic() > end and self.numbers >= self.least:
                return None
            self.numbers += 1
            return self.numbers

    def come_and_go(self, end):
        while (number := self.next_number(end)) is not None:
            try:
                self.client(number)
            except (*LOST, s4d.Refused, AssertionError) as error:
                self.failures.append(f"client {number}: {error!r}")

    def client(self, number):
        draw, text = random.Random(number), b""
        with s4d.Drive.connect(self.addresses[number % len(self.addresses)], PATIENCE, tls=self.tls) as it:
            try:
                made = it.create(b"%d" % number).object
                for _ in range(draw.randrange(1, 5)):
                    piece = bytes([65 + number % 26]) * draw.randrange(1, 200)
                    it.append(made, piece)
                    text += piece
                    if it.read(made) != text:
                        raise AssertionError(f"object {made} isn't what was written")
                if number % 8:
                    it.delete(made)
                else:
                    self.kept[made] = text
            except s4d.NoSpace:
                self.refused += 1
                return
            if number % 3 == 0:
                self.die(it, draw, wire.append(made, b"never").frame())

    @staticmethod
    def die(it, draw, frame):
        """Ends inside a request, or cuts the connection off."""
        it._connection._writer.write(frame[:draw.randrange(1, len(frame))])
        it._connection._writer.flush()
        link = it._connection._peer._link
        if draw.random() < 0.3 and link.family != socket.AF_UNIX:
            link.setsockopt(socket.SOL_SOCKET, socket.SO_LINGER, struct.pack("ii", 1, 0))
            link.close()


def secured(it):
    """Words for a bridge that serves TLS, its address, and a client's certificate."""
    from tests.bridged import Certificates, free_port
    port, certificates = free_port(), Certificates(pathlib.Path(it.folder))
    certificates.make("bridge")
    tls = certificates.make("alice")
    with open(f"{it.folder}/roles", "w", encoding="utf-8") as roles:
        roles.write("client alice\n")
    files = {"--cert": "bridge.pem", "--key": "bridge.key", "--client-ca": "ca.pem", "--roles": "roles"}
    words = ["--tls", f"127.0.0.1:{port}", *(word for name, file in files.items() for word in (name, f"{it.folder}/{file}"))]
    return words, f"tls:127.0.0.1:{port}", tls, free_port()


def crowd(seconds, least=200):
    """How many clients came, how many of them found the drive full, and what went wrong."""
    with service.Service(new=("--create", "256", "--keep", "5s")) as it:
        words, address, tls, port = secured(it) if shutil.which("openssl") else ([], None, None, 0)
        with Bridge(it, *words, "--local", str(port), "--wait", str(PATIENCE), "--handshake", str(PATIENCE)) as bridge:
            it.begin()
            bridge.begin()
            crowd = Crowd([bridge.address(), *([address] if address else [])], tls, least)
            end = time.monotonic() + seconds
            threads = [threading.Thread(target=crowd.come_and_go, args=(end,)) for _ in range(24)]
            for thread in threads:
                thread.start()
            for thread in threads:
                thread.join()
            faults = crowd.failures + after_a_crowd(it, bridge, crowd, port)
    return crowd.numbers, crowd.refused, faults


def after_a_crowd(it, bridge, crowd, port):
    """What isn't as it should be once all clients are gone."""
    faults = []
    with bridge.session("admin") as drive:
        faults += (f"object {number} has lost its bytes" for number, text in crowd.kept.items() if drive.read(number) != text)
    wait_until(lambda: len(bridge.log(event="session", role="client")) == crowd.numbers, "all sessions ended")
    left = [name for name in os.listdir(it.doors["client"]) if name != "door"]
    faults += [f"pipes were left: {left[:5]}"] if left else []
    with urllib.request.urlopen(f"http://127.0.0.1:{port}/metrics", timeout=PATIENCE) as page:
        text = page.read().decode()
    faults += [] if 's4_bridge_sessions{role="client"} 0\n' in text else ["sessions are counted that have ended"]
    if it.child.poll() is not None:
        faults.append(f"the service has ended: {it.said()}")
    elif bridge.stop() or it.stop():
        faults.append(f"it wasn't stopped in order: {bridge.said()}{it.said()}")
    return faults


def main(words):
    if {"-h", "--help"} & set(words):
        print(__doc__)
        return 0
    if words[:1] == ["crowd"]:
        count, refused, faults = crowd(float(words[1]) if len(words) > 1 else 60)
        print(*faults[:20], sep="\n", end="\n" if faults else "")
        print(f"{count} clients came, {len(faults)} faults; {refused} found the drive full")
        return 1 if faults else 0
    numbers = [int(it) for it in words]
    done, faults, changes = kills(numbers[0] if numbers else 1_000, numbers[1] if len(numbers) > 1 else 0)
    print(f"{done} kills, {len(faults)} faults, {changes} changes were acknowledged")
    return 1 if faults else 0


if __name__ == "__main__":
    sys.exit(main(sys.argv[1:]))
