#!/usr/bin/env python3
"""Ways in which a client can flood a service with a bridge before it: what that takes, what others can do meanwhile and afterwards, and the
way back.

    floods.py [--frames N] [--seconds N] [--share SHARE] [--paced] [--minutes N] [--part full|beside] [WAY..]      without a WAY all of them

S4SERVE names the program, and openssl has to be there: who floods comes over a Unix socket, with 16 connections, and another client by TLS,
which owns as many objects of 2,000 bytes as a tenth of the frames. Two tables are printed, a row as soon as its way is tried, each over a new
drive of 1,024 frames or N. The first is without a share of changes, or with --paced with it:

- what was accepted until a change was refused for want of room, or since a journal was full: requests, bytes and seconds; and how long the same
  takes a peer with the share, by reckoning;
- what the other and an administrator can do then: their requests that are accepted;
- the way back: the seconds of a restore with --flush, the spans of moments that it hid, the objects that it didn't restore, and those of the
  owner that aren't what they were.

The second is with the share (sessions=12,changes=50/s,bytes=1MiB/min): the other's requests a second, of N seconds (3), alone and beside the
flood, while that has tokens left and once they are used up; how long it waited for one at most; and the parts of what it had alone. With
--minutes no way is begun for which there may be no time: two thirds of it are for the first table.

The last lines say what was not tried, and the worst of both tables: the longest way back, which should take 60 seconds at most, the least part
that the other had beside a flood, and the least beside one without tokens, which should be half. Status 0: an administrator could hide and delete
after each; 1: not after one. The figures depend on what else the machine does, requests and bytes hardly."""
import contextlib
import io
import json
import os
import random
import signal
import socket
import subprocess
import sys
import threading
import time
import urllib.request
from typing import NamedTuple

sys.dont_write_bytecode = True
import bridges  # noqa: E402
import service  # noqa: E402
import s4d  # noqa: E402
from s4d import wire  # noqa: E402
from s4d.moments import machine_time  # noqa: E402
from s4d.pace import BURST_SECONDS, share_of  # noqa: E402
from s4d.restore import Asker, Restore, Sayer, Wanted  # noqa: E402

CONNECTIONS = 16
LONGEST = 600.0  # seconds of a flood that doesn't fill the drive
EMPTY_SECONDS = 60.0  # after which a flood's tokens aren't waited for
FILLING_SECONDS, BESIDE_SECONDS = 60.0, 20.0  # that a way may take, by which none is begun too late
FULL_PART = 2 / 3  # of all time that the first table may take
OWNED, SIZE = 10, 2_000  # frames for each of the owner's objects, and bytes of one
SHARE = "sessions=12,changes=50/s,bytes=1MiB/min"
SEATS = "sessions=12"  # without a pace
PART = 0.5  # of its requests that another has at least beside a peer without tokens
WAY_BACK_SECONDS = 60.0  # that the way back takes at most
NO_SPACE, CHAIN_FULL, TOO_LARGE = 9, 12, 6
LOST = OSError, EOFError
ONE, THE_ONE = threading.Lock(), []  # the object that all connections overwrite
MINE, FIRST_OWNED = 1, 2  # objects of the other, the one that its requests are for and those that it owns beside it


class Link:
    """A connection of who floods, beside so many objects of another. What is asked to prepare it is counted by `take`."""

    def __init__(self, path, take, owned):
        self.take, self.owned = take, range(FIRST_OWNED, FIRST_OWNED + owned)
        self.socket = socket.socket(socket.AF_UNIX)
        self.socket.settimeout(service.PATIENCE)
        self.socket.connect(path)
        self.reader = self.socket.makefile("rb")

    def ask(self, frames):
        """The bodies of the replies to some requests."""
        self.socket.sendall(b"".join(frames))
        return [self.reply() for _ in frames]

    def reply(self):
        head = self.reader.read(4)
        body = self.reader.read(int.from_bytes(head, "big"))
        if len(head) < 4 or not body or body == wire.TURNED_AWAY:
            raise EOFError
        return body

    def create(self):
        frames = [wire.create(b"").frame()]
        replies = self.ask(frames)
        self.take(frames, replies)
        return int.from_bytes(replies[0][1:9], "big")

    def close(self):
        self.reader.close()
        self.socket.close()


def creates(_link):
    while True:
        yield [wire.create(b"").frame()] * 16


def large_writes(link):
    while True:
        made = link.create()
        for place in range(3):
            yield [wire.write(made, place * wire.WRITE_BYTES, b"x" * wire.WRITE_BYTES).frame()]


def small_writes(link):
    made = [link.create() for _ in range(16)]
    while True:
        yield [wire.write(number, 0, b"x").frame() for number in made]


def across_blocks(link):
    """What takes most room for a request without many bytes: two blocks of data, and one of a journal."""
    made = [link.create() for _ in range(16)]
    while True:
        yield [wire.write(number, 511, b"xx").frame() for number in made]


def overwrites(link):
    """All of them of one object."""
    with ONE:
        if not THE_ONE:
            THE_ONE.append(link.create())
    while True:
        yield [wire.write(THE_ONE[0], 0, b"x" * 24_576).frame()]


def small_of_others(link):
    """Small Writes to the owner's objects."""
    yield from of_others(link, 20, 16)


def large_of_others(link):
    yield from of_others(link, 30_000, 1)


def of_others(link, size, count):
    draw, number = random.Random(link.create()), 0
    while True:
        numbers = [link.owned[(number + place) % len(link.owned)] for place in range(count)]
        number += count
        yield [wire.write(it, draw.randrange(SIZE), b"x" * size).frame() for it in numbers]


def set_attributes(link):
    made = [link.create() for _ in range(16)]
    while True:
        yield [wire.set_attribute(number, b"x" * 64).frame() for number in made]


def appends(link):
    made = [link.create() for _ in range(16)]
    while True:
        yield [wire.append(number, b"x").frame() for number in made]


def journals(link):
    """Each object's journal is filled before the next."""
    while True:
        made = link.create()
        for _ in range(60):
            yield [wire.truncate(made, size % 2).frame() for size in range(16)]


def at_random(link):
    """Each kind of change, of a few objects."""
    draw = random.Random(link.create())
    made = [link.create() for _ in range(8)]
    kinds = (lambda _: wire.create(b"x" * draw.randrange(65)), wire.delete, lambda it: wire.append(it, b"x" * draw.randrange(1, 2_000)),
             lambda it: wire.write(it, draw.randrange(60_000), b"x" * draw.randrange(1, 30_000)), lambda it: wire.truncate(it, draw.randrange(98_304)),
             lambda it: wire.set_attribute(it, b"x" * draw.randrange(65)), lambda it: wire.write(it, draw.randrange(2_000), b"x"))
    while True:
        yield [draw.choice(kinds)(draw.choice(made)).frame() for _ in range(16)]
        made[draw.randrange(8)] = link.create()


def reads(link):
    made = link.create()
    link.ask([wire.truncate(made, wire.READ_BYTES).frame()])
    while True:
        yield [wire.read(made, 0, wire.READ_BYTES, None).frame()]


def come_and_go(_link):
    """A session for each request."""
    yield [wire.attributes(1, None).frame()]


def bad_frames(_link):
    while True:
        yield [b"\0\0\0\0"] * 16


def seats(link):
    """A request, and then nothing."""
    link.create()
    time.sleep(LONGEST)
    yield from ()


def half_frames(link):
    link.socket.sendall(wire.write(1, 0, b"x" * 1_000).frame()[:500])
    time.sleep(LONGEST)
    yield from ()


FILLING = {"empty Creates": creates, "large Writes": large_writes, "small Writes": small_writes, "Writes across blocks": across_blocks,
           "overwrites of one object": overwrites, "small Writes to others' objects": small_of_others, "SetAttrs": set_attributes, "Appends": appends,
           "journals of many objects": journals, "large Writes to others' objects": large_of_others, "changes at random": at_random}
OTHERS = {"Reads": reads, "frames that are no request": bad_frames, "sessions that come and go": come_and_go,
          "sessions that hold seats": seats, "half frames": half_frames, "silent connections": None}
ALIKE = tuple(FILLING)[5:]  # what they take of a share is what earlier ones take: they come last where time is short


class Flood:
    """What a program of its own does: it prints what it came to once there is no room, or time is over."""

    def __init__(self, path, way, seconds, owned):
        self.path, self.way, self.lock, self.began = path, {**FILLING, **OTHERS}[way], threading.Lock(), time.monotonic()
        self.owned = owned
        self.end, self.requests, self.bytes, self.refusals, self.full = self.began + seconds, 0, 0, {}, None

    def run(self):
        threads = [threading.Thread(target=self.come_and_go, daemon=True) for _ in range(CONNECTIONS)]
        for thread in threads:
            thread.start()
        while time.monotonic() < self.end and self.full is None and any(thread.is_alive() for thread in threads):
            time.sleep(0.02)
        if self.full is not None:
            for thread in threads:  # what they have asked is answered, and counts
                thread.join(2)
        with self.lock:
            seconds = (self.full or time.monotonic()) - self.began
            print(json.dumps({"seconds": seconds, "requests": self.requests, "bytes": self.bytes, "refusals": self.refusals}), flush=True)
        os._exit(0)  # with all that waits

    def come_and_go(self):
        while self.full is None and time.monotonic() < self.end:
            try:
                link = Link(self.path, self.take, self.owned)
            except OSError:
                time.sleep(0.05)
                continue
            with contextlib.suppress(*LOST), contextlib.closing(link):
                for frames in self.way(link):
                    if self.take(frames, link.ask(frames)):
                        break

    def take(self, frames, replies):
        """Counts what was accepted; whether these objects take nothing more."""
        refused = [reply[1] for reply in replies if reply[0] == 0]
        with self.lock:
            self.requests += len(replies) - len(refused)
            self.bytes += sum(len(frame) for frame, reply in zip(frames, replies) if reply[0])
            for number in refused:
                self.refusals[number] = self.refusals.get(number, 0) + 1
            only_one = self.way in (overwrites, small_of_others, large_of_others) and len(refused) == len(replies) and set(refused) == {CHAIN_FULL}
            if NO_SPACE in refused or only_one:
                self.full = self.full or time.monotonic()
        return bool({CHAIN_FULL, TOO_LARGE} & set(refused))


class Silent:
    """Connections to a port that say nothing."""

    def __init__(self, port, count=400):
        self.links = [socket.create_connection(("127.0.0.1", port)) for _ in range(count)]

    def kill(self):
        for link in self.links:
            link.close()

    def wait(self):
        pass


class Trial:
    """A service, a bridge, and a client whose requests are counted."""

    def __init__(self, frames, share):
        self.held = contextlib.ExitStack()
        self.service = self.held.enter_context(service.Service(new=("--create", str(frames), "--keep", "30d")))
        words, self.address, self.tls, self.page = bridges.secured(self.service)
        self.port = int(self.address.rpartition(":")[2])
        self.bridge = self.held.enter_context(bridges.Bridge(self.service, *words, "--local", str(self.page), "--share", share))
        self.service.begin()
        self.bridge.begin()
        with self.other() as it:
            numbers = [it.create(b"owned").object for _ in range(1 + frames // OWNED)]
            self.mine, self.owned = numbers[0], numbers[1:]
            it.write(self.mine, 0, b"x" * 100)
            for number in self.owned:
                it.write(number, 0, bytes([number % 251]) * SIZE)
            self.before = Asker(it).versions([(number, None) for number in self.owned])
        assert (self.mine, self.owned[:1]) == (MINE, [FIRST_OWNED])
        self.at = machine_time()

    def __enter__(self):
        return self

    def __exit__(self, *_):
        self.held.close()

    def other(self):
        return s4d.Drive.connect(self.address, service.PATIENCE, tls=self.tls)

    def flood(self, way, seconds):
        """The program that floods."""
        if way == "silent connections":
            return Silent(self.port)
        words = ["--flood", f"{self.service.folder}/client.sock", way, str(seconds), str(len(self.owned))]
        words = [sys.executable, "-B", os.path.abspath(__file__), *words]
        return subprocess.Popen(words, stdout=subprocess.PIPE, text=True)

    def rate(self, seconds):
        """The other's requests a second, a Write of 100 bytes and three Reads in turn, so that they need less than its own share, and how long
        it waited at most for one."""
        with self.other() as it:
            it.read(self.mine)  # so that the time for a seat isn't in it
            count, longest, began = 0, 0.0, time.monotonic()
            while (now := time.monotonic()) < began + seconds:
                if count % 4:
                    it.read(self.mine)
                else:
                    with contextlib.suppress(s4d.NoSpace):
                        it.write(self.mine, 0, b"x" * 100)
                longest = max(longest, time.monotonic() - now)
                count += 1
            return count / (time.monotonic() - began), longest

    def waited(self):
        """How long the flood's peer has waited for its share."""
        with urllib.request.urlopen(f"http://127.0.0.1:{self.page}/metrics", timeout=service.PATIENCE) as page:
            lines = page.read().decode().splitlines()
        wanted = f's4_bridge_peer_waited_seconds_total{{role="client",peer="uid {os.getuid()}"}} '
        return sum(float(line[len(wanted):]) for line in lines if line.startswith(wanted))

    def left(self):
        """What the other can do, and whether an administrator can hide and delete: what each of their requests came to."""
        with self.other() as it:
            others = {"Read": outcome(lambda: it.read(self.mine)), "Write": outcome(lambda: it.write(self.mine, 0, b"y")),
                      "Delete": outcome(lambda: it.delete(self.mine))}
        with self.bridge.session("admin") as it:
            hides = outcome(lambda: it.flush(0, 1))
            rows = list(it.audit())
            gone = {row.object for row in rows if row.kind is s4d.AuditKind.DELETE}
            made = [row.object for row in rows if row.kind is s4d.AuditKind.CREATE and row.object not in gone | {self.mine}]
            flooded = next((number for number in made if number > FIRST_OWNED + len(self.owned)), made[0])
            admins = {"Flush": hides, "Delete": outcome(lambda: remove(it, flooded))}
        return others, admins

    def way_back(self):
        """A restore of what was there before: its seconds, what it did, and how many of the owner's objects aren't what they were."""
        with self.bridge.session("admin") as it:
            began = time.monotonic()
            done = Restore(Asker(it), Wanted(self.at, flush=True), Sayer(io.StringIO(), io.StringIO())).run()
            seconds = time.monotonic() - began
            now = Asker(it).versions([(number, None) for number in self.owned])
        return seconds, done, sum(one != other for one, other in zip(self.before, now))


def remove(admin, number):
    """Deletes an object, as an administrator does it: where its journal is full what it became since it was made is hidden first."""
    end = time.monotonic() + service.PATIENCE
    while True:
        try:
            return admin.delete(number)
        except s4d.ChainFull:
            if time.monotonic() > end:
                raise
        moments = [row.moment for row in admin.audit() if row.object == number and row.kind is not s4d.AuditKind.FLUSH_OBJECT]
        admin.flush_object(number, moments[1], moments[-1] - 1)
        time.sleep(0.2)  # for the cleaner


def outcome(ask):
    try:
        ask()
        return "yes"
    except s4d.Refused as refusal:
        return type(refusal).__name__


def reckoned(found, share):
    """The seconds in which a peer with a share has asked as much."""
    rates = share_of(share)
    each = [(amount - rate * BURST_SECONDS) / rate for amount, rate in ((found["requests"], rates.changes), (found["bytes"], rates.bytes)) if rate]
    return max([found["seconds"], *each])


FULL_HEAD = ("| Way | Until refused | Accepted | Bytes | Seconds, with a share | Another client can | An administrator can | Way back, seconds "
             "| Hidden | Not restored, others |\n|---|---|---|---|---|---|---|---|---|---|")
BESIDE_HEAD = ("| Way | Alone | Beside it, at most ms | Once its share is used up, at most ms | Parts of what it has alone |\n|---|---|---|---|---|")


def accepted_of(outcomes):
    return ", ".join(name for name, what in outcomes.items() if what == "yes") or "nothing"


def filled(way, frames, share, is_paced, seconds):
    """A row of the first table, of a flood that has so long: whether an administrator could hide and delete, and how long the way back took."""
    with Trial(frames, share if is_paced else SEATS) as it:
        flood = it.flood(way, seconds)
        try:
            found = json.loads(flood.communicate()[0])
        finally:
            flood.kill()
            flood.wait()
        others, admins = it.left()
        seconds, done, unlike = it.way_back()
    refused = sorted(s4d.errors.REFUSALS[int(number)].__name__ for number in found["refusals"])
    print(f"| {way} | {', '.join(refused) or 'not full'} | {found['requests']:,} | {found['bytes']:,} "
          f"| {found['seconds']:.1f}, {reckoned(found, share):,.0f} | {accepted_of(others)} | {accepted_of(admins)} | {seconds:.1f} | {done.hidden:,} | {done.failed}, {unlike} |", flush=True)
    return set(admins.values()) == {"yes"}, seconds


class Parts(NamedTuple):
    """What the other had beside a flood of the requests that it has alone: at first, and then, when the flood may have had no tokens left."""

    first: float
    then: float
    is_paced: bool

    def least(self):
        return min(self.first, self.then)


def beside(way, frames, seconds, share):
    """A row of the second table."""
    with Trial(frames, share) as it:
        before, _ = it.rate(seconds)
        flood = it.flood(way, LONGEST)
        try:
            time.sleep(1)
            first, longest = it.rate(seconds)
            end = time.monotonic() + (EMPTY_SECONDS if way in FILLING else 0)
            while not it.waited() and time.monotonic() < end:
                time.sleep(0.2)
            is_paced = it.waited() > 0
            then, longest_then = it.rate(seconds)
        finally:
            flood.kill()
            flood.wait()
        time.sleep(1)
        alone = (before + it.rate(seconds)[0]) / 2  # so that a machine that becomes slower meanwhile doesn't count as much
    print(f"| {way} | {alone:.0f} | {first:.0f}, {longest * 1000:.0f} | {then:.0f}, {longest_then * 1000:.0f} "
          f"| {first / alone:.2f}, {then / alone:.2f} |", flush=True)
    return Parts(first / alone, then / alone, is_paced)


class Clock:
    """When the parts of all that is tried have to have ended, and what wasn't tried for want of time."""

    def __init__(self, minutes):
        self.began, self.seconds, self.left_out = time.monotonic(), None if minutes is None else 60 * minutes, []

    def has(self, way, part, seconds):
        """Whether there is time for a way, of this part of all time from the beginning on."""
        is_in_time = seconds < self.left(part)
        self.left_out += [] if is_in_time else [way]
        return is_in_time

    def left(self, part):
        """The seconds that are left of this part."""
        return float("inf") if self.seconds is None else self.began + part * self.seconds - time.monotonic()


def full_table(ways, frames, share, is_paced, clock):
    """Whether an administrator could hide and delete after each."""
    ways, found = [way for way in ways if way in FILLING], []
    print(FULL_HEAD, flush=True)
    for way in ways:
        if clock.has(f"{way}, full", FULL_PART, FILLING_SECONDS):
            found.append(filled(way, frames, share, is_paced, min(LONGEST, clock.left(FULL_PART))))
    is_good, longest = all(is_good for is_good, _ in found), max((seconds for _, seconds in found), default=0)
    print(f"\nof {len(found)} floods an administrator could hide and delete after {'each' if is_good else 'some'}; the longest way back took "
          f"{longest:.1f} s, {'not more' if longest <= WAY_BACK_SECONDS else 'more'} than {WAY_BACK_SECONDS:g}\n", flush=True)
    return is_good


def beside_table(ways, frames, seconds, share, clock):
    print(BESIDE_HEAD, flush=True)
    ways = sorted(ways, key=lambda way: way in ALIKE)
    found = {way: beside(way, frames, seconds, share) for way in ways if clock.has(f"{way}, beside", 1, BESIDE_SECONDS)}
    if found:
        worst = min(found, key=lambda way: found[way].least())
        print(f"\nbeside {len(found)} floods another client had {found[worst].least():.2f} of its requests at least, beside {worst}", flush=True)
    paced = {way: it.then for way, it in found.items() if it.is_paced}
    if paced:
        worst = min(paced, key=paced.__getitem__)
        print(f"beside {len(paced)} of them, once their share was used up, it had {paced[worst]:.2f} at least, beside {worst}: "
              f"{'not less' if paced[worst] >= PART else 'less'} than {PART:g}", flush=True)


def end(*_):
    """Ends what was begun, also where more signals come meanwhile."""
    signal.signal(signal.SIGTERM, signal.SIG_IGN)
    sys.exit(1)


def option(words, name, default):
    if name not in words:
        return default
    place = words.index(name)
    value = words[place + 1]
    del words[place:place + 2]
    return value


def main(words):
    if {"-h", "--help"} & set(words):
        print(__doc__)
        return 0
    if words[:1] == ["--flood"]:
        Flood(words[1], words[2], float(words[3]), int(words[4])).run()
    signal.signal(signal.SIGTERM, end)
    words = list(words)
    frames, seconds, minutes = int(option(words, "--frames", "1024")), float(option(words, "--seconds", "3")), option(words, "--minutes", None)
    share, part, is_good = option(words, "--share", SHARE), option(words, "--part", None), True
    is_paced = "--paced" in words
    words = [it for it in words if it != "--paced"]
    ways, clock = words or [*FILLING, *OTHERS], Clock(None if minutes is None else float(minutes))
    if part != "beside":
        is_good = full_table(ways, frames, share, is_paced, clock)
    if part != "full":
        beside_table(ways, frames, seconds, share, clock)
    if clock.left_out:
        print(f"not tried for want of time: {'; '.join(clock.left_out)}", flush=True)
    return 0 if is_good else 1


if __name__ == "__main__":
    sys.exit(main(sys.argv[1:]))
