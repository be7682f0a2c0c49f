#!/usr/bin/env python3
"""How fast a store over many drives puts, gets, lists and starts, and what memory it takes.

    store.py [--seconds N] [--drives N,..] [--clients N,..] [--sizes N,..] [--frames N]    puts and gets a second
    store.py --beside NAME,.. [..]          the same of other programs over files: rclone (serve webdav), nginx (its dav module)
    store.py --pages [KEYS ..]              a page of 1,000 keys among so many
    store.py --full [DRIVES [FRAMES [STARTS]]] [--kept FOLDER]       starts (3) over drives (16) without room

S4D, S4 and S4SERVE name the programs. Puts and gets: each client is a process with one connection, which signs each request; the store keeps a
second of its past, so that room comes back. A row is a store, made for each number of drives (1 and 4), of so many frames (1,024). Each cell is N
seconds (5) of puts, and then of gets, by so many clients (1 and 16) of so many bytes (1,000 and 100,000), where the drives have room for what these
put at once, beside what they replace: puts, gets a second, and the milliseconds of the processor that each takes in all processes of the server,
which say more on a busy machine. A request that was begun counts with the time that it takes. Refused is what was answered by an error. Memory
is the most that the gateway took, and the most that one service took. The others have their files in a folder of the same disk, and sign nothing;
nginx doesn't wait for the disk, nor does rclone. Standard error has each cell as it comes, and the seconds that it took. Pages: the seconds of the
processor that a list takes in the gateway, the least of several, at the start and in the midst of the bucket, without connections and signatures;
among 8,000 and 80,000 keys. A start: each drive is given heads of objects of 100 bytes until it has no room, before it is served; then a copy of
the store is started, and again after an end in order and after a kill, and the seconds until it answers are printed, with those of the processor
that all its processes take, and the most memory of the gateway. A start after a kill waits ten seconds by itself. With --kept the full store stays
in that folder, and the next call starts it without filling it."""
import argparse
import hashlib
import http.client
import multiprocessing
import os
import random
import shutil
import signal
import subprocess
import sys
import tempfile
import time
from typing import NamedTuple

sys.dont_write_bytecode = True
import service  # noqa: E402
from s4d.image import Image  # noqa: E402
from s4d.moments import machine_time  # noqa: E402
from s4d.s3.http import Request  # noqa: E402
from s4d.s3.lists import list_keys_2, list_versions, token_of  # noqa: E402
from s4d.store import Programs, Settings, make_store  # noqa: E402
from s4d.store.found import lists_versions  # noqa: E402
from s4d.store.index import Bucket, Entry, Index, Place  # noqa: E402
from s4d.store.layout import Version, bucket_attribute, head_attribute, head_of, mark_attribute  # noqa: E402
from s4d.store.settings import image_path, settings_in  # noqa: E402
from tests.bridged import free_port  # noqa: E402
from tests.s3_blocking import SECONDS, BlockingClient  # noqa: E402
from tests.store_kills import Serving  # noqa: E402

KEYS = 10  # of each client at most
LIVE_BYTES = 1_700_000  # of all keys together, so that what a second keeps beside them has room on one drive
TRIES = 7  # of a page
FRAME_BYTES = 15 * 512  # that a frame has for what is put
SMALL = 100  # bytes of the objects that fill drives
MICROSECOND = 1_000_000
MINUTE = 60 * MICROSECOND
TOGETHER = 40  # heads that a drive is given at once
FIRST = 1_000_000  # the number of the next drive's first key
KEYS_METRIC = "s4_store_keys "
DONE = (200, 201, 204)
SAID = {"rclone": "`rclone serve webdav`", "nginx": "nginx, `dav`"}
NGINX = """daemon off; user root; pid {folder}/pid; error_log {folder}/errors; events {{}}
http {{ access_log off; client_max_body_size 0; keepalive_requests 1000000; client_body_temp_path {folder}/temp; proxy_temp_path {folder}/temp;
fastcgi_temp_path {folder}/temp; uwsgi_temp_path {folder}/temp; scgi_temp_path {folder}/temp;
server {{ listen 127.0.0.1:{port}; root {folder}/files; location / {{ dav_methods PUT DELETE; }} }} }}
"""


def programs():
    return Programs(*map(service.program, ("s4d", "s4", "s4serve")))


def keys_of_each(clients, size):
    return max(1, min(KEYS, LIVE_BYTES // (clients * size)))


class FileClient:
    """A client of a program that serves files, with the method of a store's client that is used here."""

    def __init__(self, port):
        self.connection = http.client.HTTPConnection("127.0.0.1", port, timeout=SECONDS)

    def ask(self, method, path, body=b""):
        self.connection.request(method, path, body)
        reply = self.connection.getresponse()
        reply.read()
        return reply


class FileServing:
    """A program that serves the files of a folder. It has no key."""

    key = None

    def __init__(self, name, folder):
        self.port = free_port()
        for it in ("files/one", "temp"):
            os.makedirs(f"{folder}/{it}")
        words = ["rclone", "serve", "webdav", f"{folder}/files", "--addr", f"127.0.0.1:{self.port}", "--config", "/dev/null"]
        if name == "nginx":
            with open(f"{folder}/nginx.conf", "w", encoding="ascii") as file:
                file.write(NGINX.format(folder=folder, port=self.port))
            words = [shutil.which("nginx") or "/usr/sbin/nginx", "-p", folder, "-c", f"{folder}/nginx.conf"]
        with open(f"{folder}/said", "wb") as said:
            self.process = subprocess.Popen(words, stdout=said, stderr=said, stdin=subprocess.DEVNULL)
        end = time.monotonic() + SECONDS
        while not self.answers():
            if self.process.poll() is not None or time.monotonic() > end:
                self.process.kill()
                with open(f"{folder}/said", encoding="utf-8", errors="replace") as said:
                    sys.exit(f"store.py: {name} doesn't answer: {said.read()[:500]}")
            time.sleep(0.05)

    def answers(self):
        try:
            return FileClient(self.port).ask("GET", "/one/none").status == 404
        except OSError:
            return False

    def client(self):
        return FileClient(self.port)

    def stop(self):
        self.process.terminate()
        self.process.wait()


def work(port, key, name, keys, kind, size, seconds, ready, counts):
    """A client's requests of its keys for so long, one at least, once all clients are ready: how many were done a second, and how many refused."""
    client = client_of(port, key)
    draw, done, refused = random.Random(name), 0, 0
    data = draw.randbytes(size)
    ready.wait(SECONDS)
    began = time.monotonic()
    try:
        while not done + refused or time.monotonic() < began + seconds:
            reply = client.ask(kind, f"/one/{name}-{draw.randrange(keys)}", data if kind == "PUT" else b"")
            done, refused = done + (reply.status in DONE), refused + (reply.status not in DONE)
    except (OSError, http.client.HTTPException) as error:
        print(f"client {name}: {error!r}", file=sys.stderr)
    counts.put((done / max(time.monotonic() - began, 1e-9), done, refused))


def run_clients(serving, kind, count, size, seconds):
    """Requests a second of so many clients, how many were done, and how many refused."""
    counts, ready, keys = multiprocessing.Queue(), multiprocessing.Barrier(count), keys_of_each(count, size)
    children = [multiprocessing.Process(target=work, args=(serving.port, serving.key, number, keys, kind, size, seconds, ready, counts))
                for number in range(count)]
    for it in children:
        it.start()
    found = [counts.get() for _ in children]
    for it in children:
        it.join()
    return sum(rate for rate, *_ in found), sum(done for _, done, _ in found), sum(refused for *_, refused in found)


class Found(NamedTuple):
    """What requests of a kind came to: how many a second, the milliseconds of the processor that each took, and how many were refused."""

    rate: float
    spent: float
    refused: int


def run_kind(serving, kind, clients, size, seconds):
    before = processor_of(serving)
    rate, done, refused = run_clients(serving, kind, clients, size, seconds)
    return Found(rate, 1e3 * (processor_of(serving) - before) / max(done, 1), refused)


def processor_of(serving):
    """The seconds of the processor that a server's process and those that it has begun have taken."""
    return sum(map(seconds_of_process, family(serving.process.pid)))


def family(pid):
    """A process, and those that it has begun."""
    with open(f"/proc/{pid}/task/{pid}/children", encoding="ascii") as file:
        return [pid, *(it for child in file.read().split() for it in family(int(child)))]


def seconds_of_process(pid):
    with open(f"/proc/{pid}/stat", encoding="ascii") as file:
        words = file.read().rpartition(")")[2].split()
    return (int(words[11]) + int(words[12])) / os.sysconf("SC_CLK_TCK")


def most_memory(pid):
    """The most KiB that a process has taken."""
    with open(f"/proc/{pid}/status", encoding="ascii") as lines:
        return next((int(line.split()[1]) for line in lines if line.startswith("VmHWM")), 0)


def fill_keys(serving, clients, size):
    """Puts each key that clients will get."""
    children = [multiprocessing.Process(target=fill_one, args=(serving.port, serving.key, number, keys_of_each(clients, size), size))
                for number in range(clients)]
    for it in children:
        it.start()
    for it in children:
        it.join()


def client_of(port, key):
    return BlockingClient(port, key) if key is not None else FileClient(port)


def fill_one(port, key, name, keys, size):
    client = client_of(port, key)
    for number in range(keys):
        client.ask("PUT", f"/one/{name}-{number}", bytes(size))


def measure(drives, found):
    with tempfile.TemporaryDirectory() as folder:
        make_store(f"{folder}/store", Settings(drives, found.frames, "1s"), programs())
        serving = Serving(f"{folder}/store", programs())
        serving.start()
        try:
            serving.client().ask("PUT", "/one")
            cells = run_all(serving, counted(drives, "drive"), found, drives * found.frames * FRAME_BYTES)
            services = max(most_memory(pid) for number in range(drives) for pid in serving.services(number))
            print_row([counted(drives, "drive"), *cells, f"{most_memory(serving.process.pid):,}, {services:,}"])
        finally:
            serving.stop()


def run_all(serving, said, found, room=None):
    """The cells of puts and gets of each size by each number of clients, where there is room for that."""
    cells = []
    for clients, size in columns(found):
        began = time.monotonic()
        if room is not None and 3 * clients * size > room:
            cells.append("no room")
        else:
            fill_keys(serving, clients, size)
            cells.append(cell_of(*(run_kind(serving, kind, clients, size, found.seconds) for kind in ("PUT", "GET"))))
        print(f"{said}, {column_of(clients, size)}: {cells[-1]}, after {time.monotonic() - began:.1f} s", file=sys.stderr, flush=True)
    return cells


def beside(name, found):
    with tempfile.TemporaryDirectory() as folder:
        os.chmod(folder, 0o755)
        serving = FileServing(name, folder)
        try:
            cells = run_all(serving, name, found)
            print_row([SAID[name], *cells, f"{max(map(most_memory, family(serving.process.pid))):,}"])
        finally:
            serving.stop()


def columns(found):
    return [(clients, size) for size in found.sizes for clients in found.clients]


def column_of(clients, size):
    return f"{counted(clients, 'client')}, {size:,} bytes"


def counted(count, name):
    return f"{count} {name}" + ("s" if count > 1 else "")


def cell_of(puts, gets):
    refused = puts.refused + gets.refused
    return (f"{shown(puts.rate)}, {shown(gets.rate)}; {shown(puts.spent)}, {shown(gets.spent)} ms"
            + (f"; {refused} refused" if refused else ""))


def shown(number):
    """A number of two digits or more."""
    return f"{number:,.{0 if number >= 9.95 else 1 if number >= 0.995 else 2}f}"


def print_row(cells):
    print(f"| {' | '.join(cells)} |", flush=True)


def print_head(found):
    print_row(["", *(column_of(*it) for it in columns(found)), "KiB: gateway, a service"])
    print("|---" * (len(columns(found)) + 2) + "|", flush=True)


def bucket_of(keys):
    """A bucket of an index that has so many keys, of two versions each."""
    index, names = Index(30 * 86_400 * MICROSECOND), [f"folder-{number % 97}/file-{number}" for number in range(keys)]
    index.buckets["one"] = Bucket("one", Place(0, 1), 0)
    for moment, name in enumerate(sorted(names * 2), 1):
        version = Version("one", name, 1, f"{moment:032x}", moment, SMALL, "0" * 32, contents=bytes(SMALL))
        index.add(Entry(version, Place(0, moment), moment))
    return index.buckets["one"]


def seconds_of(call, *words):
    """The least seconds of the processor that a call takes, of several."""
    found = []
    for _ in range(TRIES):
        began = time.process_time()
        call(*words)
        found.append(time.process_time() - began)
    return min(found)


def pages(counts):
    for keys in counts:
        bucket = bucket_of(keys)
        middle, last = bucket.names[keys // 2], 2 * keys
        for said, query in (("at the start", []), ("in the midst", [("continuation-token", token_of(middle))]),
                            ("joined by a delimiter", [("delimiter", "/")])):
            request = Request("GET", "/one", "/one", [("list-type", "2"), *query], {}, True)
            print(f"{keys:,} keys, a page {said}: {1e3 * seconds_of(list_keys_2, bucket, request, None):.1f} ms, "
                  f"at the last moment {1e3 * seconds_of(list_keys_2, bucket, request, last):.1f} ms")
        request = Request("GET", "/one", "/one", [("versions", ""), ("key-marker", middle)], {}, True)
        print(f"{keys:,} keys, a page of versions: {1e3 * seconds_of(list_versions, bucket, request, None):.1f} ms", flush=True)


def fill_drive(folder, number, first):
    """Fills a drive, which nobody serves, with heads of small objects until one has no room, and drive 0 with the bucket: how many."""
    settings, named = settings_in(folder), programs()
    image = Image(image_path(folder, number), named.s4d, named.s4)
    with image.session(tick=machine_time() - MINUTE) as drive:  # its moments are times from then on
        last = drive.create(mark_attribute(settings.id, number)).object
    with image.session(tick=1, upkeep=False) as drive:
        if not number:
            last = drive.create(bucket_attribute("one")).object
        return fill_session(drive, first, last)


def fill_session(drive, first, last):
    """Puts heads of keys, counted from a number on, into new objects after the last one, until one has no room: how many."""
    count = 0
    while True:
        with drive.pipeline() as batch:
            written = [put_head(batch, small_version(first + count + it), last + count + it + 1) for it in range(TOGETHER)]
        done = sum(it.refusal() is None for it in written)
        count += done
        if done < TOGETHER:
            return count


def put_head(batch, version, number):
    """Makes the object that has the next number, and writes a head to it."""
    batch.create(head_attribute(version.bucket, version.key))
    return batch.write(number, 0, head_of(version))


def small_version(number):
    """The first version of a key with few bytes."""
    data = number.to_bytes(SMALL, "big")
    return Version("one", f"folder-{number % 97}/file-{number}", 1, f"{number:032x}", machine_time() - MINUTE, SMALL,
                   hashlib.md5(data).hexdigest(), contents=data)


def full(drives, frames, starts, kept):
    """Starts of a copy of the full store that a folder keeps; it is made there where there is none yet."""
    with tempfile.TemporaryDirectory() as folder:
        kept = kept or f"{folder}/kept"
        if not os.path.exists(f"{kept}/objects"):
            fill_store(kept, drives, frames)
        with open(f"{kept}/objects", encoding="ascii") as file:
            count = int(file.read())
        settings = settings_in(f"{kept}/store")
        print(f"{settings.drives} drives of {settings.frames} frames, full of {count:,} objects", flush=True)
        subprocess.run(["cp", "-a", f"{kept}/store", f"{folder}/store"], check=True)
        start_full(Serving(f"{folder}/store", programs()), count, starts)


def fill_store(folder, drives, frames):
    """Makes a store whose drives are full, and a file that says of how many objects."""
    began = time.monotonic()
    os.makedirs(folder, exist_ok=True)
    make_store(f"{folder}/store", Settings(drives, frames, "30d"), programs())
    with multiprocessing.Pool() as pool:
        counts = pool.starmap(fill_drive, [(f"{folder}/store", number, number * FIRST) for number in range(drives)], 1)
    with open(f"{folder}/objects", "w", encoding="ascii") as file:
        file.write(f"{sum(counts)}\n")
    print(f"filled in {time.monotonic() - began:.1f} s", file=sys.stderr, flush=True)


def start_full(serving, count, starts):
    """Starts a store so often, again after an end in order and after a kill, and looks that it has so many objects."""
    way = "a list of versions" if lists_versions(programs().s4) else "asking for versions"
    ways = [("first start", None), ("start after an end in order", serving.stop), ("start after a kill", serving.kill)]
    try:
        for how, end in ways[:starts]:
            if end is not None:
                end()
            began = time.monotonic()
            serving.start()
            seconds = time.monotonic() - began
            print(f"a {how}, by {way}: {seconds:.1f} s, and {processor_of(serving):.1f} s of the processor; {most_memory(serving.process.pid):,} KiB",
                  flush=True)
            found = keys_found(serving)
            if found != count:
                sys.exit(f"store.py: {found:,} objects are found, not {count:,}")
    finally:
        if serving.process is not None and serving.process.poll() is None:
            serving.stop()


def keys_found(serving):
    """How many keys the bucket has, by its status page."""
    text = serving.status("/metrics")[1]
    return int(next(line.rpartition(" ")[2] for line in text.splitlines() if line.startswith(KEYS_METRIC)))


def numbers(text):
    return [int(it) for it in text.split(",")]


def main(words):
    options = argparse.ArgumentParser(description=__doc__, formatter_class=argparse.RawDescriptionHelpFormatter)
    options.add_argument("--seconds", type=float, default=5.0)
    options.add_argument("--drives", type=numbers, default=[1, 4])
    options.add_argument("--clients", type=numbers, default=[1, 16])
    options.add_argument("--sizes", type=numbers, default=[1_000, 100_000])
    options.add_argument("--frames", type=int, default=1_024)
    options.add_argument("--beside", type=lambda text: text.split(","), default=[])
    options.add_argument("--pages", type=int, nargs="*", metavar="KEYS")
    options.add_argument("--full", type=int, nargs="*", metavar="N")
    options.add_argument("--kept", metavar="FOLDER")
    found = options.parse_args(words)
    if found.pages is not None:
        pages(found.pages or [8_000, 80_000])
    elif found.full is not None:
        full(*(found.full + [16, 1_024, 3][len(found.full):]), found.kept)
    else:
        print_head(found)
        for drives in [] if found.beside else found.drives:
            measure(drives, found)
        for name in found.beside:
            beside(name, found)


if __name__ == "__main__":
    signal.signal(signal.SIGTERM, lambda number, _: sys.exit(128 + number))  # what was started is ended
    main(sys.argv[1:])
