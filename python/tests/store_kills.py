"""Kills a store's gateway, the service of one of its drives, or the bridge before one, amid puts, copies, deletions and uploads of several
threads, and while what it has is moved to a drive that was added.

After each kill, and the next start, each version that was acknowledged is there to the byte, none is there in part, what was there at
earlier moments is found so, and the drives have the objects that versions need, and no more.
"""
import hashlib
import http.client
import os
import pathlib
import random
import signal
import subprocess
import sys
import tempfile
import threading
import time
import unittest

from s4d.image import Image
from s4d.moments import machine_time
from s4d.s3.keys import keys_in
from s4d.store import Settings, make_store
from s4d.store.adding import add_drives, add_remote
from s4d.store.layout import INLINE_BYTES, LISTED_PIECES, NAMED_PIECES, PIECE_BYTES
from s4d.store.settings import ROLES, image_path, keys_path

from .bridged import PACKAGE, PATIENCE, Certificates, free_port, wait_until, words_of
from .s3_blocking import BlockingClient

THREADS = 4
KEYS = [f"deep/{number}" for number in range(6)]
LOST = (OSError, http.client.HTTPException)  # what a client meets where the gateway is killed
KINDS = ("gateway", "service", "both", "moves")
BRIDGE = "bridge"  # a kind of kill for which a store has a drive elsewhere
STARTS = 5  # of a store, where a drive elsewhere doesn't answer in its time
MOST_DRIVES = 5
MOVES = 0.5  # seconds at most from a start with a new drive to the kill
CHANGES = 24  # at most that are acknowledged before a kill
LINGER = 0.1  # seconds at most from the last of these to the kill
AWAY, FULL = 503, 507


class Serving:
    """The program that serves a store, as a process of this one."""

    def __init__(self, folder, programs, *more):
        self.folder, self.process, self.port, self.local = folder, None, None, free_port()
        self.began = 0  # how much was said before the last start
        self.words = [sys.executable, "-B", "-m", "s4d.store", "serve", folder, "--listen", "127.0.0.1:0", "--local", str(self.local),
                      "--s4", programs.s4, "--s4serve", programs.s4serve, *more]
        self.past = []  # the ports of gateways of a moment
        self.key, = keys_in(keys_path(folder)).values()

    def start(self):
        with open(f"{self.folder}.said", "ab") as said:
            self.began = said.tell()
            self.process = subprocess.Popen(self.words, cwd=PACKAGE, stdout=subprocess.PIPE, stderr=said, text=True)
        ready = self.process.stdout.readline()
        while ready.startswith("at "):
            self.past.append(int(ready.rpartition(":")[2]))
            ready = self.process.stdout.readline()
        if not ready.startswith("ready"):
            self.ended()
            raise AssertionError(f"the store isn't served: {self.said()}")
        self.port = int(ready.rpartition(":")[2])

    def client(self, **more):
        return BlockingClient(self.port, self.key, **more)

    def said(self):
        """What it has said on standard error."""
        return pathlib.Path(f"{self.folder}.said").read_text(encoding="utf-8")

    def status(self, path):
        """What it answers on its local port: the status and the text."""
        connection = http.client.HTTPConnection("127.0.0.1", self.local, timeout=PATIENCE)
        connection.request("GET", path)
        reply = connection.getresponse()
        text = reply.read().decode()
        connection.close()
        return reply.status, text

    def kill(self):
        self.process.kill()
        self.ended()

    def stop(self):
        """Ends it in order: its status."""
        self.process.send_signal(signal.SIGTERM)
        return self.ended()

    def ended(self):
        status = self.process.wait(PATIENCE)
        self.process.stdout.close()
        return status

    def kill_service(self, number):
        """Kills the service of a drive: the numbers of its processes."""
        found = self.services(number)
        for pid in found:
            os.kill(pid, signal.SIGKILL)
        return found

    def services(self, number):
        return {pid for pid in map(int, filter(str.isdigit, os.listdir("/proc"))) if self.is_service(pid, number)}

    def is_service(self, pid, number):
        try:
            words = pathlib.Path(f"/proc/{pid}/cmdline").read_bytes().rstrip(b"\0").split(b"\0")
        except OSError:
            return False
        return words[-1] == image_path(self.folder, number).encode() and any(it.startswith(b"--door") for it in words)


class Elsewhere:
    """A drive as of another machine: its service, and before that a bridge for TLS."""

    def __init__(self, folder, programs, settings):
        self.folder, self.image, self.bridge, self.port = pathlib.Path(folder), f"{folder}/image", None, free_port()
        doors = [self.folder / "doors" / role for role in ROLES]
        for door in doors:
            door.mkdir(parents=True)
            os.mkfifo(door / "door")
        certificates = Certificates(self.folder)
        for name in ("bridge", "store"):
            certificates.make(name)
        self.files = [f"{folder}/{name}" for name in ("ca.pem", "store.pem", "store.key")]
        (self.folder / "roles").write_text("client store\n", encoding="utf-8")
        subprocess.run([programs.s4d, "new", "--window", str(settings.window), self.image, str(settings.frames)], check=True,
                       stdout=subprocess.DEVNULL)
        with open(self.folder / "said", "wb") as said:
            words = [programs.s4serve, *(f"--door={it.name}={it}" for it in doors), self.image]
            self.service = subprocess.Popen(words, stdin=subprocess.DEVNULL, stdout=subprocess.DEVNULL, stderr=said)
        wait_until(lambda: "serves" in (self.folder / "said").read_text(encoding="utf-8"), "the drive elsewhere is served")
        self.start()

    def start(self):
        """Starts the bridge, and returns once it listens."""
        files = [word for name, file in (("--cert", "bridge.pem"), ("--key", "bridge.key"), ("--client-ca", "ca.pem"), ("--roles", "roles"))
                 for word in (name, self.folder / file)]
        words = words_of(self.folder, "--log", self.folder / "log", "--tls", f"127.0.0.1:{self.port}", *files, "--handshake", PATIENCE,
                         "--wait", PATIENCE)
        self.bridge = subprocess.Popen(words, cwd=PACKAGE, stdout=subprocess.PIPE, stderr=subprocess.DEVNULL, text=True)
        if self.bridge.stdout.readline() != "ready\n":
            self.close()
            raise AssertionError("the bridge doesn't listen")

    def kill(self):
        """Kills the bridge."""
        self.bridge.kill()
        self.bridge.wait()
        self.bridge.stdout.close()

    def close(self):
        if self.bridge is not None and self.bridge.poll() is None:
            self.kill()
        self.service.kill()
        self.service.wait()


class Known:
    """What was acknowledged: the key and the contents of each version, by its id; no contents where it is a marker."""

    def __init__(self):
        self.lock, self.versions = threading.Lock(), {}
        self.uploads = {}  # key, digest and contents of the only part of uploads that nobody has completed
        self.is_stopping, self.is_full, self.faults = False, False, []

    def add(self, id, key, data):
        with self.lock:
            self.versions[id] = (key, data)

    def any(self, draw):
        """Some version that isn't a marker, or None: its id, its key and its contents."""
        with self.lock:
            found = [(id, *it) for id, it in self.versions.items() if it[1] is not None]
        return draw.choice(found) if found else None


class Worker(threading.Thread):
    """A client that changes keys until it is to end, or the gateway is gone."""

    def __init__(self, serving, known, draw):
        super().__init__(daemon=True)
        self.client, self.known, self.draw = serving.client(), known, draw

    def run(self):
        works = [self.put] * 5 + [self.upload] * 2 + [self.copy] * 2 + [self.delete]
        try:
            while not self.known.is_stopping and not self.known.is_full:
                self.draw.choice(works)(self.draw.choice(KEYS))
        except LOST:
            pass
        except BaseException as error:
            self.known.faults.append(f"a client failed: {error!r}")
        finally:
            self.client.close()

    def ask(self, *words, **more):
        """The reply where it is done; None where a drive is away, or the store is full. Others are faults."""
        reply = self.client.ask(*words, **more)
        if reply.status == FULL:
            self.known.is_full = True
        elif reply.status == AWAY:
            time.sleep(0.02)
        elif reply.status >= 300:
            self.known.faults.append(f"{words[0]} {words[1]}: {reply.status} {reply.body!r}")
        return reply if reply.status < 300 and b"<Error>" not in reply.body else None

    def contents(self):
        longest = self.draw.choice((INLINE_BYTES, INLINE_BYTES, 20_000, 250_000))
        length = self.draw.randrange(longest)
        return self.draw.getrandbits(8 * length + 8).to_bytes(length + 1, "big")[1:]

    def put(self, key):
        data = self.contents()
        reply = self.ask("PUT", f"/one/{key}", data)
        if reply is not None:
            self.known.add(reply.headers["x-amz-version-id"], key, data)

    def copy(self, key):
        found = self.known.any(self.draw)
        if found is None:
            return
        id, source, data = found
        reply = self.ask("PUT", f"/one/{key}", x_amz_copy_source=f"/one/{source}?versionId={id}", x_amz_metadata_directive="REPLACE")
        if reply is not None:
            self.known.add(reply.headers["x-amz-version-id"], key, data)

    def delete(self, key):
        reply = self.ask("DELETE", f"/one/{key}")
        id = reply.headers.get("x-amz-version-id") if reply is not None else None
        if id is not None:
            self.known.add(id, key, None)

    def upload(self, key):
        """An upload of one part, which may be replaced before it is completed, or be left for later."""
        path = f"/one/{key}"
        begun = self.ask("POST", path, query=[("uploads", "")])
        if begun is None:
            return
        id, = begun.all("UploadId")
        for _ in range(self.draw.randrange(1, 3)):
            data = self.contents()
            part = self.ask("PUT", path, data, [("partNumber", "1"), ("uploadId", id)])
            if part is None:
                return
        if self.draw.random() < 0.8:
            self.complete(id, key, part.headers["etag"], data)
        else:
            self.known.uploads[id] = (key, part.headers["etag"], data)

    def complete(self, id, key, etag, data):
        body = f"<CompleteMultipartUpload><Part><PartNumber>1</PartNumber><ETag>{etag}</ETag></Part></CompleteMultipartUpload>"
        done = self.ask("POST", f"/one/{key}", body.encode(), [("uploadId", id)])
        if done:
            self.known.add(done.headers["x-amz-version-id"], key, data)


def pieces_of(size, etag):
    """How many objects the contents of a version have beside its head. Those of an upload's part are never in the head."""
    if size <= INLINE_BYTES and "-" not in etag:
        return 0
    count = -(-size // PIECE_BYTES)
    return count + (-(-count // LISTED_PIECES) if count > NAMED_PIECES else 0)


def etag_of(data, kind):
    """The digest that a version of these contents has, put at once or as an upload of one part."""
    digest = hashlib.md5(data)
    return digest.hexdigest() if "-" not in kind else f"{hashlib.md5(digest.digest()).hexdigest()}-1"


def listed(client):
    """All versions that a list has: rows of key, id, digest (None of a marker), size, and whether it is the current one."""
    rows, query = [], [("versions", "")]
    while True:
        reply = client.ask("GET", "/one", query=query)
        assert reply.status == 200, reply.body
        for row in reply.all("Version") + reply.all("DeleteMarker"):
            text = {name: row.partition(f"<{name}>")[2].partition("</")[0] for name in ("Key", "VersionId", "ETag", "Size", "IsLatest")}
            etag = text["ETag"].replace("&quot;", "").strip('"') or None
            rows.append((text["Key"], text["VersionId"], etag, int(text["Size"] or 0), text["IsLatest"] == "true"))
        if reply.all("IsTruncated") != ["true"]:
            return rows
        markers = [("key-marker", "NextKeyMarker"), ("version-id-marker", "NextVersionIdMarker")]
        query = [("versions", ""), *((name, reply.all(member)[0]) for name, member in markers)]


class Trial:
    """A store, what it acknowledged, and its faults."""

    def __init__(self, folder, programs, draw, has_elsewhere=False, drives=2, frames=1_024):
        self.folder, self.programs, self.draw, self.drives = folder, programs, draw, drives
        self.known, self.read = Known(), set()  # ids of versions whose bytes were looked at
        self.moments = []  # after kills, and the keys with their digests that were there at each
        settings = Settings(drives, frames, "30d")
        make_store(folder, settings, programs)
        self.elsewhere, self.elsewhere_number = None, None
        if has_elsewhere:
            self.elsewhere, self.elsewhere_number = Elsewhere(f"{folder}.elsewhere", programs, settings), drives
            self.drives = add_remote(folder, f"tls:127.0.0.1:{self.elsewhere.port}", self.elsewhere.files, programs)
        self.serving = Serving(folder, programs, "--rebalance")
        self.start()
        assert self.serving.client().ask("PUT", "/one").status == 200

    @property
    def faults(self):
        return self.known.faults

    def start(self):
        """Starts the store. A drive elsewhere has its time to answer: where this machine doesn't give it that, it is started again."""
        for left in reversed(range(1 if self.elsewhere is None else STARTS)):
            try:
                return self.serving.start()
            except AssertionError:
                if not left:
                    raise

    def image(self, number):
        """The path of a drive's image."""
        return self.elsewhere.image if number == self.elsewhere_number else image_path(self.folder, number)

    def kill(self, kind):
        """A kill while the threads work, and the next start: what is wrong after it is in `faults`."""
        if kind == "moves":
            self.add_drive()
        wanted = len(self.known.versions) + self.draw.randrange(1, CHANGES)
        workers = [Worker(self.serving, self.known, random.Random(self.draw.random())) for _ in range(THREADS)]
        for it in workers:
            it.start()
        while kind != "moves" and len(self.known.versions) < wanted and any(it.is_alive() for it in workers):
            time.sleep(0.002)
        time.sleep(self.draw.random() * (LINGER if kind != "moves" else MOVES))
        number = self.draw.choice([it for it in range(self.drives) if it != self.elsewhere_number])
        killed = self.serving.kill_service(number) if kind in ("service", "both") else set()
        if kind == BRIDGE:
            self.elsewhere.kill()
        if kind in ("service", BRIDGE):
            time.sleep(self.draw.random())  # they go on with the other drives meanwhile
        else:
            self.serving.kill()
        if kind == BRIDGE:
            self.elsewhere.start()
        self.end_all(workers)
        if kind in ("service", BRIDGE):
            self.wait_for_drives(number, killed)
        else:
            self.start_again()
        self.look(kind)

    def add_drive(self):
        """Serves the store anew with a drive more, as long as it has few."""
        self.serving.stop()
        if self.drives < MOST_DRIVES:
            self.drives = add_drives(self.folder, 1, self.programs)
        self.start()

    def end_all(self, workers):
        self.known.is_stopping = True
        for it in workers:
            it.join(PATIENCE)
        self.known.is_stopping = False

    def start_again(self):
        if self.draw.random() < 0.3:  # a start that is cut as well
            self.serving.process = subprocess.Popen(self.serving.words, cwd=PACKAGE, stdout=subprocess.PIPE, stderr=subprocess.DEVNULL)
            time.sleep(self.draw.random())
            self.serving.kill()
        self.start()

    def wait_for_drives(self, number, killed):
        """Returns once all drives are served again, and what was in doubt is settled: a list has it then."""
        end = time.monotonic() + PATIENCE
        while not self.serving.services(number) - killed or self.serving.status("/health")[0] != 200:
            if time.monotonic() > end:
                raise AssertionError("a drive isn't served again")
            time.sleep(0.1)
        client = self.serving.client()
        for key in KEYS:
            client.ask("HEAD", f"/one/{key}")
        client.close()

    def look(self, kind):
        client = self.serving.client()
        rows = listed(client)
        there = {id: (key, etag, size) for key, id, etag, size, _ in rows}
        for id, (key, data) in self.known.versions.items():
            etag = there.get(id, ("", "", 0))[1]
            right = (key, None, 0) if data is None else (key, etag_of(data, etag or ""), len(data))
            if there.get(id) != right:
                self.faults.append(f"version {id} of {key} is {there.get(id)}, not {right}")
        for row in rows:
            self.look_at(client, row)
        self.look_back(client, {key: etag for key, _, etag, _, is_latest in rows if is_latest and etag is not None})
        client.close()
        if kind not in ("service", BRIDGE):
            self.wait_for_moves()
            self.look_for_leftovers(rows, *self.look_at_uploads())
            self.complete_uploads()

    def look_at_uploads(self):
        """Each upload that was left has its part. How many records all of them need, and how many pieces."""
        client, found, pieces = self.serving.client(), {}, 0
        for row in client.ask("GET", "/one", query=[("uploads", "")]).all("Upload"):
            key, id = (row.partition(f"<{name}>")[2].partition("</")[0] for name in ("Key", "UploadId"))
            parts = client.ask("GET", f"/one/{key}", query=[("uploadId", id)])
            found[id] = (key, [it.replace("&quot;", '"') for it in parts.all("ETag")])
            pieces += sum(-(-int(size) // PIECE_BYTES) for size in parts.all("Size"))
        for id, (key, etag, _) in self.known.uploads.items():
            if found.get(id) != (key, [etag]):
                self.faults.append(f"upload {id} of {key} has {found.get(id)}, not {etag}")
        client.close()
        return sum(1 + len(etags) for _, etags in found.values()), pieces

    def complete_uploads(self):
        """Completes the half of those that were left: they are versions as others from then on."""
        worker = Worker(self.serving, self.known, self.draw)
        for id in [it for it in self.known.uploads if self.draw.random() < 0.5]:
            worker.complete(id, *self.known.uploads.pop(id))
        worker.client.close()

    def wait_for_moves(self):
        """Returns once the server that was started last has moved what there was to move."""
        end = time.monotonic() + PATIENCE
        while "s4store: moved " not in self.serving.said()[self.serving.began:]:
            if time.monotonic() > end:
                raise AssertionError(f"nothing says what was moved: {self.serving.said()}")
            time.sleep(0.02)

    def look_at(self, client, row):
        """Each version is read when it is seen first, and some later again: none is there in part."""
        key, id, etag, size, _ = row
        if etag is None or (id in self.read and self.draw.random() > 0.05):
            return
        self.read.add(id)
        reply = client.ask("GET", f"/one/{key}", query=[("versionId", id)])
        data = self.known.versions.get(id, (key, reply.body))[1]
        if (reply.status, len(reply.body), etag_of(reply.body, etag)) != (200, size, etag) or reply.body != data:
            self.faults.append(f"version {id} of {key} has {len(reply.body)} bytes, status {reply.status}: {reply.body[:300]!r}")

    def look_back(self, client, now):
        """What was there after earlier kills is found so at their moments."""
        for moment, then in self.draw.sample(self.moments, min(2, len(self.moments))):
            reply = client.ask("GET", "/one", query=[("list-type", "2")], x_s4_at=str(moment))
            found = dict(zip(reply.all("Key"), (it.replace("&quot;", "").strip('"') for it in reply.all("ETag"))))
            if reply.status != 200 or found != then:
                self.faults.append(f"at {moment} there are {found}, status {reply.status}, not {then}")
        self.moments.append((machine_time(), now))

    def look_for_leftovers(self, rows, records, parts):
        """After a start the drives have the pieces of the current versions and of uploads, what says that these are there, and the
        bucket. A key has one head, or several where it was moved, of which each has a version.
        """
        pieces = sum(pieces_of(size, etag) for _, _, etag, size, is_latest in rows if is_latest and etag is not None)
        right = {"B": 1, "P": pieces + parts, "U": records, "S": self.drives}
        found = dict.fromkeys([*right, "H"], 0)
        for number in range(self.drives):
            for row in Image(self.image(number), s4=self.programs.s4).list():
                found[chr(row.attribute[0])] += 1
        heads = found.pop("H")
        if found != right or not len({key for key, *_ in rows}) <= heads <= len(rows):
            self.faults.append(f"the drives have {heads} heads and {found}, not {right}")

    def end(self):
        """All that was acknowledged is looked at once more; and the gateway ends in order."""
        self.read.clear()
        self.look("service")
        if self.serving.stop() != 0:
            self.faults.append("the gateway doesn't end in order")

    def close(self):
        """Ends what is there, whatever went wrong."""
        if self.serving.process.poll() is None:
            self.serving.kill()
        for number in range(self.drives):
            self.serving.kill_service(number)
        if self.elsewhere is not None:
            self.elsewhere.close()


class Killing(unittest.TestCase):
    def kill(self, count, kinds, make):
        """So many kills, unless STORE_KILLS in the environment says how many."""
        with tempfile.TemporaryDirectory() as folder:
            count = int(os.environ.get("STORE_KILLS", count))
            faults, kills, versions = run_kills(f"{folder}/store", make(folder), random.Random(1), count, kinds)
        self.assertEqual((faults, kills), ([], count))
        self.assertGreaterEqual(versions, count)


def run_kills(folder, programs, draw, count, kinds=KINDS):
    """So many kills of a new store in a folder, fewer where it is full: the faults, how many kills, and how many versions."""
    trial, kills = Trial(folder, programs, draw, BRIDGE in kinds), 0
    try:
        while kills < count and not trial.known.is_full and not trial.faults:
            trial.kill(kinds[kills % len(kinds)])
            kills += 1
        if not trial.faults:
            trial.end()
    finally:
        trial.close()
    return trial.faults, kills, len(trial.known.versions)
