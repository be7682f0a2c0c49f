#!/usr/bin/env python3
"""Kills a service at random moments while clients write and read, and looks that nothing is lost that it replied.

    kills.py [COUNT [SEED]]      COUNT kills (1,000) of services, one after another; S4SERVE, S4 name the programs

After 50 kills, or once it is full, another image is begun. Each client writes to an object of its own, sizes and places at random, and reads at random what all have. After each kill the image is
opened by the next service, and its past is read, by a session and by `s4 cat`. Each change that was acknowledged is there at its moment, with
the bytes that it had by a plain model; what was read stays so at its moment; and moments never go back. Prints the faults, and last how many
kills and acknowledged changes there were. Status 0: no faults; 1: some."""
import os
import random
import subprocess
import sys
import threading
import time

sys.dont_write_bytecode = True
import service  # noqa: E402
import s4d  # noqa: E402

CLIENTS = 6
LONGEST = 600  # bytes of a change
SPAN = 6_000  # bytes of an object
MOST_KILLS = 50  # over one image


class Model:
    """What a client has of its object: each acknowledged version, and changes of which no reply came."""

    def __init__(self, number, moment):
        self.object, self.versions, self.doubtful = number, [(moment, b"")], []
        self.shown = set()  # of the doubtful ones, those that somebody has read
        self.lock = threading.Lock()

    def now(self):
        return self.versions[-1][1]


def written(before, offset, data):
    padded = before.ljust(offset, b"\0")
    return padded[:offset] + data + padded[offset + len(data):]


def work(drive, model, models, draw, faults, ready, full):
    """A client's requests, until the service is gone or the drive is full."""
    try:
        for _ in range(1_000_000):
            if draw.random() < 0.3:
                other = draw.choice(models)
                with other.lock:
                    known = len(other.versions)
                seen = drive.read(other.object, 0, 24_576)
                with other.lock:
                    right = {data for _, data in other.versions[known - 1:]} | set(other.doubtful)
                    other.shown |= {seen} & set(other.doubtful)
                if seen not in right:
                    faults.append(f"object {other.object} was read as {len(seen)} bytes that it never had")
                continue
            offset, data = draw.randrange(SPAN), draw.randbytes(draw.randrange(1, LONGEST))
            with model.lock:
                after = written(model.now(), offset, data)
                model.doubtful.append(after)
            moment = drive.write(model.object, offset, data)
            with model.lock:
                if moment <= model.versions[-1][0]:
                    faults.append(f"moment {moment} of object {model.object} isn't after the one before")
                model.versions.append((moment, after))
                model.doubtful.clear()
                model.shown.clear()
            ready.set()
    except s4d.NoSpace:
        with model.lock:
            model.doubtful.pop()
        full.set()
        ready.set()
    except (s4d.Disconnected, s4d.BadReply, OSError, ValueError):
        pass


def settle(drive, model, faults):
    """After a kill the object is what was acknowledged last, or what was asked after that and wasn't answered. It is this where
    somebody has read it."""
    found = drive.read(model.object, 0, 24_576)
    if found in model.doubtful:
        model.versions.append((drive.attributes(model.object).changed, found))
    elif found != model.now():
        faults.append(f"object {model.object} is no version that was acknowledged or asked")
    elif model.shown:
        faults.append(f"object {model.object} was read as it isn't any more")
    model.doubtful.clear()
    model.shown.clear()


def past(drive, image, model, draw, faults, count):
    """Some acknowledged versions are read, by a session; and one of them from the image's file."""
    for place, (moment, data) in enumerate(draw.sample(model.versions, min(count, len(model.versions)))):
        found = drive.read(model.object, 0, 24_576, moment)
        if found != data:
            faults.append(f"object {model.object} at {moment} has {len(found)} bytes that it hadn't")
        if place == 0 and os.access(service.program("s4"), os.X_OK):
            words = [service.program("s4"), "cat", "--at", str(moment), image, str(model.object)]
            ran = subprocess.run(words, capture_output=True, check=False)
            if ran.returncode or ran.stdout != data:
                faults.append(f"object {model.object} at {moment} by s4: status {ran.returncode}, {ran.stderr.decode().strip()}")


def kill_once(it, models, draw, faults, full):
    """Clients work until the service is killed; then it is begun again. Gives how many changes were acknowledged."""
    ready = threading.Event()
    sessions = [it.session() for _ in models]
    threads = [threading.Thread(target=work, args=(drive, model, models, random.Random(draw.random()), faults, ready, full))
               for drive, model in zip(sessions, models)]
    before = sum(len(model.versions) for model in models)
    for thread in threads:
        thread.start()
    ready.wait(service.PATIENCE)
    time.sleep(draw.random() * 0.15)
    it.kill()
    for drive, thread in zip(sessions, threads):
        thread.join()
        drive.close()
    changes = sum(len(model.versions) for model in models) - before
    it.begin()
    with it.session() as drive:
        for model in models:
            settle(drive, model, faults)
        past(drive, it.image, draw.choice(models), draw, faults, 3)
    return changes


def over_one_image(count, draw, faults):
    """At most COUNT kills of services over one image: how many, and how many changes were acknowledged."""
    full, kills, changes = threading.Event(), 0, 0
    with service.Service(new=("--create", "256", "--keep", "30d"), env=service.without_waits()) as it:
        it.begin()
        models = []
        with it.session() as drive:
            for _ in range(CLIENTS):
                made = drive.create()
                models.append(Model(made.object, made.moment))
        while kills < count and not full.is_set():
            changes += kill_once(it, models, draw, faults, full)
            kills += 1
        with it.session() as drive:
            for model in models:
                past(drive, it.image, model, draw, faults, len(model.versions))
        status = it.stop()
        if status:
            faults.append(f"the service was stopped with status {status}: {it.said()}")
    return kills, changes


def main(count, seed):
    draw, faults, kills, changes = random.Random(seed), [], 0, 0
    while kills < count:
        more, acknowledged = over_one_image(min(MOST_KILLS, count - kills), draw, faults)
        kills, changes = kills + more, changes + acknowledged
    for fault in faults[:20]:
        print(fault)
    print(f"{kills} kills, {len(faults)} faults" + ("" if "--quiet" in sys.argv else f", {changes} changes were acknowledged"))
    return 1 if faults else 0


if __name__ == "__main__":
    if {"-h", "--help"} & set(sys.argv):
        print(__doc__)
        sys.exit(0)
    words = [int(it) for it in sys.argv[1:] if it.isdecimal()]
    sys.exit(main(words[0] if words else 1_000, words[1] if len(words) > 1 else 0))
