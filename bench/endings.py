#!/usr/bin/env python3
"""Whether each run of `s4d` ends: runs it over a small image again and again, and counts.

A run has a number, and its number is its seed. It serves one administrator's session over an image of 24 or 32 frames: a Create, some
small Writes, and a Flush of moment 0 at its end, which hides nothing and calls the cleaner for a round more. With `--sessions` it
serves 2 to 16 sessions at once, which ask small changes, Reads and flushes of the same objects, over images that are empty or have no room
left, so that changes wait for rounds. What threads do at once is no part of a seed, so a run that hung may end the next time.

A run has 20 seconds. One that hasn't ended then, and of which no thread runs or waits for a processor any more, hangs; so does one that
still runs after ten times as long. Its number, its words and what each of its threads waits for are printed, and it is killed. One that
ends with another status than 0, or without a reply to each request, has failed. All files are in memory. Several runs go side by
side, four for each processor where nothing else is said, so that threads are put off anywhere; `--busy` puts processes beside them that
compute and never wait.

    endings.py [--runs N] [--first K] [--sessions] [--workers N] [--busy N] [--seconds S] [PROGRAM]

Prints how many runs ended, hung and failed, and how many a second there were. The status is 0 where all ended.
"""
import argparse
import concurrent.futures
import os
import random
import select
import signal
import subprocess
import sys
import tempfile
import time
from typing import NamedTuple

import wire

FRAMES = (24, 32)
WINDOW = 20
LIMIT = 20.0  # seconds of a run
PATIENCE = 10  # limits of a run that goes on: it may only lack a processor
REST = 1.0  # seconds in which no thread of a run that hangs has run
BATCH = 50  # runs of one task of a worker
OBJECTS = 3
MOST_WRITES = 4  # of the one session
MOST_SESSIONS, MOST_ASKED = 16, 12
MEMORY = "/dev/shm"
TOLD = ("comm", "wchan", "syscall", "stack")  # of a thread that waits


class Run(NamedTuple):
    """What a run is over and what it is asked: the name of an image, and for each session its role and requests."""
    image: str
    sessions: list


class Tally(NamedTuple):
    ended: int
    hung: int
    failed: int


def put(path, data):
    with open(path, "wb", buffering=0) as file:
        file.write(data)


def bytes_of(path):
    with open(path, "rb", buffering=0) as file:
        return file.read()


# ---- what is asked

def single(number):
    """One session that ends with a Flush."""
    dice = random.Random(number)
    asked = [wire.create()] + [wire.write(1, 0, b"w" * dice.randint(1, wire.SMALL)) for _ in range(dice.randint(0, MOST_WRITES))]
    return Run(f"empty{dice.choice(FRAMES)}", [("admin", asked + [wire.flush(0, 0)])])


def request(dice):
    """One of a session among others."""
    o, data = dice.randint(1, OBJECTS), b"w" * dice.randint(1, wire.SMALL)
    kind = dice.choices(("write", "append", "create", "delete", "read", "object", "flush"), (8, 2, 2, 1, 2, 1, 1))[0]
    made = {"write": lambda: wire.write(o, 0, data), "append": lambda: wire.append(o, data), "create": wire.create,
            "delete": lambda: wire.delete(o), "read": lambda: wire.read(o, 0, wire.SMALL),
            "object": lambda: wire.flush_object(o, 0, dice.randint(0, WINDOW)), "flush": lambda: wire.flush(0, dice.randint(0, WINDOW))}
    return made[kind]()


def several(number):
    """Sessions at once, half of which end with a Flush; a client's is refused."""
    dice = random.Random(number)
    sessions = []
    for _ in range(dice.randint(2, MOST_SESSIONS)):
        asked = [request(dice) for _ in range(dice.randint(0, MOST_ASKED))]
        last = [wire.flush(0, 0)] if dice.random() < 0.5 else []
        sessions.append((dice.choice(("admin", "client")), asked + last))
    return Run(f"{dice.choice(('empty', 'full'))}{dice.choice(FRAMES)}", sessions)


def prepared(program, folder):
    """The images that runs begin with, by name: empty ones, and some that were written until no Write was taken."""
    images = {}
    asked = os.path.join(folder, "asked")
    for frames in FRAMES:
        path = os.path.join(folder, f"image{frames}")
        subprocess.run([program, "new", "--window", str(WINDOW), path, str(frames)], check=True)
        images[f"empty{frames}"] = bytes_of(path)
        writes = b"".join(wire.write(o, 0, b"w" * wire.SMALL) for o in range(1, OBJECTS + 1)) * (15 * frames)
        put(asked, wire.create() * OBJECTS + writes)
        subprocess.run([program, "run", "--no-upkeep", path, f"client:{asked}:/dev/null"], check=True)
        images[f"full{frames}"] = bytes_of(path)
    return images


# ---- runs

def waiting(process):
    """What each thread of a process waits for, as far as the system says."""
    lines = []
    for thread in sorted(os.listdir(f"/proc/{process}/task"), key=int):
        lines.append(f"  thread {thread}")
        for what in TOLD:
            try:
                with open(f"/proc/{process}/task/{thread}/{what}", encoding="ascii", errors="replace") as file:
                    lines += [f"    {what}: {line}" for line in file.read().splitlines()]
            except OSError as error:
                lines.append(f"    {what}: {error.strerror}")
    return lines


def threads(process):
    """Of each thread of a process: its number, its state, and how long it ran."""
    found = []
    for thread in os.listdir(f"/proc/{process}/task"):
        stat, schedule = (bytes_of(f"/proc/{process}/task/{thread}/{name}") for name in ("stat", "schedstat"))
        found.append((thread, stat.rpartition(b")")[2].split()[0], schedule))
    return found


def is_at_rest(process):
    """Whether no thread has run for a while, or waits for a processor."""
    try:
        before = threads(process)
        time.sleep(REST)
        return before == threads(process) and all(state != b"R" for _, state, _ in before)
    except OSError:
        return False  # a thread has ended between


def hangs(process, seconds):
    """Waits until a program has ended, or doesn't go on."""
    handle = os.pidfd_open(process)
    try:
        ready = select.poll()
        ready.register(handle, select.POLLIN)
        for _ in range(PATIENCE):
            if ready.poll(1000 * seconds):
                return False
            if is_at_rest(process):
                break
        return not ready.poll(0)
    finally:
        os.close(handle)


def status_of(words, seconds):
    """A program's exit status, and nothing; or None where it hangs, and what its threads wait for."""
    process = os.posix_spawn(words[0], words, os.environ)
    lines = []
    if hangs(process, seconds):
        lines = waiting(process)
        os.kill(process, signal.SIGKILL)
    _, status = os.waitpid(process, 0)
    return None if lines else os.waitstatus_to_exitcode(status), lines


class Worker:
    """A folder in memory, where a process makes one run after another."""

    def __init__(self, program, images, thrown, seconds):
        self.program, self.images, self.thrown, self.seconds = program, images, thrown, seconds

    def files(self, run):
        """Puts a run's files into this folder, and gives its words."""
        put("image", self.images[run.image])
        words = [self.program, "run", "image"]
        for index, (role, asked) in enumerate(run.sessions):
            put(f"in{index}", b"".join(asked))
            words.append(f"{role}:in{index}:out{index}")
        return words

    def went(self, number):
        """What came of a run, as a field of `Tally`, and lines on it where it didn't end well."""
        run = self.thrown(number)
        words = self.files(run)
        status, lines = status_of(words, self.seconds)
        told = f"run {number}: {' '.join(words[1:])}, {run.image}"
        if status is None:
            return "hung", [f"{told}: hangs", *lines]
        if status != 0:
            return "failed", [f"{told}: status {status}"]
        lacking = sum(len(asked) != len(wire.kinds(bytes_of(f"out{index}"))) for index, (_, asked) in enumerate(run.sessions))
        return ("failed", [f"{told}: {lacking} sessions without all replies"]) if lacking else ("ended", [])

    def batch(self, numbers):
        """Makes these runs in a folder of their own."""
        counts, told = {"ended": 0, "hung": 0, "failed": 0}, []
        with tempfile.TemporaryDirectory(dir=MEMORY) as folder:
            os.chdir(folder)
            for number in numbers:
                what, lines = self.went(number)
                counts[what] += 1
                told += lines
            os.chdir("/")
        return Tally(**counts), told


def begin_worker():
    """What ends the script goes to its first process alone: the others end with their runs."""
    for it in (signal.SIGINT, signal.SIGTERM):
        signal.signal(it, signal.SIG_IGN)


def count(worker, first, runs, workers):
    """Makes all runs, and gives what came of them; prints what didn't end, and how far it is. Where it is interrupted, of those so far."""
    total, rate, began = Tally(0, 0, 0), 0.0, time.monotonic()
    batches = [range(at, min(at + BATCH, first + runs)) for at in range(first, first + runs, BATCH)]
    with concurrent.futures.ProcessPoolExecutor(workers, initializer=begin_worker) as pool:
        try:
            for done in concurrent.futures.as_completed([pool.submit(worker.batch, it) for it in batches]):
                tally, lines = done.result()
                total = Tally(*map(sum, zip(total, tally)))
                if lines:
                    print("\n".join(lines), flush=True)
                rate = sum(total) / (time.monotonic() - began)
                print(f"\r{sum(total):,} of {runs:,}, {rate:.0f} a second ", end="", file=sys.stderr, flush=True)
        except KeyboardInterrupt:
            pool.shutdown(cancel_futures=True)
    print(file=sys.stderr)
    return total, rate


def interrupt(number, _):
    signal.signal(number, signal.SIG_IGN)
    raise KeyboardInterrupt


def main():
    processors = len(os.sched_getaffinity(0))
    line = argparse.ArgumentParser(description=__doc__, formatter_class=argparse.RawDescriptionHelpFormatter)
    line.add_argument("--runs", type=int, default=10_000)
    line.add_argument("--first", type=int, default=0, help="the number of the first run (0)")
    line.add_argument("--sessions", action="store_true", help="2 to 16 sessions in place of one")
    line.add_argument("--workers", type=int, default=4 * processors, help="runs side by side (four for each processor)")
    line.add_argument("--busy", type=int, default=0, help="busy processes beside them (0)")
    line.add_argument("--seconds", type=float, default=LIMIT, help=f"how long a run may take ({LIMIT:.0f})")
    line.add_argument("program", nargs="*")
    options = line.parse_args()
    program = wire.programs(options.program)[0]
    with tempfile.TemporaryDirectory(dir=MEMORY) as folder:
        images = prepared(program, folder)
    worker = Worker(program, images, several if options.sessions else single, options.seconds)
    busy = [wire.busy() for _ in range(options.busy)]
    signal.signal(signal.SIGTERM, interrupt)
    try:
        total, rate = count(worker, options.first, options.runs, options.workers)
    finally:
        for process in busy:
            process.kill()
            process.wait()
    print(f"{total.ended:,} of {sum(total):,} runs ended, {total.hung:,} hung, {total.failed:,} failed; {rate:.0f} a second,"
          f" {options.workers} side by side beside {options.busy} busy processes on {processors} processors")
    return 0 if total.ended == options.runs else 1


if __name__ == "__main__":
    sys.exit(main())
