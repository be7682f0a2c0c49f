#!/usr/bin/env python3
"""Whether upkeep keeps pace with a session that never pauses: how many of its small Writes are taken, and in what time.

One session of `s4d run` writes 100 bytes at the same place of each of 16 objects in turn, a million times, over a new image with a
window of 100 moments; each request takes one. For each number of frames a line says how many Writes were taken, how many refused as
NoSpace and as ChainFull, and the seconds by the clock of the run without those of a run whose session asks nothing. The figures
depend on what else the machine does.

With `--many` it is one of 15,000 objects on 1,024 frames that is written, 100,000 times; the others have no history left then. So the
seconds are what rounds cost that have one object to clean.

Beside it: what a million Writes would take that need no upkeep, by the time of 7,488 Writes (all that 1,024 frames take) of a run
without upkeep, the shortest of some trials; and a million Reads of 100 bytes without upkeep and with it.

With `--deleting` the session makes 3,000 files of 300 bytes on 64 frames, with a window of 400 moments, and deletes each 60 files later:
how many of these 8,940 requests are accepted, and the same where an administrator's Flush that hides nothing follows each 20th
file. A file's number is known before, so that after a Create that was refused all files have another: then requests are NoObject.

With `--busy` a program has one processor, which a process beside it wants, too, that computes and never waits. A run whose session asks
nothing, over 1,000 and 15,180 objects that were made, and a million Writes on 64 frames: seconds by the clock and of the processor, and
how many times as many the first are, without that process and beside it. A run is ended after 300 seconds. And by `strace` the calls to the
system of the run over 15,180 objects, with those of the same run without upkeep taken away.

With `--worst` a client waits for the reply to each Write of 100 bytes before it asks the next, from the begin of the run on: 4,000 Writes to 16
of 14,000 objects that were made, on 1,024 frames; and Writes to one object on 64 frames while another session asks 200,000 to 16 others.
A line says how many milliseconds half of the Writes took at most, 99 of 100, and the longest one: by the clock, in which the client's own
time and other work on the machine are; and what the program's threads took of the processors meanwhile, which other work doesn't make
longer, and which is at least as long as the wait would be without it.

    pace.py [--count N] [PROGRAM]             N Writes and Reads in place of 1,000,000
    pace.py --many [--count N] [PROGRAM ..]   one line for each program
    pace.py --deleting [PROGRAM ..]           two lines for each program
    pace.py --busy [--count N] [PROGRAM]      N Writes in place of 1,000,000
    pace.py --worst [--count N] [PROGRAM ..]  two lines for each program; N Writes in place of 200,000
"""
import argparse
import os
import select
import shutil
import signal
import subprocess
import sys
import tempfile
import time

import wire
from wire import CHANGED, SMALL

FRAMES = (24, 64, 1_024)
OBJECTS = 16
TAKEN = 7_488  # Writes that 1,024 frames take without upkeep
TRIALS = 5
WINDOW = 100
MANY = 15_000
FILES, FILE, KEPT = 3_000, 300, 60  # how many there are, their bytes, and after how many others a file is deleted
FILE_FRAMES, FILE_WINDOW = 64, 400
FLUSHED = 20  # files between two flushes
NOT_MOVED = (1_000, 15_180)  # objects of a run that is asked nothing
LIMIT = 300  # seconds of a run beside a busy process
UNMOVED, ASKED = 14_000, 4_000  # objects that were made, and Writes that wait for their replies
NAMES = {1: "NoObject", 9: "NoSpace", 12: "ChainFull"}


def writes(count):
    return b"".join(wire.write(o, 0, b"w" * SMALL) for o in range(1, OBJECTS + 1)) * (count // OBJECTS)


def reads(count):
    return b"".join(wire.read(o, 0, SMALL) for o in range(1, OBJECTS + 1)) * (count // OBJECTS)


def put(path, data):
    with open(path, "wb") as file:
        file.write(data)


def new(program, frames, window=WINDOW):
    """A new drive's image in this folder, in place of one that is there."""
    if os.path.exists("image"):
        os.remove("image")
    subprocess.run([program, "new", "--window", str(window), "image", str(frames)], check=True)


def made(program, frames):
    """An image in this folder, with objects that were written once."""
    new(program, frames)
    put("made", wire.create() * OBJECTS + writes(OBJECTS))
    subprocess.run([program, "run", "--no-upkeep", "image", "client:made:/dev/null"], check=True)


def made_many(program):
    """An image in this folder of as many objects as there are, all of whose history is freed: rounds are taken until nothing changes."""
    new(program, 1_024)
    put("made", wire.create() * MANY)
    subprocess.run([program, "run", "--no-upkeep", "image", "client:made:/dev/null"], check=True)
    put("aged", wire.get_attr(1) * (WINDOW + 1))
    before = None
    while before != os.path.getsize("image"):
        before = os.path.getsize("image")
        subprocess.run([program, "run", "image", "client:aged:/dev/null"], check=True)


def served(program, requests, words, role="client"):
    """The seconds of a session over the image, and its replies."""
    taken = []
    for asked in (b"", requests):
        put("asked", asked)
        began = time.perf_counter()
        subprocess.run([program, "run", *words, "image", f"{role}:asked:replies"], check=True)
        taken.append(time.perf_counter() - began)
    with open("replies", "rb") as file:
        return taken[1] - taken[0], file.read()


def tallied(replies):
    """How many replies of each name there are."""
    counts, at = {}, 0
    while at < len(replies):
        size = int.from_bytes(replies[at:at + 4], "big")
        name = NAMES.get(replies[at + 5], "others") if replies[at + 4] == 0 else "taken"
        counts[name] = counts.get(name, 0) + 1
        at += 4 + size
    return counts


def print_taken(told, seconds, counts, refusals=("NoSpace", "ChainFull")):
    names = ", ".join(f"{counts.get(name, 0):,} {name}" for name in ("taken", *refusals))
    print(f"{told}: {names}, {seconds:.1f} s", flush=True)


def shortest(program, requests, words):
    """The least seconds of some trials, each over a new image of 1,024 frames."""
    taken = []
    for _ in range(TRIALS):
        made(program, 1_024)
        taken.append(served(program, requests, words)[0])
    return min(taken)


def measure_many(programs, count):
    made_many(programs[0])
    shutil.copy("image", "many")
    for program in programs:
        shutil.copy("many", "image")
        seconds, replies = served(program, wire.write(1, 0, b"w" * SMALL) * count, [])
        print_taken(program, seconds, tallied(replies))


def measure(program, count):
    for frames in FRAMES:
        made(program, frames)
        seconds, replies = served(program, writes(count), [])
        print_taken(f"{frames:,} frames", seconds, tallied(replies))
    alone = shortest(program, writes(TAKEN), ["--no-upkeep"])
    print(f"Writes that need no upkeep: {alone * count / TAKEN:.1f} s", flush=True)
    for told, words in (("without", ["--no-upkeep"]), ("with", [])):
        print(f"Reads {told} upkeep: {shortest(program, reads(count), words):.2f} s", flush=True)


# ---- files that are deleted

def files(flush):
    """The requests of all files, with this one after each 20th."""
    asked = []
    for number in range(1, FILES + 1):
        asked += [wire.create(), wire.write(number, 0, b"f" * FILE)]
        if number > KEPT:
            asked.append(wire.delete(number - KEPT))
        if number % FLUSHED == 0:
            asked.append(flush)
    return b"".join(asked)


def measure_deleting(program):
    for told, flush in (("", b""), (f" with a Flush each {FLUSHED} files", wire.flush(0, 0))):
        new(program, FILE_FRAMES, FILE_WINDOW)
        seconds, replies = served(program, files(flush), [], "admin")
        counts = tallied(replies)
        if flush:
            counts["taken"] -= FILES // FLUSHED
        print_taken(f"{program}: of {3 * FILES - KEPT:,} requests{told}", seconds, counts, ("NoSpace", "NoObject"))


# ---- one processor

def timed(words):
    """The seconds of a run by the clock and of the processor, or nothing where it was ended."""
    began = time.perf_counter()
    child = os.posix_spawn(words[0], words, os.environ)
    handle = os.pidfd_open(child)
    ready = select.poll()
    ready.register(handle, select.POLLIN)
    has_ended = ready.poll(1000 * LIMIT)
    if not has_ended:
        os.kill(child, signal.SIGKILL)
    os.close(handle)
    _, status, used = os.wait4(child, 0)
    if has_ended and status:
        sys.exit(f"pace.py: {words}: status {os.waitstatus_to_exitcode(status)}")
    return (time.perf_counter() - began, used.ru_utime + used.ru_stime) if has_ended else None


def told_times(times):
    if times is None:
        return f"ended after {LIMIT} s"
    clock, processor = times
    return f"{clock:.2f} s, {processor:.2f} of the processor, {clock / processor:.1f} times"


def print_busy(told, words):
    """Prints the times of a run over the image in this folder, without a busy process and beside one."""
    shutil.copy("image", "before")
    alone = timed(words)
    shutil.copy("before", "image")
    with wire.busy() as busy:
        beside = timed(words)
        busy.kill()
    shutil.copy("before", "image")
    print(f"{told}: {told_times(alone)}; beside a busy process {told_times(beside)}", flush=True)


def calls(words):
    """How many calls to the system a run makes, of all threads, by name."""
    subprocess.run(["strace", "-f", "-c", "-o", "counted", *words], check=True)
    with open("counted", encoding="ascii") as file:
        rows = [line.split() for line in file if line[:1] == " "]
    return {row[-1]: int(row[3]) for row in rows if len(row) > 4 and row[-1] != "total" and row[3].isdigit()}


def print_calls(told, program):
    """Prints the calls to the system of upkeep: those of a run with it, less those of a run without."""
    shutil.copy("image", "before")
    counts = []
    for words in ([], ["--no-upkeep"]):
        shutil.copy("before", "image")
        counts.append(calls([program, "run", *words, "image", "client:/dev/null:/dev/null"]))
    more = {name: count - counts[1].get(name, 0) for name, count in counts[0].items()}
    most = ", ".join(f"{more[name]:,} {name}" for name in sorted(more, key=more.get, reverse=True)[:5])
    print(f"{told}: {sum(more.values()):,} calls to the system of upkeep: {most}", flush=True)


def measure_busy(program, count):
    processor = min(os.sched_getaffinity(0))
    os.sched_setaffinity(0, {processor})
    idle = [program, "run", "image", "client:/dev/null:/dev/null"]
    for objects in NOT_MOVED:
        new(program, 1_024)
        put("made", wire.create() * objects)
        subprocess.run([program, "run", "--no-upkeep", "image", "client:made:/dev/null"], check=True)
        print_busy(f"{objects:,} objects", idle)
    print_calls(f"{objects:,} objects", program)
    made(program, 64)
    put("asked", writes(count))
    print_busy(f"{count:,} Writes", [program, "run", "image", "client:asked:/dev/null"])


# ---- Writes that wait for their replies

def replied(source):
    size = int.from_bytes(source.read(4), "big")
    return source.read(size)


def used(process):
    """The seconds that this process took of the processors so far."""
    return time.clock_gettime((~process << 3) | 2)


def waits(words, writes):
    """The milliseconds of each of these Writes, in a session of a run that begins with it: by the clock, and of the processors. And their
    replies."""
    for path in ("asks", "says"):
        if not os.path.exists(path):
            os.mkfifo(path)
    taken, spent, replies = [], [], []
    with subprocess.Popen(words) as child, open("asks", "wb", 0) as sink, open("says", "rb") as source:
        sink.write(wire.get_attr(1))
        replied(source)
        for write in writes:
            before, began = used(child.pid), time.perf_counter()
            sink.write(write)
            replies.append(wire.frame(replied(source)))
            taken.append(1000 * (time.perf_counter() - began))
            spent.append(1000 * (used(child.pid) - before))
        sink.close()
    if child.returncode:
        sys.exit(f"pace.py: {words}: status {child.returncode}")
    return taken, spent, b"".join(replies)


def told_waits(times):
    times = sorted(times)
    return ", ".join(f"{times[int(part * (len(times) - 1))]:.2f}" for part in (0.5, 0.99, 1))


def print_waits(told, taken, spent, replies):
    count = tallied(replies).get("taken", 0)
    print(f"{told}: {told_waits(taken)} ms, {told_waits(spent)} of the processors; {count:,} of {len(taken):,} taken", flush=True)


def until_read(write, path, data):
    """This Write again and again, until the replies in a file end with these bytes."""
    is_over = False
    while not is_over:
        yield from [write] * OBJECTS
        with open(path, "rb") as replies:
            replies.seek(max(0, os.path.getsize(path) - len(data)))
            is_over = replies.read() == data


def measure_worst(program, count):
    new(program, 1_024)
    put("made", wire.create() * UNMOVED)
    subprocess.run([program, "run", "--no-upkeep", "image", "client:made:/dev/null"], check=True)
    session = "client:asks:says"
    to_some = [wire.write(o, 0, b"w" * SMALL) for o in range(1, OBJECTS + 1)] * (ASKED // OBJECTS)
    print_waits(f"{program}: {UNMOVED:,} objects", *waits([program, "run", "image", session], to_some))
    made(program, 64)
    put("made", wire.create())
    subprocess.run([program, "run", "--no-upkeep", "image", "client:made:/dev/null"], check=True)
    put("asked", writes(count) + wire.read(1, 0, SMALL))
    put("replies", b"")
    to_one = until_read(wire.write(OBJECTS + 1, 0, b"w" * SMALL), "replies", b"w" * SMALL)
    print_waits(f"{program}: beside {count:,} Writes", *waits([program, "run", "image", session, "client:asked:replies"], to_one))


def main():
    words = argparse.ArgumentParser(description=__doc__, formatter_class=argparse.RawDescriptionHelpFormatter)
    words.add_argument("--many", action="store_true")
    words.add_argument("--deleting", action="store_true")
    words.add_argument("--busy", action="store_true")
    words.add_argument("--worst", action="store_true")
    words.add_argument("--count", type=int)
    words.add_argument("program", nargs="*")
    line = words.parse_args()
    programs = wire.programs(line.program)
    with tempfile.TemporaryDirectory() as folder:
        os.chdir(folder)
        if line.many:
            measure_many(programs, line.count or 100_000)
        elif line.deleting:
            for program in programs:
                measure_deleting(program)
        elif line.busy:
            measure_busy(programs[0], line.count or 1_000_000)
        elif line.worst:
            for program in programs:
                measure_worst(program, line.count or 200_000)
        else:
            measure(programs[0], line.count or 1_000_000)


main()
