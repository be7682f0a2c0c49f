#!/usr/bin/env python3
"""Requests a second of `s4d`, by kind, beside a table of versions in Python's sqlite3 that is asked for the same.

`s4d pipe` reads its requests from a file, and its replies go to /dev/null, so that no client takes a part of the figures. What
requests cost is what the processor did for a run that prepares a drive and is asked, without what it did for one that prepares it
alone. Nothing waits, so other work on the machine slows both down but isn't counted. Of each run and of each pass over the table the
shortest of some trials counts; of three rounds the median is printed with the least and the most. First each kind is asked once with its
replies looked at. sqlite3 is asked from Python in this process, which takes a part of its figures; the table keeps each version
whole, in memory, in one transaction, so that a small Write to a large object copies all of it.

    speed.py [PROGRAM [OTHER]]              crates/s4d/out/s4d where it isn't given
    speed.py --count [PROGRAM [OTHER]]      instructions of each request in place of seconds, by valgrind, without sqlite3: these
                                            don't swing

OTHER is the program of another commit, which runs between: then its figures are printed too, and PROGRAM's as a multiple of them.
"""
import os
import re
import sqlite3
import subprocess
import sys
import tempfile
import time
from typing import NamedTuple

import wire
from wire import ATTRIBUTE, CHANGED, DATA, PIECE, SMALL, ratio, spread

ROUNDS = 3
TRIALS = 5
LEAST = 1_000  # requests of a pass over the table that changes nothing
OBJECTS = range(1, 36)
SMALL_WRITES, LONG_WRITES = 200, 8  # of each object: its journal and the drive have room for them
STEP, PLACES = 128, 192  # how far small Writes of an object are apart, so that each stays in one block
SHORT, LONG = 10, 300  # changes of an object whose past is read
FEW_WRITES, MANY_WRITES = 1, 200  # real Writes later than a moment that is read
RUNS = 50  # of hidden moments
LATER = 400  # by how many moments each run is made longer
MANY, HIDDEN = 1_000, 60  # objects, and moments that are hidden of each: a list may have 64 runs
BYTES = bytes(k % 251 for k in range(PIECE))


class Load(NamedTuple):
    """Requests, each a call's name and its words: `wire` encodes them for the drive, and the table has such calls."""
    name: str
    made: list  # what comes before
    asked: list  # a pass
    passes: int  # over the drive
    kind: int  # of each reply to them
    tick: int = 0
    window: int = 1_000_000


class Table:
    """Each version of each object as a row of its own, and each hidden span of moments."""

    def __init__(self):
        self.base = sqlite3.connect(":memory:", isolation_level=None)
        self.base.execute("create table version (object integer, moment integer, data blob,"
                          " primary key (object, moment)) without rowid")
        self.base.execute("create table hidden (object integer, first integer, last integer,"
                          " primary key (object, first)) without rowid")
        self.base.execute("begin")
        self.clock, self.count = 0, 0

    def put(self, o, data):
        self.clock += 1
        self.base.execute("insert into version values (?, ?, ?)", (o, self.clock, data))

    def last(self, what, words):
        """What an object's last version was at a moment."""
        of = " from version where object = ? and moment <= ? order by moment desc limit 1"
        return self.base.execute("select " + what + of, words).fetchone()[0]

    def create(self):
        self.count += 1
        self.put(self.count, b"")

    def write(self, o, offset, data):
        old = self.last("data", (o, self.clock))
        self.put(o, old[:offset].ljust(offset, b"\0") + data + old[offset + len(data):])

    def read(self, o, offset, count, at=None):
        return self.last("substr(data, ?, ?)", (offset + 1, count, o, self.clock if at is None else at))

    def get_attr(self, o, at=None):
        return self.last("length(data)", (o, self.clock if at is None else at))

    def flush_object(self, o, first, last):
        """That reads would have to look there isn't counted."""
        self.base.execute("insert into hidden values (?, ?, ?)", (o, first, last))


def writes():
    """Writes of as many bytes each to all objects in turn."""
    created = [("create",)] * len(OBJECTS)
    small = [("write", o, k % PLACES * STEP, BYTES[:SMALL]) for k in range(SMALL_WRITES) for o in OBJECTS]
    long = [("write", o, 0, BYTES) for _ in range(LONG_WRITES) for o in OBJECTS]
    return [Load("Writes of 100 bytes", created, small, 1, CHANGED), Load("Writes of 24,576 bytes", created, long, 1, CHANGED)]


def reads():
    """Reads of all objects in turn, each of as many bytes as one Read may have."""
    made = [("create",)] * len(OBJECTS) + [("write", o, 0, BYTES) for o in OBJECTS]
    return [Load(f"Reads of {size:,} bytes, now", made, [("read", o, 0, size) for o in OBJECTS], passes, DATA)
            for size, passes in ((SMALL, 10_000), (PIECE, 800))]


def of_the_past(changes):
    """The past of an object that was made, written, and then written without bytes, at each moment from the first write on."""

    def made(size):
        return [("create",), ("write", 1, 0, BYTES[:size])] + [("write", 1, 0, b"")] * (changes - 2) + [("create",)]

    moments, often = range(2, changes + 1), 300_000 // changes
    past = f"at moments of {changes} changes"
    return [Load(f"Reads of {size:,} bytes {past}", made(size), [("read", 1, 0, size, at) for at in moments], passes, DATA)
            for size, passes in ((SMALL, often), (PIECE, often // 10))] \
        + [Load(f"GetAttr {past}", made(SMALL), [("get_attr", 1, at) for at in moments], often, ATTRIBUTE)]


def before_writes(count):
    """The past of an object from before small Writes to it: each of them changes a pointer, unlike those of `of_the_past`."""
    made = [("create",), ("write", 1, 0, BYTES)] + [("write", 1, k % PLACES * STEP, BYTES[:SMALL]) for k in range(count)]
    of = f"of before {count} Writes"
    return [Load(f"Reads of {size:,} bytes, {of}", made, [("read", 1, 0, size, 2)] * 100, passes, DATA)
            for size, passes in ((SMALL, 3_000), (PIECE, 300))]


def flushes():
    """Each run of an object's hidden moments is made longer by one moment, and then again; none touches the next. And a moment is hidden
    of each of many objects, again and again, none beside another one."""
    starts = [1 + k * (LATER + 2) for k in range(RUNS)]
    made = [("create",)] + [("flush_object", 1, first, first) for first in starts]
    longer = [("flush_object", 1, first + k, first + k) for k in range(1, LATER + 1) for first in starts]
    apart = [("flush_object", o, 2 * k + 1, 2 * k + 1) for k in range(HIDDEN) for o in range(1, MANY + 1)]
    return [Load(f"FlushO of an object with {RUNS} runs", made, longer, 1, CHANGED, tick=25_000, window=10 ** 15),
            Load(f"FlushO of {MANY:,} objects in turn", [("create",)] * MANY, apart, 1, CHANGED)]


def spelled(requests):
    return b"".join(getattr(wire, name)(*words) for name, *words in requests)


def command(program, load, frames=1024):
    options = {"frames": frames, "window": load.window, "tick": load.tick}
    return [program, "pipe", *(word for key, value in options.items() for word in (f"--{key}", str(value))), "admin"]


def spent(words, path):
    """The seconds of processor of a run over a file of requests."""
    with open(path, "rb") as requests:
        child = subprocess.Popen(words, stdin=requests, stdout=subprocess.DEVNULL)
    _, status, usage = os.wait4(child.pid, 0)
    child.returncode = os.waitstatus_to_exitcode(status)
    if child.returncode:
        sys.exit(f"speed.py: {words}: status {child.returncode}")
    return usage.ru_utime + usage.ru_stime


def seconds(words, path):
    """Those of the shortest of some runs."""
    return min(spent(words, path) for _ in range(TRIALS))


def instructions(words, path):
    """The instructions of a run over a file of requests."""
    counted = ["valgrind", "--tool=callgrind", "--callgrind-out-file=/dev/null", *words]
    with open(path, "rb") as requests:
        ran = subprocess.run(counted, stdin=requests, stdout=subprocess.DEVNULL, stderr=subprocess.PIPE, text=True, check=True)
    return int(re.search(r"Collected : (\d+)", ran.stderr)[1])


def look(program, load):
    """Asks once with the replies looked at."""
    ran = subprocess.run(command(program, load), input=spelled(load.made + load.asked), stdout=subprocess.PIPE, check=True)
    kinds = wire.kinds(ran.stdout)
    if len(kinds) != len(load.made + load.asked) or 0 in kinds or set(kinds[len(load.made):]) != {load.kind}:
        sys.exit(f"speed.py: {program}: {load.name}: {len(kinds)} replies, and not each of the wanted kind")


def put(load, folder, passes):
    """Two files of requests: what comes before, and that with this number of passes after it."""
    paths = os.path.join(folder, "before"), os.path.join(folder, "all")
    made, asked = spelled(load.made), spelled(load.asked)
    for path, data in zip(paths, (made, made + asked * passes)):
        with open(path, "wb") as file:
            file.write(data)
    return paths


def ours(program, load, folder, measure, passes):
    """What a request costs."""
    before, whole = (measure(command(program, load), path) for path in put(load, folder, passes))
    return (whole - before) / (len(load.asked) * passes)


def start(program, frames, measure):
    """What a run without a request costs."""
    return measure(command(program, Load("", [], [], 0, 0), frames), os.devnull)


def pass_over_table(load):
    """The seconds of processor of a request, in one pass over a new table."""
    table = Table()
    for name, *words in load.made:
        getattr(table, name)(*words)
    times = 1 if load.kind == CHANGED else 1 + LEAST // len(load.asked)
    calls = [(getattr(table, name), words) for name, *words in load.asked] * times
    began = time.process_time()
    for call, words in calls:
        call(*words)
    return (time.process_time() - began) / len(calls)


def theirs(load):
    return min(pass_over_table(load) for _ in range(TRIALS))


def row(cells):
    print("| " + " | ".join(cells) + " |", flush=True)


def print_starts(programs, measure, unit):
    """Prints what a run without a request costs, in this unit."""
    for frames in (24, 1024):
        costs = [f"{start(it, frames, measure) / unit:,.1f}" for it in programs]
        print(f"A start with {frames} frames: {', other '.join(costs)}", flush=True)
    print()


def print_memory(programs, load, folder):
    _, path = put(load, folder, 1)
    most = []
    for program in programs:
        with open(path, "rb") as requests:
            most.append(f"{wire.memory(command(program, load), stdin=requests):,}")
    print(f"\n{len(load.asked):,} {load.name} take at most {', other '.join(most)} KiB of memory.")


def print_counts(programs, loads, folder):
    """Prints the instructions of a request."""
    print("Instructions; a start in millions")
    print_starts(programs, instructions, 1e6)
    row(["Requests", "instructions", *["other", "ratio"] * (len(programs) - 1)])
    row(["---"] * (2 * len(programs)))
    for load in loads:
        mine, *others = [ours(it, load, folder, instructions, 1) for it in programs]
        row([load.name, f"{mine:,.0f}", *(cell for it in others for cell in (f"{it:,.0f}", f"{it / mine:.2f}"))])


def print_rates(programs, loads, folder):
    """Prints the requests a second of each program and of sqlite3, and gives PROGRAM's by name."""
    print("Requests a second of one processor; a start in milliseconds")
    print_starts(programs, seconds, 1e-3)
    row(["Requests", "a second", "`sqlite3`", "ratio", *["other", "ratio"] * (len(programs) - 1)])
    row(["---"] * (2 + 2 * len(programs)))
    found = {}
    for load in loads:
        rounds = [[ours(it, load, folder, seconds, load.passes) for it in programs] + [theirs(load)] for _ in range(ROUNDS)]
        mine, *others, table = [[1 / max(one, 1e-9) for one in column] for column in zip(*rounds)]
        row([load.name, spread(mine), *(cell for it in (table, *others) for cell in (spread(it), ratio(mine, it)))])
        found[load.name] = mine
    return found


def main():
    if {"-h", "--help"} & set(sys.argv[1:]):
        print(__doc__)
        return
    is_counted, words = sys.argv[1:2] == ["--count"], [it for it in sys.argv[1:] if it != "--count"]
    if len(words) > 2 or any(it.startswith("-") for it in words):
        sys.exit(__doc__)
    programs = wire.programs(words)
    loads = [*writes(), *reads(), *of_the_past(SHORT), *of_the_past(LONG),
             *before_writes(FEW_WRITES), *before_writes(MANY_WRITES), *flushes()]
    for program in programs:
        for load in loads:
            look(program, load)
    with tempfile.TemporaryDirectory() as folder:
        if is_counted:
            return print_counts(programs, loads, folder)
        mine = print_rates(programs, loads, folder)
        print_memory(programs, loads[0], folder)
    few, many = (mine[f"Reads of {SMALL} bytes at moments of {it} changes"] for it in (SHORT, LONG))
    print(f"A Read of {SMALL} bytes over {LONG} changes takes {ratio(few, many)} times as long as one over {SHORT}.")


if __name__ == "__main__":
    main()
