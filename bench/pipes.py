#!/usr/bin/env python3
"""Writes of 100 bytes that a client has answered through two pipes by `s4d pipe`: a client that writes all its requests at once and reads
meanwhile, and one that waits for each reply before it writes the next request.

How many a second of the program's processor, the system's work for it counted, without what a run takes that is asked nothing; and
how many a second by the clock, with the client's work, which is this process's, and with all waiting. Of each round the best of some
trials counts, each over a new drive; of three rounds the median is printed with the least and the most.

    pipes.py [PROGRAM [OTHER]]      crates/s4d/out/s4d where it isn't given

OTHER is the program of another commit, which runs between: then its figures are printed too, and PROGRAM's as a multiple of them.
"""
import os
import subprocess
import sys
import threading
import time

import wire
from wire import CHANGED, SMALL, ratio, spread

ROUNDS = 3
TRIALS = 7
OBJECTS = range(1, 36)
TIMES = 200  # Writes of an object: its journal and the drive have room for them
MADE = [wire.create() for _ in OBJECTS]
ASKED = [wire.write(o, k % 192 * 128, b"w" * SMALL) for k in range(TIMES) for o in OBJECTS]
CREATED_BYTES, CHANGED_BYTES = 21, 13


def read_whole(source, count):
    """This number of bytes."""
    parts = []
    while count:
        part = os.read(source, count)
        if not part:
            sys.exit("pipes.py: the program ended")
        parts.append(part)
        count -= len(part)
    return b"".join(parts)


def write_whole(sink, data):
    view = memoryview(data)
    while view:
        view = view[os.write(sink, view):]


def ask_at_once(sink, source):
    writer = threading.Thread(target=write_whole, args=(sink, b"".join(ASKED)))
    writer.start()
    replies = read_whole(source, CHANGED_BYTES * len(ASKED))
    writer.join()
    return replies


def ask_in_turn(sink, source):
    parts = []
    for request in ASKED:
        os.write(sink, request)
        parts.append(read_whole(source, CHANGED_BYTES))
    return b"".join(parts)


def ask_nothing(sink, source):
    return b""


def seconds(program, ask):
    """What the Writes to a new drive take: of the processor, and by the clock. Of the first a start's part isn't taken off yet."""
    words = [program, "pipe", "--frames", "1024", "--tick", "0", "client"]
    child = subprocess.Popen(words, stdin=subprocess.PIPE, stdout=subprocess.PIPE, bufsize=0)
    sink, source = child.stdin.fileno(), child.stdout.fileno()
    write_whole(sink, b"".join(MADE))
    read_whole(source, CREATED_BYTES * len(MADE))
    began = time.perf_counter()
    replies = ask(sink, source)
    took = time.perf_counter() - began
    child.stdin.close()
    _, status, used = os.wait4(child.pid, 0)
    child.returncode = os.waitstatus_to_exitcode(status)
    child.stdout.close()
    if child.returncode or set(wire.kinds(replies)) - {CHANGED}:
        sys.exit(f"pipes.py: {program}: not each Write was done")
    return used.ru_utime + used.ru_stime, took


def rates(program, ask):
    """Writes a second of the processor, and by the clock."""
    idle = min(seconds(program, ask_nothing)[0] for _ in range(TRIALS))
    spent, took = zip(*(seconds(program, ask) for _ in range(TRIALS)))
    return len(ASKED) / (min(spent) - idle), len(ASKED) / min(took)


def main():
    if {"-h", "--help"} & set(sys.argv[1:]):
        print(__doc__)
        return
    programs = wire.programs(sys.argv[1:])
    print("Writes of 100 bytes a second\n")
    print("| Client | of the processor | by the clock |" + " other, of the processor | times | by the clock | times |" * (len(programs) - 1))
    print("|---|---|---|" + "---|---|---|---|" * (len(programs) - 1))
    for name, ask in (("writes all at once", ask_at_once), ("waits for each reply", ask_in_turn)):
        found = [[] for _ in programs]
        for _ in range(ROUNDS):
            for program, its in zip(programs, found):
                its.append(rates(program, ask))
        mine, *others = [list(zip(*its)) for its in found]
        cells = [name, *map(spread, mine)]
        for it in others:
            cells += [spread(it[0]), ratio(mine[0], it[0]), spread(it[1]), ratio(mine[1], it[1])]
        print("| " + " | ".join(cells) + " |", flush=True)


if __name__ == "__main__":
    main()
