#!/usr/bin/env python3
"""Kills a store's gateway, a service of one of its drives or the bridge before one, at random moments, and looks that nothing is lost that
was acknowledged.

    store_kills.py [--stores N] [--bridges] [COUNT [SEED]]      COUNT kills (200), of N stores at once (1)

S4D, S4 and S4SERVE name the programs. Four clients put, copy, delete and upload in parts, of 0 to 250,000 bytes, to six keys over two drives.
Every fourth kill is of the gateway, of a service, of both, and of a gateway that moves what there is to a drive that was added; some starts are
killed, too. With --bridges each store has a drive as of another machine besides, and every fifth kill is of the bridge before it. After each,
and the next start, every version that was acknowledged is in the list and has its bytes, each other one has the bytes that its digest says, and
the drives have the heads of versions, the pieces of the current ones and no other objects. After ten kills of a store, or once it is full,
another one is begun. Prints the faults, and last how many kills and acknowledged versions there were. Status 0: no faults; 1: some. A kill of a
service takes ten seconds, which its next start waits, and so does one of what has asked a drive elsewhere."""
import argparse
import multiprocessing
import random
import signal
import sys
import tempfile

sys.dont_write_bytecode = True
import service  # noqa: E402
from s4d.store import Programs  # noqa: E402
from tests.store_kills import BRIDGE, KINDS, run_kills  # noqa: E402

KILLS_OF_ONE = 10  # over one store


def kill_one(seed, kills, kinds):
    """So many kills of a new store: the faults, how many kills, and how many versions."""
    programs = Programs(*map(service.program, ("s4d", "s4", "s4serve")))
    with tempfile.TemporaryDirectory() as folder:
        return run_kills(f"{folder}/store", programs, random.Random(seed), kills, kinds)


def jobs(draw, kills, kinds):
    """Seeds of stores, how many kills each has, and of which kinds, for so many kills."""
    return [(draw.random(), min(KILLS_OF_ONE, kills - before), kinds) for before in range(0, kills, KILLS_OF_ONE)]


def main(words):
    options = argparse.ArgumentParser(description=__doc__, formatter_class=argparse.RawDescriptionHelpFormatter)
    options.add_argument("count", type=int, nargs="?", default=200)
    options.add_argument("seed", type=int, nargs="?", default=1)
    options.add_argument("--stores", type=int, default=1)
    options.add_argument("--bridges", action="store_true")
    asked = options.parse_args(words)
    kinds = (*KINDS, BRIDGE) if asked.bridges else KINDS
    kills, versions, faults, draw = 0, 0, [], random.Random(asked.seed)
    with multiprocessing.Pool(asked.stores) as pool:
        while kills < asked.count and not faults:  # once more where a store was full before its last kill
            running = [pool.apply_async(kill_one, job) for job in jobs(draw, asked.count - kills, kinds)]
            for it in running:
                found, done, acknowledged = it.get()
                faults, kills, versions = faults + found, kills + max(done, 1), versions + acknowledged
                print(f"{kills} kills, {versions:,} versions", file=sys.stderr, flush=True)
                if faults:
                    break
    for fault in faults:
        print(fault)
    print(f"{kills} kills, {versions:,} acknowledged versions, {len(faults)} faults")
    return 1 if faults else 0


if __name__ == "__main__":
    signal.signal(signal.SIGTERM, lambda number, _: sys.exit(128 + number))  # what was started is ended
    sys.exit(main(sys.argv[1:]))
