#!/usr/bin/env python3
"""Requests a second that `s4d run` answers 1, 2, 4 and 16 sessions at once, without upkeep and with the history cleaner and the
segment copier beside them, and how many times as many that is as one session is answered.

Each session has an object of its own, of 16 of a drive of 1,024 frames, of 24,576 bytes, and reads its requests from a file:
Reads of all of these, or rounds of a Write of 64 bytes and 999 Reads of 64 bytes. Its replies go to /dev/null. The seconds
by the clock are those of a run without the ones of a run whose sessions ask nothing, which verifies, opens and saves the image, too.
With upkeep they end after the copier's last step and the cleaner's last round. The image is the same before each run. Of some trials the
shortest counts; of three rounds the median is printed with the least and the most. First each number of sessions is asked once with the
replies looked at.

    sessions.py [PROGRAM [OTHER]]      crates/s4d/out/s4d where it isn't given

OTHER is the program of another commit, which runs between: then its figures are printed too, and PROGRAM's as a multiple of them.
"""
import os
import shutil
import subprocess
import sys
import tempfile
import time
from typing import Callable, NamedTuple

import wire
from wire import DATA, PIECE, ratio, spread

ROUNDS = 3
TRIALS = 5
SESSIONS = (1, 2, 4, 16)
OBJECTS = 16
INPUTS = [f"in{o}" for o in range(1, OBJECTS + 1)]
PART = 64  # bytes of a small Write or Read
READS_A_WRITE = 999
LOOKED = 10  # how often each session asks where the replies are looked at


class Load(NamedTuple):
    """What a session asks of an object, again and again."""
    name: str
    asked: Callable  # the requests of one time
    count: int  # how many these are
    replied: int  # how many bytes the wanted replies have
    times: int


def long_read(o):
    return wire.read(o, 0, PIECE)


def small_round(o):
    return wire.write(o, 0, b"w" * PART) + wire.read(o, 0, PART) * READS_A_WRITE


LOADS = (
    Load("Reads of 24,576 bytes", long_read, 1, 5 + PIECE, 10_000),
    # The object's journal has room for this number of Writes.
    Load("a Write and 999 Reads of 64 bytes", small_round, 1 + READS_A_WRITE, 13 + READS_A_WRITE * (5 + PART), 200),
)


class Drive:
    """An image in a folder, and files of what sessions ask."""

    def __init__(self, program, folder):
        self.program, self.folder = program, folder
        os.mkdir(folder)
        self.perform("new", "--window", "1000000", "full", "1024")
        made = wire.create() * OBJECTS + b"".join(wire.write(o + 1, 0, b"a" * PIECE) for o in range(OBJECTS))
        self.put("made", made)
        self.put("nothing", b"")
        self.perform("run", "--no-upkeep", "--tick", "0", "full", "client:made:replies")
        kinds = wire.kinds(self.bytes_of("replies"))
        if len(kinds) != 2 * OBJECTS or 0 in kinds:
            sys.exit(f"sessions.py: {program}: the objects could not be made")

    def put(self, name, data):
        with open(os.path.join(self.folder, name), "wb") as file:
            file.write(data)

    def bytes_of(self, name):
        with open(os.path.join(self.folder, name), "rb") as file:
            return file.read()

    def perform(self, *words):
        subprocess.run([self.program, *words], cwd=self.folder, stdout=subprocess.DEVNULL, check=True)

    def run(self, inputs, outputs, has_upkeep):
        """The seconds by the clock of a run over the image as it was made."""
        shutil.copyfile(os.path.join(self.folder, "full"), os.path.join(self.folder, "image"))
        upkeep = [] if has_upkeep else ["--no-upkeep"]
        sessions = [f"client:{source}:{sink}" for source, sink in zip(inputs, outputs)]
        began = time.perf_counter()
        self.perform("run", *upkeep, "--tick", "0", "image", *sessions)
        return time.perf_counter() - began

    def ask(self, load, times):
        """Puts the files of what sessions ask so often."""
        for o, name in enumerate(INPUTS, 1):
            self.put(name, load.asked(o) * times)

    def look(self, load):
        """Asks a few times with the replies looked at: as many bytes as the wanted ones have, and the last one of the wanted kind."""
        self.ask(load, LOOKED)
        outputs = [f"{it}.out" for it in INPUTS]
        self.run(INPUTS, outputs, False)
        for found in map(self.bytes_of, outputs):
            if len(found) != load.replied * LOOKED or wire.kinds(found)[-1] != DATA:
                sys.exit(f"sessions.py: {self.program}: {load.name}: {len(found)} bytes of replies, and not {load.replied * LOOKED}")

    def taken(self, inputs, has_upkeep):
        """The seconds of all requests, of the shortest trials."""
        outputs, nothing = ["/dev/null"] * len(inputs), ["nothing"] * len(inputs)
        asked, idle = (min(self.run(it, outputs, has_upkeep) for _ in range(TRIALS)) for it in (inputs, nothing))
        return max(asked - idle, 1e-6)


def measure(drives, load, has_upkeep):
    """Prints a line for each number of sessions."""
    alone = None
    for count in SESSIONS:
        taken = [[drive.taken(INPUTS[:count], has_upkeep) for drive in drives] for _ in range(ROUNDS)]
        mine, *others = [[count * load.count * load.times / one for one in column] for column in zip(*taken)]
        alone = alone or mine
        beside = (cell for it in others for cell in (spread(it), ratio(mine, it)))
        row([load.name, str(count), "with" if has_upkeep else "without", spread(mine), ratio(mine, alone), *beside])


def row(cells):
    print("| " + " | ".join(cells) + " |", flush=True)


def main():
    if {"-h", "--help"} & set(sys.argv[1:]):
        print(__doc__)
        return
    if len(sys.argv) > 3 or any(it.startswith("-") for it in sys.argv[1:]):
        sys.exit(__doc__)
    with tempfile.TemporaryDirectory() as folder:
        drives = [Drive(it, os.path.join(folder, str(number))) for number, it in enumerate(wire.programs(sys.argv[1:]))]
        print("Requests a second by the clock\n")
        heads = ["Requests", "Sessions", "Upkeep", "a second", "of one session's", *["other", "ratio"] * (len(drives) - 1)]
        row(heads)
        row(["---"] * len(heads))
        for load in LOADS:
            for drive in drives:
                drive.look(load)
                drive.ask(load, load.times)
            for has_upkeep in (False, True):
                measure(drives, load, has_upkeep)


if __name__ == "__main__":
    main()
