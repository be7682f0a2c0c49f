#!/usr/bin/env python3
"""How many of some random loads leave a drive wedged: with room for no change, also once all history has left the window.

A load is random, by its seed: 1, 2 or 16 sessions ask small Writes, Appends, Creates and Deletes of some objects, with the default window
and tick, over a new drive of 24, 64 or 1,024 frames. Once all have ended, and the cleaner's last round with them, as many Reads as the
window has moments age all history, and the drive is served twice more without a request. It is wedged where each of some
changes, a Create and small Writes, is then refused as NoSpace. Why is read from the image: `full` where the blocks that are held would
leave no room however they lay, `spread` where they are few and lie in too many frames.

For each number of frames and sessions a line says how many of the loads ended wedged, and why. With `--wedged N` the loads of 24 frames
are made, one number of sessions after the other, until N ended wedged, and these again with OTHER; for each that is wedged then, too, a
line has its seed and why. With `--flush` an administrator hides all history in place of the Reads. What sessions, cleaner and copier do
at once is no part of a seed, so a load may end otherwise each time.

    wedged.py [--flush] [--loads N] [PROGRAM]                N loads of each kind in place of 40
    wedged.py [--flush] --wedged N PROGRAM OTHER
"""
import argparse
import os
import random
import subprocess
import tempfile
from typing import NamedTuple

import wire

FRAMES = (24, 64, 1_024)
SESSIONS = (1, 2, 16)
WINDOW = 100
BLOCK, BLOCKS, PAYLOAD, RESERVE = 512, 16, 15, 180
POINTER, POINTERS, PARTS = 8, 48, 3  # bytes of a pointer, those in a block of a checkpoint, and its blocks besides the first
HEADER, SUMS, ROW, SPAN = 512, 32, 40, 24  # bytes of the parts of an image
NO_SPACE = 9
PROBES = 8
LEAST = 2  # blocks that a small Write takes at least


class Load(NamedTuple):
    frames: int
    sessions: int
    seed: int


class Ended(NamedTuple):
    """What a load left: whether it is wedged, and what is in the image."""
    is_wedged: bool
    held: int  # blocks that rows name
    lying: int  # frames in which these lie
    ahead: int  # places ahead, the reserve among them
    rows: int

    def room(self):
        return max(0, self.ahead - RESERVE)

    def why(self, frames):
        return "full" if PAYLOAD * frames - RESERVE - self.held < LEAST else "spread"


def number(data, at, size=8):
    return int.from_bytes(data[at:at + size], "big")


# ---- what an image holds

class Blocks:
    """The blocks of an image's frames, and which of them are held."""

    def __init__(self, image):
        self.frames = number(image, 8, 2)
        self.data, self.held, self.ahead, self.at = image, set(), 0, HEADER
        self.starts = {}
        for frame in range(self.frames):
            state = number(image, self.at) & 3
            self.at += 8
            if state == 0:
                self.ahead += PAYLOAD
                continue
            self.starts[frame] = self.at
            if state == 1:
                self.ahead += PAYLOAD - image[self.at + 6]
            self.at += BLOCKS * BLOCK

    def taken(self, pointer):
        """The block that a pointer refers to, which is held, or nothing where it is a hole."""
        frame, block = number(pointer, 0, 2), pointer[2]
        if block == 0:
            return None
        self.held.add((frame, block))
        start = self.starts[frame] + block * BLOCK
        return self.data[start:start + BLOCK]

    def take_entries(self, block):
        """All that the entries of a journal block point to is held."""
        at, end = 24, 24 + number(block, 2, 2)
        while at < end:
            flags, triples = block[at + 8], block[at + 9]
            at += 34
            if flags & 4:
                at += 1 + block[at]
                at += 1 + block[at]
            for _ in range(triples):
                self.taken(block[at + 2:at + 10])
                self.taken(block[at + 10:at + 18])
                at += 18

    def pointers(self, block, at, count):
        """The blocks that as many pointers of a block refer to."""
        return [self.taken(block[at + POINTER * index:at + POINTER * (index + 1)]) for index in range(count)]

    def take_checkpoint(self, pointer):
        """All that a checkpoint points to is held, its parts too."""
        first = self.taken(pointer)
        if first is not None:
            self.pointers(first, 104, POINTERS)
            for part in self.pointers(first, 488, PARTS):
                if part is not None:
                    self.pointers(part, 24, POINTERS)

    def take_row(self, row):
        """All that a row names is held."""
        self.take_checkpoint(row[16:24])
        block = self.taken(row[32:40])
        while block is not None:
            self.take_entries(block)
            block = self.taken(block[16:24])


def looked_at(path, is_wedged):
    with open(path, "rb") as file:
        image = file.read()
    blocks = Blocks(image)
    rows = number(image, 48, 4)
    for row in range(rows):
        start = blocks.at + ROW * row
        blocks.take_row(image[start:start + ROW])
    return Ended(is_wedged, len(blocks.held), len({frame for frame, _ in blocks.held}), blocks.ahead, rows)


# ---- loads

class Thrown:
    """The requests of a load, by its seed."""

    def __init__(self, load):
        self.dice = random.Random(f"{load.seed} {load.frames} {load.sessions}")
        room = PAYLOAD * load.frames - RESERVE
        self.objects = self.dice.randint(room // 15, room // 4)
        self.count = self.dice.randint(2 * room // 3, 8 * room // 3)
        self.drifts = self.dice.random() < 0.5  # whether the objects that are written are others as time goes on
        self.weights = [self.dice.randint(4, 12), self.dice.randint(0, 3), self.dice.randint(0, 1), self.dice.randint(0, 1)]

    def object_at(self, step):
        if self.drifts:
            return min(self.objects, max(1, int(self.dice.gauss(step / self.count * self.objects, 2))))
        return self.dice.randint(1, self.objects)

    def request(self, step):
        kind = self.dice.choices(("write", "append", "create", "delete"), self.weights)[0]
        o, data = self.object_at(step), b"w" * self.dice.randint(1, wire.SMALL)
        if kind == "write":
            return wire.write(o, 0, data)
        if kind == "append":
            return wire.append(o, data)
        return wire.create() if kind == "create" else wire.delete(o)

    def streams(self, sessions):
        """What each session asks: the requests in turn."""
        asked = [self.request(step) for step in range(self.count)]
        return [b"".join(asked[k::sessions]) for k in range(sessions)]


def put(path, data):
    with open(path, "wb") as file:
        file.write(data)


def served(program, streams, role="client"):
    """Serves sessions at once, and gives the replies of each."""
    line = [program, "run", "image"]
    for index, asked in enumerate(streams):
        put(f"in{index}", asked)
        line.append(f"{role}:in{index}:out{index}")
    subprocess.run(line, check=True)
    replies = []
    for index in range(len(streams)):
        with open(f"out{index}", "rb") as file:
            replies.append(file.read())
    return replies


def refusals(replies):
    """The number of each refusal, and 0 for each other reply."""
    found, at = [], 0
    while at < len(replies):
        found.append(0 if replies[at + 4] else replies[at + 5])
        at += 4 + number(replies, at, 4)
    return found


def hide(program):
    """An administrator hides all moments up to the clock."""
    with open("image", "rb") as file:
        clock = number(file.read(HEADER), 16)
    served(program, [wire.flush(0, clock)], "admin")


def ended(program, load, flushes):
    """What a load comes to."""
    with tempfile.TemporaryDirectory() as folder:
        os.chdir(folder)
        subprocess.run([program, "new", "--window", str(WINDOW), "image", str(load.frames)], check=True)
        thrown = Thrown(load)
        served(program, [wire.create() * thrown.objects])
        served(program, thrown.streams(load.sessions))
        if flushes:
            hide(program)
        else:
            served(program, [wire.get_attr(1) * (WINDOW + 1)])
        for _ in range(2):
            served(program, [b""])
        probes = wire.create() + b"".join(wire.write(o, 0, b"p") for o in range(1, PROBES))
        came = refusals(served(program, [probes])[0])
        # An object that was deleted is NoObject before there is room to be asked for.
        is_wedged = NO_SPACE in came and 0 not in came
        return looked_at("image", is_wedged)


# ---- what is printed

def told(load, end):
    return (f"  {load.frames} frames, {load.sessions} sessions, seed {load.seed}: {end.why(load.frames)}: {end.held} of "
            f"{PAYLOAD * load.frames} blocks held, in {end.lying} frames, {end.rows} objects, room {end.room()}, {end.ahead} places ahead")


def print_kind(program, frames, sessions, loads, flushes):
    ends = [ended(program, Load(frames, sessions, seed), flushes) for seed in range(loads)]
    wedged = [end for end in ends if end.is_wedged]
    spread = sum(end.why(frames) == "spread" for end in wedged)
    print(f"{frames:,} frames, {sessions} sessions: {len(wedged)} of {loads} wedged, {spread} spread, {len(wedged) - spread} full", flush=True)


def wedged_loads(program, wanted, flushes):
    """This number of loads that a program ends wedged, and how many were made for them."""
    found, seed = [], 0
    while len(found) < wanted:
        load = Load(FRAMES[0], SESSIONS[seed % len(SESSIONS)], seed)
        end = ended(program, load, flushes)
        if end.is_wedged:
            found.append((load, end))
        seed += 1
    return found, seed


def print_again(program, other, wanted, flushes):
    found, thrown = wedged_loads(program, wanted, flushes)
    full = sum(end.why(load.frames) == "full" for load, end in found)
    print(f"{len(found)} of {thrown} loads wedged, {full} of them full", flush=True)
    again = [(load, ended(other, load, flushes)) for load, _ in found]
    left = [(load, end) for load, end in again if end.is_wedged]
    print(f"with the other program {len(left)} of these")
    for load, end in left:
        print(told(load, end), flush=True)


def main():
    words = argparse.ArgumentParser(description=__doc__, formatter_class=argparse.RawDescriptionHelpFormatter)
    words.add_argument("--loads", type=int, default=40)
    words.add_argument("--wedged", type=int)
    words.add_argument("--flush", action="store_true")
    words.add_argument("program", nargs="*")
    line = words.parse_args()
    programs = wire.programs(line.program)
    if line.wedged is not None:
        print_again(programs[0], programs[-1], line.wedged, line.flush)
        return
    for frames in FRAMES:
        for sessions in SESSIONS:
            print_kind(programs[0], frames, sessions, line.loads, line.flush)


main()
