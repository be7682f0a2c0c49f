#!/usr/bin/env python3
"""Measures `s4d` over a full image of 1,024 frames, in seconds by the clock of a whole process and in the memory that it has at most:
verify; at, which verifies, opens and reads; and run with no request, which verifies, opens and saves, and has to save the same bytes.
Between them goes one SHA-256 of the image's bytes by Python's hashlib, the digest. Of seven rounds the median is printed with the least
and the most. Then the same of migrate, over a full image of version 1 (tests/images/v1/most.xz), and of verify over the new one; and of both
over one of as many objects as a drive has room for.

    images.py [PROGRAM [OTHER]]      crates/s4d/out/s4d where it isn't given; build it by `rt run` there

OTHER is the program of another commit, which runs between over the same image: then its figures are printed too.
"""
import hashlib
import lzma
import os
import subprocess
import sys
import tempfile
import time

import wire
from wire import ratio, spread

OBJECTS = 75
FILLED = 15  # blocks of a frame after its summary
WHOLE = bytes(range(256)) * (wire.WHOLE // 256)  # the most bytes that an object may have
WRITES = wire.WHOLE // wire.PIECE  # of an object
RUNS = 7
OLD = os.path.join(os.path.dirname(os.path.abspath(__file__)), "..", "tests", "images", "v1", "most.xz")


def requests():
    """Objects are made, and each is written whole: more than the drive has room for."""
    return wire.create() * OBJECTS + b"".join(wire.write_whole(number, WHOLE) for number in range(1, OBJECTS + 1))


def removed(folder, name):
    if name and os.path.exists(os.path.join(folder, name)):
        os.remove(os.path.join(folder, name))


def small_objects():
    """An image of version 1: all blocks of 1,012 frames are journals, each of an object that was made and is empty."""
    frames, rows = [], []
    for number in range(1_012):
        made = range(FILLED * number + 1, FILLED * number + FILLED + 1)
        roles = b"".join(b"\1" + wire.long(it) for it in made)
        head = (b"S4sg" + number.to_bytes(2, "big") + bytes([FILLED, 0, 0, 0, 0, 1]) + bytes(4) + roles).ljust(480, b"\0")
        blocks = b"".join(making(it).ljust(512, b"\0") for it in made)
        frames.append(wire.long(1 << 32 | 2) + head + hashlib.sha256(head + blocks).digest() + blocks)
        pointers = [number.to_bytes(2, "big") + bytes([block, 0, 0, 0, 0, 1]) for block in range(1, FILLED + 1)]
        rows += [2 * wire.long(it) + bytes(16) + pointer for it, pointer in zip(made, pointers)]
    numbers = [len(rows), 1_000_000, 0, len(rows) + 1]  # clock, window, floor and the next object
    header = b"S4IMAGE1" + (1_024).to_bytes(2, "big") + bytes(6) + b"".join(map(wire.long, numbers)) + wire.long(len(rows) << 32)
    data = header.ljust(512, b"\0") + b"".join(frames) + 12 * wire.long(1 << 32) + b"".join(rows)
    return data + hashlib.sha256(data).digest()


def making(number):
    """The journal block of an object that was made at the moment of its number."""
    return bytes([1, 1, 0, 34]) + bytes(4) + wire.long(number) + bytes(8) + wire.long(number) + b"\2" + bytes(17) + wire.long(number)


def run(program, words, folder, made=None):
    """The seconds of one call; a file that it makes is removed before."""
    removed(folder, made)
    began = time.monotonic()
    subprocess.run([program, *words], cwd=folder, stdout=subprocess.DEVNULL, check=True)
    return time.monotonic() - began


def digest(image):
    began = time.monotonic()
    hashlib.sha256(image)
    return time.monotonic() - began


def bytes_of(path):
    with open(path, "rb") as file:
        return file.read()


def measure(programs, name, words, image, folder, made=None):
    """Prints a line of what a call takes each program, and how many digests that is."""
    rounds = [[digest(image)] + [run(it, words, folder, made) for it in programs] for _ in range(RUNS)]
    digests, mine, *others = zip(*rounds)
    most = []
    for it in programs:
        removed(folder, made)
        most.append(f"{wire.memory([it, *words], cwd=folder):,}")
    beside = "".join(f"; other {spread(it)} s, {ratio(it, mine)} times" for it in others)
    print(f"{name}: {spread(mine)} s, {ratio(mine, digests)} digests{beside}; at most {', other '.join(most)} KiB", flush=True)


def main():
    if {"-h", "--help"} & set(sys.argv[1:]):
        print(__doc__)
        return
    if len(sys.argv) > 3 or any(it.startswith("-") for it in sys.argv[1:]):
        sys.exit(__doc__)
    programs = wire.programs(sys.argv[1:])
    with tempfile.TemporaryDirectory() as folder:
        with open(os.path.join(folder, "in"), "wb") as file:
            file.write(requests())
        open(os.path.join(folder, "none"), "wb").close()
        run(programs[0], ["new", "--window", "1000000", "image", "1024"], folder)
        run(programs[0], ["run", "--no-upkeep", "--tick", "0", "image", "client:in:out"], folder)
        image = bytes_of(os.path.join(folder, "image"))
        written = wire.kinds(bytes_of(os.path.join(folder, "out"))).count(wire.CHANGED) // WRITES
        print(f"an image of {len(image):,} bytes, {OBJECTS} objects of which {written} are written whole")
        print(f"a digest: {spread([digest(image) for _ in range(RUNS)])} s")
        measure(programs, "verify", ["verify", "image"], image, folder)
        measure(programs, "at", ["at", "image", "1", str(OBJECTS + WRITES)], image, folder)
        measure(programs, "run without a request", ["run", "--no-upkeep", "image", "client:none:out"], image, folder)
        if bytes_of(os.path.join(folder, "image")) != image:
            sys.exit("images.py: what was saved again without a request are other bytes")
        with lzma.open(OLD) as kept:
            images = [kept.read(), small_objects()]
        for old in images:
            with open(os.path.join(folder, "old"), "wb") as file:
                file.write(old)
            print(f"an image of version 1 of {len(old):,} bytes")
            measure(programs, "migrate", ["migrate", "old", "new"], old, folder, "new")
            measure(programs, "verify of the new one", ["verify", "new"], old, folder)


if __name__ == "__main__":
    main()
