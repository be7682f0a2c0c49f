#!/usr/bin/env python3
"""How many seconds of the processor, of its own and of the system, each command of `s4` takes that reads a full image of 1,024 frames.

    reading.py [S4D S4 [OTHER]]      crates/s4d/out/s4d and crates/s4/out/s4 where they aren't given; the best of three runs

Three images are read: one of 15,180 objects, one of few objects whose journals are full, and one of the longest texts, of which each line was
changed. OTHER is an `s4` of another commit, which runs beside the first one. What is printed goes to /dev/null; `export` writes into a folder in memory, and into one on the disk.
"""
import os
import subprocess
import sys
import tempfile

import wire

S4 = os.path.join(wire.HERE, "..", "crates", "s4", "out", "s4")
FRAMES, OBJECTS = 1_024, 15_180
JOURNALS, CHANGES = 9, 790  # objects, and changes that fill the journal of each
TEXTS = 37  # objects of the longest texts, each written twice
RUNS = 3
MEMORY = "/dev/shm"


def many():
    """As many objects as there is room for."""
    return wire.create() * OBJECTS


def few():
    """Objects that are changed until their journals are full."""
    made = wire.create() * JOURNALS
    return made + b"".join(wire.write(key, step, b"!") for step in range(CHANGES) for key in range(1, JOURNALS + 1))


def texts():
    """Objects that are written whole, and once more with other lines."""
    before, after = [b"".join(b"%d %s\n" % (line, name) for line in range(10_000))[:wire.WHOLE] for name in (b"before", b"after")]
    made = wire.create() * TEXTS
    return made + b"".join(wire.write_whole(key, it) for it in (before, after) for key in range(1, TEXTS + 1))


def seconds(words, folder):
    """What one run takes of the processor."""
    with open(os.devnull, "wb") as nowhere:
        child = subprocess.Popen(words, cwd=folder, stdin=subprocess.DEVNULL, stdout=nowhere)
        _, status, used = os.wait4(child.pid, 0)
    child.returncode = os.waitstatus_to_exitcode(status)
    if child.returncode not in (0, 1):
        sys.exit(f"reading.py: {' '.join(words)} ended with {child.returncode}")
    return used.ru_utime + used.ru_stime


def exported(program, place, folder):
    """What one export takes, into a new folder."""
    with tempfile.TemporaryDirectory(dir=place) as into:
        return seconds([program, "export", "image", os.path.join(into, "objects")], folder)


def commands(past):
    """The commands that read an image, and this moment of it, by ascending work."""
    yield from (["info", "image"], ["cat", "image", "1"], ["cat", "--at", past, "image", "1"])
    yield from (["list", "image"], ["list", "--json", "--at", past, "image"], ["list", "--deleted", "image"])
    yield from (["log", "image"], ["log", "--json", "image"], ["log", "--by-object", "--reverse", "image"])
    yield from (["log", "--stat", "image"], ["log", "--kind", "written", "--limit", "10", "image"], ["log", "--object", "1", "image"])
    yield from (["diff", *way, "image", past] for way in ([], ["--json"], ["--patch"], ["--text"]))
    yield from (["report", "image"], ["report", "--since", past, "image"])


def measure(programs, past, folder):
    for words in commands(str(past)):
        bests = [min(seconds([it, *words], folder) for _ in range(RUNS)) for it in programs]
        print(f"  {' '.join(words):44}", *(f"{it:8.2f}" for it in bests), flush=True)
    for name, place in (("in memory", MEMORY), ("on the disk", folder)):
        bests = [min(exported(it, place, folder) for _ in range(RUNS)) for it in programs]
        print(f"  {'export ' + name:44}", *(f"{it:8.2f}" for it in bests), flush=True)


def make(s4d, name, requests, folder):
    """An image that these requests make."""
    path = os.path.join(folder, "image")
    with open(os.path.join(folder, "in"), "wb") as file:
        file.write(requests)
    subprocess.run([s4d, "new", "--window", "1000000", path, str(FRAMES)], check=True)
    subprocess.run([s4d, "run", "--no-upkeep", "--tick", "0", "image", "client:in:out"], cwd=folder, check=True)
    print(f"{name}: {os.path.getsize(path):,} bytes")


def main():
    if {"-h", "--help"} & set(sys.argv[1:]):
        print(__doc__)
        return
    if len(sys.argv) not in (1, 3, 4):
        sys.exit(__doc__)
    s4d, *programs = wire.programs(sys.argv[1:] or [wire.BUILT, S4])
    images = [(f"{OBJECTS:,} objects", many(), OBJECTS // 2), (f"{JOURNALS} full journals", few(), JOURNALS * CHANGES // 2),
              (f"{TEXTS} texts", texts(), (1 + wire.WHOLE // wire.PIECE) * TEXTS)]
    for name, requests, past in images:
        with tempfile.TemporaryDirectory() as folder:
            make(s4d, name, requests, folder)
            measure(programs, past, folder)


if __name__ == "__main__":
    main()
