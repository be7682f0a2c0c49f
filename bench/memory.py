#!/usr/bin/env python3
"""Resident memory of a service `s4serve` after some Writes of one byte and after ten times as many, over a drive whose window is 1 ms: what is
below the floor leaves nothing in memory, its rows of the audit neither.

    memory.py [--count N]      N Writes in all, 200,000 where it isn't said; S4SERVE names the program
    memory.py --peak           the most that a start and that flushes take, over full drives of 24 and of 1,024 frames

Each Write is to one of 50 objects. A client has up to 500 on their way, and both figures are taken between two of these, once an
administrator's Read was answered. It fails where the second one is more than 1 MB above the first.

A full drive has as many objects of a size as it takes. The most of a start is what the kernel has noted when the service serves, that of
flushes what it has noted anew after three changes of the window, each of which is flushed.
"""
import argparse
import sys
import time

from service import Service, program, s4d

OBJECTS = 50
TOGETHER = 500
WINDOW = 1_000  # microseconds
WEEK = 604_800_000_000  # microseconds
MOST = 1_024  # KiB


def resident(it, field="VmRSS"):
    """KiB of the service that are in memory, or were at most."""
    with open(f"/proc/{it.child.pid}/status", encoding="utf-8") as status:
        return next(int(line.split()[1]) for line in status if line.startswith(field))


def forget_peak(it):
    """From now on the kernel notes anew how much is in memory at most."""
    with open(f"/proc/{it.child.pid}/clear_refs", "w", encoding="utf-8") as peak:
        peak.write("5")


def write(drive, numbers, first, last):
    """The Writes of these numbers."""
    for begin in range(first, last, TOGETHER):
        with drive.pipeline() as batch:
            asked = [batch.write(numbers[k % OBJECTS], k % 64, b"x") for k in range(begin, min(begin + TOGETHER, last))]
        for reply in asked:
            reply.result()


def measure(count):
    """KiB after a tenth of the Writes, and after all."""
    with Service(new=("--create", "64", "--keep", "1d")) as it:
        it.begin()
        with it.session("admin") as admin, it.session() as drive:
            admin.set_window(WINDOW)
            with drive.pipeline() as batch:
                made = [batch.create() for _ in range(OBJECTS)]
            numbers = [reply.result().object for reply in made]
            found = []
            for first, last in ((0, count // 10), (count // 10, count)):
                write(drive, numbers, first, last)
                admin.read(numbers[0])
                found.append(resident(it))
        if it.stop() != 0:
            sys.exit("memory.py: the service failed")
    return found


def fill(drive, size):
    """Makes objects with so many bytes each until there is no room for a change."""
    together = max(1, min(TOGETHER, 100_000 // size))
    piece = bytes(size)
    try:
        while True:
            with drive.pipeline() as batch:
                made = [batch.create() for _ in range(together)]
            with drive.pipeline() as batch:
                written = [batch.write(reply.result().object, 0, piece) for reply in made]
            for reply in written:
                reply.result()
    except s4d.NoSpace:
        pass


def full_image(path, frames, size):
    """Makes an image whose clock is a minute ago, full of such objects."""
    image = s4d.Image(path, program("s4d"), program("s4"))
    image.make(frames, window=WEEK)
    with image.session(tick=time.time_ns() // 1_000 - 60_000_000) as drive:
        drive.create()
    with image.session(tick=1, upkeep=False) as drive:
        fill(drive, size)


def most_of(frames, size):
    """KiB of a start, and of flushes after it, over a full drive."""
    with Service() as it:
        full_image(it.image, frames, size)
        it.begin()
        start = resident(it, "VmHWM")
        forget_peak(it)
        with it.session("admin") as admin:
            for number in range(1, 4):
                admin.set_window(WEEK + number)
            flushes = resident(it, "VmHWM")
        if it.stop() != 0:
            sys.exit("memory.py: the service failed")
    return start, flushes


def print_peaks():
    for frames in (24, 1_024):
        for size, what in ((24_500, "of 24,500 bytes"), (250, "of 250 bytes")):
            start, flushes = most_of(frames, size)
            print(f"{frames} frames full of objects {what}: a start {start} KiB, flushes {flushes} KiB")


def main():
    words = argparse.ArgumentParser(description=__doc__, formatter_class=argparse.RawDescriptionHelpFormatter)
    words.add_argument("--count", type=int, default=200_000)
    words.add_argument("--peak", action="store_true")
    given = words.parse_args()
    if given.peak:
        print_peaks()
        return
    count = given.count
    first, last = measure(count)
    print(f"after {count // 10} Writes: {first} KiB")
    print(f"after {count} Writes: {last} KiB")
    sys.exit(last - first > MOST)


if __name__ == "__main__":
    main()
