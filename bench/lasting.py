#!/usr/bin/env python3
"""How many small changes a drive takes before it refuses one, by its frames, the window and how many objects are written in turn.

Writes of 100 bytes at the same place of each object, one moment each (`--tick 0`), in one session of `s4d run` over a new image. In a
batch all requests are in the session's file. Live, the client waits for each reply and then for a millisecond, in which the cleaner and
the copier can work. Without upkeep nothing is freed. The first refusal is named with how many Writes were taken before it; where there
is none, with how many were asked. With upkeep the figures depend on what else the machine does.

    lasting.py [--most N] [PROGRAM]      N Writes at most are asked (20,000), a tenth of that live
"""
import argparse
import os
import subprocess
import tempfile
import time

import wire
from wire import CHANGED, SMALL

FRAMES = (24, 64, 1_024)
RESERVE = 12  # frames that no change takes a block of
WINDOWS = (100, 1_000, 1_000_000)
OBJECTS = (1, 16, 200)
PAUSE = 0.001  # seconds between a live client's requests
NAMES = {(0, 9): "NoSpace", (0, 12): "ChainFull"}  # by a refusal's body


def asked(objects, count):
    """Requests, the objects in turn."""
    return [wire.write(k % objects + 1, 0, b"w" * SMALL) for k in range(count)]


def made(program, folder, frames, window, objects):
    """An image with this number of objects."""
    image, creates = os.path.join(folder, "image"), os.path.join(folder, "creates")
    subprocess.run([program, "new", "--window", str(window), image, str(frames)], check=True)
    with open(creates, "wb") as file:
        file.write(wire.create() * objects)
    subprocess.run([program, "run", "--tick", "0", "--no-upkeep", image, f"client:{creates}:/dev/null"], check=True)
    return image


def taken(replies):
    """How many changes were taken, and the refusal's name after them, if there is one."""
    count, at = 0, 0
    while at < len(replies):
        size = int.from_bytes(replies[at:at + 4], "big")
        body = replies[at + 4:at + 4 + size]
        if body[0] != CHANGED:
            return count, NAMES[tuple(body)]
        count, at = count + 1, at + 4 + size
    return count, None


def in_a_batch(program, folder, words, image, requests):
    """All requests are in a file."""
    source, sink = os.path.join(folder, "requests"), os.path.join(folder, "replies")
    with open(source, "wb") as file:
        file.writelines(requests)
    subprocess.run([program, "run", "--tick", "0", *words, image, f"client:{source}:{sink}"], check=True)
    with open(sink, "rb") as file:
        return taken(file.read())


def reply_of(stream):
    """The frame of the next reply."""
    length = stream.read(4)
    return length + stream.read(int.from_bytes(length, "big"))


def live(program, words, image, requests):
    """A client waits for each reply, and a millisecond more."""
    line = [program, "run", "--tick", "0", *words, image, "client:/dev/stdin:/dev/stdout"]
    with subprocess.Popen(line, stdin=subprocess.PIPE, stdout=subprocess.PIPE) as served:
        for count, request in enumerate(requests):
            served.stdin.write(request)
            served.stdin.flush()
            _, refusal = taken(reply_of(served.stdout))
            if refusal is not None:
                return count, refusal
            time.sleep(PAUSE)
        return len(requests), None


def figure(count, refusal):
    return f"{count:,}" if refusal is None else f"{count:,} {refusal}"


def row(program, most, frames, window, objects):
    """A row of the table: in a batch without upkeep and with it, and live with it."""
    requests = asked(objects, most)
    cells = []
    for is_live, words in ((False, ["--no-upkeep"]), (False, []), (True, [])):
        with tempfile.TemporaryDirectory() as folder:
            image = made(program, folder, frames, window, objects)
            if is_live:
                came = live(program, words, image, requests[:most // 10])
            else:
                came = in_a_batch(program, folder, words, image, requests)
            cells.append(figure(*came))
    return f"| {frames:,} | {window:,} | {objects} | " + " | ".join(cells) + " |"


def main():
    words = argparse.ArgumentParser(description=__doc__, formatter_class=argparse.RawDescriptionHelpFormatter)
    words.add_argument("--most", type=int, default=20_000, help="how many are asked, of which a tenth live")
    words.add_argument("program", nargs="*")
    line = words.parse_args()
    program = wire.programs(line.program)[0]
    print("| Frames | Window | Objects | batch, no upkeep | batch | live |")
    print("| --- | --- | --- | --- | --- | --- |")
    for frames in FRAMES:
        for window in WINDOWS:
            for objects in OBJECTS:
                if objects < 15 * (frames - RESERVE):
                    print(row(program, line.most, frames, window, objects), flush=True)


main()
