#!/usr/bin/env python3
"""How much room `s4 compact` makes, beside a plain loop of the library's calls, and what moves could still give.

    compaction.py S4D S4 REPLAY [IMAGES [FIRST]]     programs; 100 random images by seeds from 0 on where these aren't given

For each kind of image: how many blocks of room are gained by the loop, by S4, and the most that is known to be possible: the best of
these, and of a model of moves that begins with the image and with what S4 left. The loop is played by REPLAY: a pass of the cleaner, and
then every object is moved out of one frame after another, those with the fewest held blocks first, until a turn gives no more room; the
most that it had after any turn counts. The model empties each frame whose moves write fewer blocks than are freed, also in other frames,
until there is none. Last, the image of which S4 made the least share of the loop's room, how many have less room afterwards, and how long
S4 took for the largest.
"""
import importlib.machinery
import os
import random
import shutil
import subprocess
import sys
import tempfile
import time
import types

PIECE = 8192  # how many bytes of an image a line has
RECKONED = os.path.join(os.path.dirname(os.path.abspath(__file__)), "..", "tests", "bin", "reckoned")
CREATE, DELETE, WRITE, APPEND, TRUNCATE, SET_ATTRIBUTE, SET_WINDOW, FLUSH, FLUSH_OBJECT = 1, 2, 4, 5, 6, 8, 9, 10, 11


def reading():
    """The plain reading of images, with the model of moves."""
    sys.dont_write_bytecode = True
    loader = importlib.machinery.SourceFileLoader("reckoned", RECKONED)
    module = types.ModuleType("reckoned")
    module.__file__ = RECKONED
    loader.exec_module(module)
    return module


reckoned = reading()


def moved(path):
    """The room that moves give by the model."""
    drive = reckoned.Drive(reckoned.Past(path))
    drive.move()
    return drive.room()


def request(kind, *parts):
    body = bytes([kind]) + b"".join(it if isinstance(it, bytes) else it.to_bytes(8, "big") for it in parts)
    return len(body).to_bytes(4, "big") + body


def text(name):
    return bytes([len(name)]) + name


def flooded(objects, changes, flood):
    """Objects that an owner changes, and one that is flooded with small writes."""
    for key in range(1, objects + 1):
        yield request(CREATE, text(b"file %d" % key))
    for step in range(changes):
        yield request(WRITE, 1 + 7 * step % objects, 31 * step % 700, bytes([97 + step % 26]) * (step % 600 + 1))
    yield request(CREATE, text(b"tool"))
    for step in range(flood):
        yield request(WRITE, objects + 1, step, b"!")


def thrown(dice, steps):
    """Random requests, fewer than these steps, and a window that they may end with."""
    most, made = dice.randrange(1, 40), 0
    for step in range(dice.randrange(30, steps)):
        if made == 0 or made < most and dice.random() < 0.15:
            made += 1
            yield request(CREATE, text(b"A" * dice.randrange(20)))
            continue
        key, kind, first = dice.randrange(1, made + 1), dice.random(), max(0, step - dice.randrange(30))
        if kind < 0.6:
            offset, length = dice.randrange(dice.choice([600, 3_000, 20_000])), dice.randrange(1, dice.choice([40, 600, 2_500]))
            yield request(WRITE, key, offset, b"w" * length)
        elif kind < 0.7:
            yield request(TRUNCATE, key, dice.randrange(4_000))
        elif kind < 0.8:
            yield request(SET_ATTRIBUTE, key, text(b"abcde"))
        elif kind < 0.83:
            yield request(DELETE, key)
        elif kind < 0.88:
            yield request(APPEND, key, b"q" * dice.randrange(1, 700))
        elif kind < 0.91:
            yield request(FLUSH, first, step) if kind < 0.89 else request(FLUSH_OBJECT, key, first, step)
        else:
            yield request(WRITE, key, 0, b"!")
    if dice.random() < 0.5:
        yield request(SET_WINDOW, dice.choice([0, 3, 10, 50]))


def live_only(objects):
    """Objects that hold one block each, and no past."""
    for key in range(1, objects + 1):
        yield request(CREATE, text(b"%d" % key))


def loads(count, first):
    """Kinds of images: a name, and for each image its frames, its window, whether cleaner and copier run, and requests."""
    yield "flooded, 1,024 frames", [(1024, 100_000, False, flooded(1000, 3000, 786)), (1024, 3000, False, flooded(1000, 4000, 786)),
                                    (1024, 100_000, False, flooded(300, 4500, 790))]
    yield "flooded, 24 frames", [(24, window, upkeep, flooded(9, changes, 60)) for window in (20, 100_000) for upkeep in (False, True)
                                 for changes in (20, 45, 60)]
    thrown_images = []
    for seed in range(first, first + count):
        dice = random.Random(seed)
        frames, window, upkeep = dice.randrange(24, 73), dice.choice([0, 5, 20, 100, 100_000]), dice.random() < 0.3
        thrown_images.append((frames, window, upkeep, thrown(dice, 25 * (frames - 8))))
    yield f"random, {count} images of 24 to 72 frames", thrown_images
    yield "live only, 180 objects on 24 frames", [(24, 0, True, live_only(180))]


def room(program, path):
    told = subprocess.run([program, "info", path], capture_output=True, text=True, check=True).stdout
    return int(told.split("room ")[1].split()[0])


def compacted(s4, path):
    """A copy that is compacted, and the seconds that this took."""
    copy, began = f"{path}.compacted", time.monotonic()
    shutil.copy(path, copy)
    subprocess.run([s4, "compact", copy], stdout=subprocess.DEVNULL, check=True)
    return copy, time.monotonic() - began


class Loop:
    """A plain loop of the library's calls over an image."""

    def __init__(self, replay, path):
        image = reckoned.Past(path)
        with open(path, "rb") as file:
            data = file.read()
        self.replay, self.frames, self.objects = replay, range(len(image.frames)), list(image.rows)
        self.lines = [f"image {len(data)}"]
        self.lines += [f"put {at} {data[at:at + PIECE].hex()}" for at in range(0, len(data), PIECE)]
        self.lines.append("open")

    def answers(self, *questions):
        """Plays all lines so far and these, and gives their answers."""
        script = "\n".join([*self.lines, *questions, ""])
        told = subprocess.run([self.replay, "--print"], input=script, capture_output=True, text=True, check=True).stdout
        return [int(it.split(" -> ")[1]) for it in told.splitlines()[-1 - len(questions):-1]]

    def turn(self):
        """Takes a turn, and gives the room after it."""
        self.lines += ["pass -> any", "empty -> any"]
        held = self.answers(*(f"held_count {frame}" for frame in self.frames))
        for frame in sorted((it for it in self.frames if held[it] > 0), key=lambda it: held[it]):
            for key in self.objects:
                self.lines.append(f"client Plan {frame} {key} -> any ; client Copy -> any ; client Commit -> any")
            self.lines.append("empty -> any")
        return self.answers("room")[0]

    def room(self):
        """The most room that it makes."""
        most, room = self.answers("room")[0], self.turn()
        while room > most:
            most, room = room, self.turn()
        return most


def measured(programs, folder, image):
    """The blocks of room that are gained by the loop, by `s4 compact` and at most; and the seconds of `s4 compact`."""
    s4d, s4, replay = programs
    frames, window, upkeep, requests = image
    path, session = os.path.join(folder, "image"), os.path.join(folder, "session")
    for name in os.listdir(folder):
        os.remove(os.path.join(folder, name))
    with open(session, "wb") as file:
        file.writelines(requests)
    subprocess.run([s4d, "new", "--window", str(window), path, str(frames)], check=True)
    ways = [] if upkeep else ["--no-upkeep"]
    subprocess.run([s4d, "run", "--tick", "0", *ways, path, f"admin:{session}:{folder}/replies"], check=True)
    before, loop = room(s4, path), Loop(replay, path).room()
    copy, seconds = compacted(s4, path)
    after = room(s4, copy)
    best = max(loop, after, moved(path), moved(copy))
    return [it - before for it in (loop, after, best)], seconds


def main(words):
    if words in (["-h"], ["--help"]):
        print(__doc__)
        return
    if len(words) not in (3, 4, 5):
        sys.exit(__doc__)
    programs = list(map(os.path.abspath, words[:3]))
    count, first = [int(it) for it in words[3:]] + [100, 0][len(words) - 3:]
    print(f"{'blocks of room gained':40}{'loop':>8}{'compact':>9}{'possible':>10}{'compact of it':>15}")
    less, slowest, shares = 0, 0.0, []
    with tempfile.TemporaryDirectory() as folder:
        for name, images in loads(count, first):
            sums = [0, 0, 0]
            for number, image in enumerate(images):
                gains, seconds = measured(programs, folder, image)
                sums = [it + max(gain, 0) for it, gain in zip(sums, gains)]
                less, slowest = less + (gains[1] < 0), max(slowest, seconds)
                if gains[0] > 0:
                    shares.append((gains[1] / gains[0], f"{name}, number {number}: {gains[1]} of {gains[0]}"))
            share = f"{sums[1] / sums[2]:15.3f}" if sums[2] else f"{'-':>15}"
            print(f"{name:40}{sums[0]:8}{sums[1]:9}{sums[2]:10}{share}", flush=True)
    print(f"the least share of the loop's room: {'%.3f, %s' % min(shares)}; below 0.9: {sum(it < 0.9 for it, _ in shares)} of {len(shares)}")
    print(f"images with less room: {less}; the slowest: {slowest:.2f} s")


main(sys.argv[1:])
