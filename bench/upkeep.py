#!/usr/bin/env python3
"""Instructions of a pass of the cleaner over a full drive of 1,024 frames, and of a move of the copier, by valgrind.

    upkeep.py [REPLAY [OTHER]]              crates/replay/out/replay where it isn't given

`replay` plays a script that prepares the drive, and one that does the step too: a figure is the difference of the instructions that
`valgrind --tool=callgrind` counts, the same each time whatever else the machine does. The drive has no plain one beside it. OTHER is the
program of another commit, which plays the same scripts: then its figures are printed too, and how often REPLAY's go into them.
"""
import os
import re
import subprocess
import sys
import tempfile

BUILT = os.path.join(os.path.dirname(os.path.abspath(__file__)), "..", "crates", "replay", "out", "replay")
WINDOW = 1_000_000
OBJECTS, WRITES, SMALL = 200, 34, 100  # they fill the drive but for the cleaner's reserve and what a pass writes
LARGE = ((100, 24_576), (25, 98_304))  # objects, and the bytes of each, which are written whole twice
MOVES = 60


def filled(objects, writes, size):
    """The lines that fill a drive, and the clock at their end."""
    lines = [f"drive 1024 window {WINDOW} alone"]
    lines += [f'admin Create "" now {o + 1}' for o in range(1, objects + 1)]
    clock = objects + 1
    for k in range(writes):
        for o in range(1, objects + 1):
            clock += 1
            offset = k % 5 * size if size == SMALL else 0
            lines.append(f"admin Write {o} {offset} {97 + k % 26:02x}*{size} now {clock}")
    return lines, clock


def led(lines, clock):
    """The same, with the clock moved by a request that is refused."""
    return lines + [f"admin GetAttr 0 now {clock} -> Refused NoObject"]


def loads():
    """What is measured: a name, the lines before, those of it, and how many steps they are."""
    small, clock = filled(OBJECTS, WRITES, SMALL)
    aged = led(small, 3 * WINDOW)
    yield "a pass, all history has aged", aged, ["pass"], 1
    yield "a pass, half of it has aged", led(small, WINDOW + clock // 2), ["pass"], 1
    yield "a pass, none has", led(small, clock + 1), ["pass"], 1
    for objects, size in LARGE:
        yield f"a pass, all has, objects of {size:,} bytes", led(filled(objects, 2, size)[0], 3 * WINDOW), ["pass"], 1
    yield "a move", aged + ["pass", "seal"], ["move"] * MOVES, MOVES


def instructions(program, lines, folder):
    script = os.path.join(folder, "script")
    with open(script, "w", encoding="ascii") as file:
        file.write("\n".join(lines) + "\n")
    words = ["valgrind", "--tool=callgrind", "--callgrind-out-file=/dev/null", program, script]
    ran = subprocess.run(words, capture_output=True, text=True, check=False)
    if ran.returncode != 0:
        sys.exit(f"{program}: status {ran.returncode}\n{ran.stdout}{ran.stderr}")
    return int(re.search(r"Collected : (\d+)", ran.stderr)[1])


def main():
    words = sys.argv[1:]
    if {"-h", "--help"} & set(words):
        print(__doc__)
        return
    if len(words) > 2 or any(it.startswith("-") for it in words):
        sys.exit(__doc__)
    programs = words or [BUILT]
    print("| Step | Instructions |" + " Other | Ratio |" * (len(programs) - 1))
    print("|---|---|" + "---|---|" * (len(programs) - 1))
    with tempfile.TemporaryDirectory() as folder:
        for name, before, steps, count in loads():
            mine, *others = [(instructions(it, before + steps, folder) - instructions(it, before, folder)) / count for it in programs]
            print(f"| {name} | {mine:,.0f} |" + "".join(f" {it:,.0f} | {it / mine:.2f} |" for it in others), flush=True)


if __name__ == "__main__":
    main()
