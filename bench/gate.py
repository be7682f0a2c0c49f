#!/usr/bin/env python3
"""Says what a gate costs: seconds of processor by crate and kind of work.

    proof    the crate's own               edits   its must-fail edits, and in the next column how many checks these were
    tests    the proof of its tests        llvm    compiling what was proved, by LLVM
    seed     its proof once more, which    rattle  and by Rattle's own compiler
             two or more edits begin with

    bench/gate.py                      at the top of the repository: runs `rt ci`, prints each of its lines after the time of day, and
                                       then the table. Ends with the gate's own status
    bench/gate.py run COMMAND ..       the same of another command, as `rt must-fail codec` or `rt check`
    bench/gate.py read LOG [EARLIER]   the table of a run whose output was kept, `bench/gate.py > LOG`, and what each row took more or
                                       less than in an earlier one. A log without a table, which `rt ci` alone wrote after times of
                                       day: when each crate's proof and tests ended, in seconds after its first line

`rt ci` prints no times. So this looks twice a second at all `rattle` processes below it, and adds up what each had taken when it
was last seen. What processes take after that, and what `rt` takes itself and the built tests do, is in the line `elsewhere`; the total
is what the system says of all of them, so it is exact. Nothing here changes how `rt ci` runs."""
import os
import re
import resource
import subprocess
import sys
import threading
import time

COLUMNS = ("proof", "tests", "seed", "edits", "tried", "llvm", "rattle", "all")
TICKS = os.sysconf("SC_CLK_TCK")


def processes():
    """Of each process: its parent, its name, its start and the seconds of processor that it has taken."""
    found = {}
    for name in os.listdir("/proc"):
        if not name.isdigit():
            continue
        try:
            with open(f"/proc/{name}/stat", errors="replace") as it:
                front, _, back = it.read().rpartition(")")
        except OSError:
            continue
        fields = back.split()
        taken = (int(fields[11]) + int(fields[12])) / TICKS
        found[int(name)] = int(fields[1]), front.partition("(")[2], int(fields[19]), taken
    return found


def is_below(number, top, found):
    while number in found and number != top:
        number = found[number][0]
    return number == top


def task_of(number):
    """The crate and the kind of work of a `rattle` process, or None where it has none or is gone."""
    try:
        with open(f"/proc/{number}/cmdline", "rb") as it:
            words = it.read().decode(errors="replace").split("\0")
        folder = os.path.basename(os.readlink(f"/proc/{number}/cwd"))
    except OSError:
        return None
    if "--crate-name" not in words[:-1]:
        return None
    after = lambda word: words[words.index(word) + 1] if word in words[:-1] else ""
    if folder.startswith("rt-edit-"):
        # (a copy of the crate; its edits are tried each over a copy of what the seed left)
        kind = "seed" if after("--incremental").endswith("/seed") else "edits"
    elif "--crate-checked" in words:
        kind = after("--backend")
    else:
        kind = "tests" if "--test" in words else "proof"
    return after("--crate-name"), kind


def watch(top, is_over, seen):
    """Notes the seconds of each `rattle` process below `top`, by what it works at."""
    tasks = {}
    while not is_over.wait(0.5):
        found = processes()
        for number, (_, name, start, taken) in found.items():
            if name != "rattle" or not is_below(number, top, found):
                continue
            key = number, start
            tasks[key] = tasks.get(key) or task_of(number)
            if tasks[key]:
                seen[key] = tasks[key], taken


def show(table, total):
    """Prints a table of crates, the dearest first."""
    print(f"gate: {'crate':<18}" + "".join(f"{it:>9}" for it in COLUMNS))
    rows = sorted(table.items(), key=lambda it: -it[1]["all"])
    rows.append(("all crates", {it: sum(row[it] for _, row in rows) for it in COLUMNS}))
    for name, row in rows:
        print(f"gate: {name:<18}" + "".join(f"{row[it]:9.{int(it != 'tried')}f}" for it in COLUMNS))
    print(f"gate: {'elsewhere':<81}{total - rows[-1][1]['all']:9.1f}")
    print(f"gate: {'total':<81}{total:9.1f}", flush=True)


def run(words):
    began, seen, is_over = time.time(), {}, threading.Event()
    child = subprocess.Popen(words, stdout=subprocess.PIPE, stderr=subprocess.STDOUT, text=True, errors="replace")
    watcher = threading.Thread(target=watch, args=(child.pid, is_over, seen))
    watcher.start()
    for line in child.stdout:
        print(time.strftime("%H:%M:%S"), line, end="", flush=True)
    status = child.wait()
    is_over.set()
    watcher.join()
    table = {}
    for (crate, kind), taken in seen.values():
        row = table.setdefault(crate, dict.fromkeys(COLUMNS, 0))
        row[kind] += taken
        row["all"] += taken
        row["tried"] += kind == "edits"
    taken = resource.getrusage(resource.RUSAGE_CHILDREN)
    show(table, taken.ru_utime + taken.ru_stime)
    print(f"gate: status {status} after {time.time() - began:.0f} s by the clock")
    return status


def read(file):
    """The rows of the table of a log: crate, and its seconds."""
    rows = {}
    with open(file, errors="replace") as it:
        for line in it:
            row = re.match(r"(?:\S+ )?gate: (\S.*?) +([-\d. ]+)$", line.rstrip("\n"))
            if row and row[2].strip():
                rows[row[1]] = [float(number) for number in row[2].split()]
    return rows


def show_ends(file):
    """When each proof ended, by the clock."""
    first = None
    with open(file, errors="replace") as it:
        for line in it:
            if not re.match(r"\d\d:\d\d:\d\d ", line):
                continue
            at = sum(60 ** place * int(part) for place, part in zip((2, 1, 0), line[:8].split(":")))
            first = at if first is None else first
            if re.search(r" rt: .* (NOT )?(proved|PROVED)$", line):
                print(f"{(at - first) % 86400:6d} {line[9:].rstrip()}")


def compare(now, earlier):
    """Prints the rows of a table, each with its change since an earlier one, and those that are gone."""
    for name in [*now, *(it for it in earlier or [] if it not in now)]:
        row = now.get(name, [0.0])
        change = f"{row[-1] - earlier.get(name, [0.0])[-1]:+9.1f}" if earlier else ""
        cells = "".join(f"{it:9.1f}" for it in row)
        print(f"{name:<18}{cells:>72}{change}")


def main(words):
    if {"-h", "--help"} & set(sys.argv[1:]):
        print(__doc__)
        return 0
    if not words or words[0] == "run" and len(words) > 1:
        return run(words[1:] or ["rt", "ci"])
    if words[0] != "read" or len(words) not in (2, 3):
        sys.exit(__doc__)
    rows = [read(it) for it in words[1:]]
    if rows[0]:
        compare(rows[0], rows[1] if len(rows) == 2 else None)
    else:
        show_ends(words[1])
    return 0


if __name__ == "__main__":
    sys.exit(main(sys.argv[1:]))
