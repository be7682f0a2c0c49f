"""What the scripts here ask `s4d`, as bytes, how they find the program, and how they print figures."""
import os
import statistics
import subprocess
import sys

HERE = os.path.dirname(os.path.abspath(__file__))
BUILT = os.path.join(HERE, "..", "crates", "s4d", "out", "s4d")
SMALL, PIECE, WHOLE = 100, 24_576, 98_304  # bytes of a small Write or Read, the most that one Read has, and the most that an object has
WATCHER = """
import os, sys
child = os.posix_spawn(sys.argv[1], sys.argv[1:], os.environ)
_, status, used = os.wait4(child, 0)
print(used.ru_maxrss, file=sys.stderr)
sys.exit(os.waitstatus_to_exitcode(status) != 0)
"""
BUSY = """
import os
parent = os.getppid()
while os.getppid() == parent:
    for _ in range(1_000_000):
        pass
"""
CHANGED, CREATED, DATA, ATTRIBUTE = 1, 2, 3, 4  # kinds of replies


def frame(body):
    return len(body).to_bytes(4, "big") + body


def long(number):
    return number.to_bytes(8, "big")


def told(at):
    return b"\0" if at is None else b"\x01" + long(at)


def create():
    return frame(b"\x01\x00")


def read(o, offset, count, at=None):
    return frame(b"\x03" + long(o) + long(offset) + count.to_bytes(4, "big") + told(at))


def write(o, offset, data):
    return frame(b"\x04" + long(o) + long(offset) + data)


def write_whole(o, data):
    """Writes of an object piece by piece: one body hasn't room for a large one."""
    return b"".join(write(o, at, data[at:at + PIECE]) for at in range(0, len(data), PIECE))


def delete(o):
    return frame(b"\x02" + long(o))


def append(o, data):
    return frame(b"\x05" + long(o) + data)


def get_attr(o, at=None):
    return frame(b"\x07" + long(o) + told(at))


def flush(first, last):
    return frame(b"\x0a" + long(first) + long(last))


def flush_object(o, first, last):
    return frame(b"\x0b" + long(o) + long(first) + long(last))


def kinds(replies):
    """The kind of each reply."""
    found, at = [], 0
    while at < len(replies):
        found.append(replies[at + 4])
        at += 4 + int.from_bytes(replies[at:at + 4], "big")
    return found


def programs(words):
    """The programs that are named, or the one that was built here."""
    paths = [os.path.abspath(it) for it in words or [BUILT]]
    for path in paths:
        if not os.access(path, os.X_OK):
            sys.exit(f"{path}: no program; build it by (cd crates/s4d && rt run -- pipe client < /dev/null)")
    return paths


def memory(words, **how):
    """The most memory of a run, in KiB. A process counts the memory of the one that started it where that is more, so a small one
    starts it, of some 10,000 KiB."""
    watched = [sys.executable, "-S", "-E", "-c", WATCHER, *words]
    ran = subprocess.run(watched, stdout=subprocess.DEVNULL, stderr=subprocess.PIPE, text=True, check=True, **how)
    return int(ran.stderr)


def busy():
    """A process that computes and never waits, until it is killed or the one that started it has ended."""
    return subprocess.Popen([sys.executable, "-S", "-E", "-c", BUSY])


def spread(values):
    """The median with the least and the most."""
    digits = 0 if min(values) >= 100 else 2 if min(values) >= 1 else 4
    return f"{statistics.median(values):,.{digits}f} ({min(values):,.{digits}f} to {max(values):,.{digits}f})"


def ratio(values, others):
    return f"{statistics.median(values) / statistics.median(others):,.2f}"
