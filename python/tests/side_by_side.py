#!/usr/bin/env python3
"""Runs modules of tests side by side, each in a process of its own: most of their time they wait.

    side_by_side.py [--at-once N] [--limit SECONDS] [--also COMMAND].. [MODULE.py..]

The modules are those beside this file where none is named. Four run at once, those first that take longest. A COMMAND runs beside them
by sh in the folder where this is called, and fails where its status isn't 0. Each has 1,800 seconds. Prints how long each took, and
all that it printed where it failed; then `Ran N tests`, and last `ok` or which failed. Whatever they leave running is ended. Status 0:
none failed; 1: one did, or a module had no test.
"""
import argparse
import ctypes
import os
import pathlib
import re
import signal
import subprocess
import sys
import tempfile
import time

HERE = pathlib.Path(__file__).resolve().parent
LONGEST = ["test_store_kills", "test_bridge", "test_restore", "test_store_programs", "test_shares", "test_store_kills_of_programs",
           "test_store_serving", "test_install", "test_store_found", "test_store_remote", "test_store_command"]
LOOK = 0.05  # seconds between two looks at what has ended
SUBREAPER = 36  # PR_SET_CHILD_SUBREAPER of prctl(2)


class Job:
    """A module or a command as a process, whose output is in a file."""

    def __init__(self, name, words, folder, is_module):
        self.name, self.words, self.folder, self.is_module = name, words, folder, is_module
        self.output = self.child = self.fault = None
        self.began = 0.0

    def start(self):
        self.output, self.began = tempfile.TemporaryFile(), time.monotonic()
        self.child = subprocess.Popen(self.words, cwd=self.folder, stdin=subprocess.DEVNULL, stdout=self.output, stderr=subprocess.STDOUT)

    def text(self):
        self.output.seek(0)
        return self.output.read().decode("utf-8", "backslashreplace")

    def tests(self):
        """How many tests it ran."""
        return sum(map(int, re.findall(r"^Ran (\d+) tests? in ", self.text(), re.M))) if self.is_module else 0

    def ended(self, status, used):
        """What is seen once it has ended: its fault, and a line."""
        self.child.returncode = status
        if self.fault is None and status != 0:
            self.fault = f"ended by signal {os.WTERMSIG(status)}" if os.WIFSIGNALED(status) else f"status {os.WEXITSTATUS(status)}"
        elif self.fault is None and self.is_module and self.tests() == 0:
            self.fault = "no test"
        said = f"{self.tests()} tests, " if self.is_module else ""
        seconds = time.monotonic() - self.began
        print(f"{self.name}: {said}{seconds:.1f} s, {used.ru_utime + used.ru_stime:.1f} s of a processor", flush=True)
        if self.fault is not None:
            print(f"{self.text()}{self.name}: FAILED: {self.fault}", flush=True)


def module(path):
    """The job of a module: within its package, where it is in one."""
    folder, name = path.resolve().parent, path.stem
    if (folder / "__init__.py").exists():
        folder, name = folder.parent, f"{folder.name}.{name}"
    return Job(name, [sys.executable, "-B", "-m", "unittest", name], folder, True)


def place(path):
    """The longest come first, of the others the larger files."""
    return (LONGEST.index(path.stem) if path.stem in LONGEST else len(LONGEST), -path.stat().st_size)


def below(top):
    """The processes that one has begun, those that they have begun, and so on."""
    parents = {}
    for name in filter(str.isdigit, os.listdir("/proc")):
        try:
            stat = pathlib.Path(f"/proc/{name}/stat").read_bytes()
        except OSError:
            continue  # it has ended meanwhile
        parents[int(name)] = int(stat.rpartition(b")")[2].split()[1])
    found = [top]
    for pid in found:
        found += [child for child, parent in parents.items() if parent == pid]
    return found[1:]


def end(processes):
    for pid in processes:
        try:
            os.kill(pid, signal.SIGKILL)
        except ProcessLookupError:
            pass  # its parent has waited for it


def end_all():
    """Ends what is left. Once a process has ended, those that it began are this one's."""
    while left := below(os.getpid()):
        end(left)
        while wait()[0] > 0:
            pass
        time.sleep(LOOK)


def wait():
    """A process that has ended, its status and what it used: 0 where none has, and -1 where there is none."""
    try:
        return os.wait4(-1, os.WNOHANG)
    except ChildProcessError:
        return -1, 0, None


def run(jobs, at_once, limit):
    """Runs all, so many at once. Processes that jobs have left are reaped as well."""
    waiting, running = list(jobs), {}
    while waiting or running:
        while waiting and len(running) < at_once:
            job = waiting.pop(0)
            job.start()
            running[job.child.pid] = job
        pid, status, used = wait()
        if pid in running:
            running.pop(pid).ended(status, used)
        elif pid <= 0:
            time.sleep(LOOK)
        for pid, job in running.items():
            if job.fault is None and time.monotonic() > job.began + limit:
                job.fault = f"not ended in {limit} seconds"
                end([*below(pid), pid])


def words():
    parser = argparse.ArgumentParser(description=__doc__, formatter_class=argparse.RawDescriptionHelpFormatter)
    parser.add_argument("--at-once", type=int, default=4)
    parser.add_argument("--limit", type=int, default=1_800)
    parser.add_argument("--also", action="append", default=[])
    parser.add_argument("modules", nargs="*", type=pathlib.Path)
    return parser.parse_args()


def main():
    given = words()
    jobs = [Job(line, ["sh", "-c", line], None, False) for line in given.also]
    jobs += map(module, sorted(given.modules or HERE.glob("test_*.py"), key=place))
    ctypes.CDLL(None).prctl(SUBREAPER, 1, 0, 0, 0)
    signal.signal(signal.SIGTERM, lambda *_: sys.exit(1))
    try:
        run(jobs, given.at_once, given.limit)
    finally:
        end_all()
    failed = [job.name for job in jobs if job.fault is not None]
    print(f"Ran {sum(job.tests() for job in jobs)} tests\n\n" + (f"FAILED: {', '.join(failed)}" if failed else "ok"))
    return 1 if failed else 0


if __name__ == "__main__":
    sys.exit(main())
