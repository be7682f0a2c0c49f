#!/usr/bin/env python3
"""Refuses a program each of its allocations in turn: in its first run the first one, in its second the second, and so on.

    refused.py SCRIPT..       scripts of tests/drive, played by `replay`. It asks each step that is refused NoMemory once more, so that a
                              script has the answers that it expects, whichever allocation is refused, and from there on it compares
                              each version with the plain drive after each step, and the counts with a count anew. Status 2 says that it had no memory for its own
                              work, and isn't a fault
    refused.py session        a session of `s4d pipe`, whose output is judged as examples/limits.py does
    refused.py CRATE TEST     TEST: a test's name, or its end; first (cd crates/CRATE && rt test) builds it

Prints each run that fails; then how many allocations were refused, one a run, and how many of these runs failed. The last runs, in
which none is left to refuse, are looked at too. The status is 0 where none failed. tests/run does it for the session and the scripts
memory_...

An allocation is what a program asks of the C library: a new block, or another size of one. The C compiler is CC, cc, clang, gcc or
that of the Rattle kit, the first that is there. REPLAY and S4D name other programs than the built ones.
"""
import os
import shutil
import subprocess
import sys
import tempfile
from concurrent.futures import ThreadPoolExecutor
from typing import Callable, NamedTuple

TOP = os.path.dirname(os.path.dirname(os.path.abspath(__file__)))
sys.path.append(os.path.join(TOP, "examples"))
from limits import fault_of  # noqa: E402

SECONDS = 600  # of a run: it only ends what hangs
AT_ONCE = 64  # runs that are begun before it is looked whether one of them had nothing to refuse
REFUSED = "an allocation was refused\n"
OWN = "no memory for its own work"

# A Create, a Write of "abc", and two Reads of it: now, and at moment 1.
REQUESTS = bytes.fromhex("00000002 01 00" "00000014 04 0000000000000001 0000000000000000 616263"
                         "00000016 03 0000000000000001 0000000000000000 00000003 00"
                         "0000001e 03 0000000000000001 0000000000000000 00000003 01 0000000000000001")
REPLIES = bytes.fromhex("00000011 02 0000000000000001 0000000000000001" "00000009 01 0000000000000002" "00000004 03 616263" "00000001 03")

# Is loaded before the C library, and refuses the allocation that REFUSE numbers from 1. Without headers, which not each machine has.
ALLOCATOR = f"""
typedef __SIZE_TYPE__ size_t;

void *__libc_malloc(size_t bytes);
void *__libc_realloc(void *block, size_t bytes);
char *getenv(const char *name);
long atol(const char *digits);
long write(int file, const void *bytes, size_t count);

static long ahead;

__attribute__((constructor)) static void begin(void) {{ ahead = atol(getenv("REFUSE")); }}

static int is_refused(void) {{
    if (__atomic_sub_fetch(&ahead, 1, __ATOMIC_SEQ_CST) != 0) return 0;
    static const char told[] = {REFUSED!r};
    return write(2, told, sizeof told - 1) > 0;
}}

void *malloc(size_t bytes) {{ return is_refused() ? 0 : __libc_malloc(bytes); }}
void *realloc(void *block, size_t bytes) {{ return is_refused() ? 0 : __libc_realloc(block, bytes); }}
""".replace("'", '"')


class Subject(NamedTuple):
    name: str
    words: list  # of the command
    data: bytes  # on its standard input
    fault: Callable  # what a status and what was written on both outputs say: None where nothing is wrong


class Outcome(NamedTuple):
    name: str
    refused: int  # runs in which an allocation was
    own: int  # of these, those in which it was one of the program's own work
    faults: list  # a line each


def kit_compiler():
    """The words of the Rattle kit's C compiler, whose linker is beside it."""
    if shutil.which("rt"):
        page = subprocess.run(["rt", "doc"], stdin=subprocess.DEVNULL, capture_output=True, text=True, check=False).stdout.strip()
        clang = os.path.join(os.path.dirname(page), "toolchain", "bin", "clang")
        if os.access(clang, os.X_OK):
            return [clang, "-fuse-ld=lld"]
    return None


def compiler():
    """The words of a C compiler; None where there is none."""
    found = filter(shutil.which, [os.environ.get("CC") or "cc", "clang", "gcc"])
    return next(([it] for it in found), None) or kit_compiler()


def compiled(folder):
    """The library that refuses, made in a folder; None where there is no C compiler."""
    words, library = compiler(), os.path.join(folder, "refused.so")
    if words is None:
        return None
    subprocess.run([*words, "-shared", "-fPIC", "-O1", "-nostdlib", "-x", "c", "-", "-o", library], input=ALLOCATOR, text=True, check=True)
    return library


def fault_of_script(status, output, errors):
    return {0: None, 2: OWN}.get(status, f"status {status}, {(output + errors).decode(errors='replace').strip()[-300:]}")


def fault_of_test(status, output, errors):
    is_passed = status == 0 and b"test result: ok" in (output + errors).split(b"\n")
    return None if is_passed else fault_of_script(status or 1, output, errors)


def of_script(script, replay):
    return Subject(script, [replay, script], b"", fault_of_script)


def of_session(s4d):
    return Subject("a session", [s4d, "pipe", "client"], REQUESTS,
                   lambda status, output, errors: fault_of(s4d, status, output, errors, REPLIES))


def named(program, word):
    """The full name of the one test that ends so."""
    listed = subprocess.run([program, "--list"], stdout=subprocess.PIPE, text=True, check=True).stdout
    names = [line.partition(": ")[0] for line in listed.splitlines() if line.endswith(": test")]
    found = [name for name in names if name == word or name.endswith("::" + word)]
    if len(found) != 1:
        sys.exit(f"refused.py: {len(found)} tests are named so; there are {', '.join(names)}")
    return found[0]


def built(variable, name, how):
    program = os.environ.get(variable) or f"{TOP}/crates/{name}"
    if not os.access(program, os.X_OK):
        sys.exit(f"refused.py: {program}: no program; build it by {how}")
    return os.path.abspath(program)


def of_test(crate, word):
    program = built("", f"{crate}/out/{crate}_tests", f"(cd crates/{crate} && rt test)")
    test = named(program, word)
    return Subject(test, [program, test], b"", fault_of_test)


def run(subject, library, number):
    """Whether the allocation was refused, and what is wrong then."""
    told = {"LD_PRELOAD": library, "REFUSE": str(number)}
    try:
        ran = subprocess.run(subject.words, env=told, input=subject.data, capture_output=True, timeout=SECONDS, check=False)
    except subprocess.TimeoutExpired:
        return True, f"had not ended after {SECONDS} seconds"
    is_refused = REFUSED.encode() in ran.stderr
    fault = subject.fault(ran.returncode, ran.stdout, ran.stderr.replace(REFUSED.encode(), b""))
    return is_refused, fault if is_refused or fault != OWN else "status 2, though no allocation was refused"


def refuse_each(subject, library, pool):
    """What comes of all runs, up to those in which none is left to refuse."""
    runs = []
    while all(is_refused for is_refused, _ in runs):
        numbers = range(len(runs) + 1, len(runs) + 1 + AT_ONCE)
        runs += pool.map(lambda number: run(subject, library, number), numbers)
    faults = [f"allocation {number}: {fault}" for number, (_, fault) in enumerate(runs, 1) if fault not in (None, OWN)]
    refused = sum(is_refused for is_refused, _ in runs)
    return Outcome(subject.name, refused, sum(fault == OWN for _, fault in runs), faults if refused else ["no allocation was refused"])


def subjects_of(words):
    if words == ["session"]:
        return [of_session(built("S4D", "s4d/out/s4d", "(cd crates/s4d && rt run -- pipe client < /dev/null)"))]
    if all(os.path.isfile(it) for it in words):
        replay = built("REPLAY", "replay/out/replay", "(cd crates/replay && rt run < /dev/null)")
        return [of_script(it, replay) for it in words]
    if len(words) == 2:
        return [of_test(*words)]
    sys.exit(__doc__)


def main():
    if {"-h", "--help"} & set(sys.argv[1:]):
        print(__doc__)
        return 0
    words = sys.argv[1:]
    if not words or any(it.startswith("-") for it in words):
        sys.exit(__doc__)
    subjects, has_failed = subjects_of(words), False
    with tempfile.TemporaryDirectory() as folder, ThreadPoolExecutor(len(os.sched_getaffinity(0))) as pool:
        library = compiled(folder)
        if library is None:
            sys.exit("refused.py: no C compiler")
        for subject in subjects:
            name, refused, own, faults = refuse_each(subject, library, pool)
            print("".join(f"{name}, {line}\n" for line in faults), end="")
            print(f"{name}: {refused} allocations were refused, one a run; {len(faults) or 'none'} of these runs failed, {own} had {OWN}",
                  flush=True)
            has_failed = has_failed or bool(faults)
    return 1 if has_failed else 0


if __name__ == "__main__":
    sys.exit(main())
