#!/usr/bin/env python3
"""Runs `s4d` and `s4` under ever higher limits of stack and of address space.

`s4d pipe client` answers an example, with a Write of 64 blocks and an Append after it. Each run ends with status 0, or with status 1
and one line on standard error. What it wrote is a beginning of the full output, or differs from it first by a reply of
NoMemory; from there on each reply is of the kind of the full one's, or a refusal. Limits of address space begin where the program can be
loaded at all, and end where all is answered.

Then each command of both programs is run under ever higher limits of stack, from the least one under which `/bin/true` runs: `run` with
sessions beside which the cleaner frees, moves and gathers, and the commands of `s4` over images with history. Each run ends as it does
with no limit, or with status 1 and one line on standard error. No run is ended by a signal. Ends with status 1 where anything else is
seen.

    limits.py [FILE.hex [S4D [S4]]]    first_requests.hex beside this file, crates/s4d/out/s4d and crates/s4/out/s4 where they aren't given
"""
import contextlib
import os
import shutil
import subprocess
import sys
import tempfile

HERE = os.path.dirname(os.path.abspath(__file__))
STACK_STEP = 4  # in KiB, as all limits here
STACK_LOW = 64  # up to there by small steps
STACK_LARGE_STEP = 64
STACK_MOST = 1024
STACK_CHANCE = 16  # the system begins each program's stack at a place of its own choice within 8 KiB, in whole pages
SPACE_STEP = 2
SPACE_BEYOND = 1024  # how far to go on by small steps once all is answered
SPACE_LARGE_STEP = 1024
SPACE_MOST = 192 * 1024
LOADED_MOST = 64 * 1024  # a program that isn't loaded by then lacks something else
NO_MEMORY = bytes.fromhex("00000002000a")
OBJECT = (1).to_bytes(8, "big")
READ_BYTES, WRITE_BYTES, OBJECT_BYTES = 24_576, 32_751, 98_304  # of one Read, of one Write over the wire, and of an object, at most
LARGE_WRITE = b"\x04" + OBJECT + bytes(8) + bytes(k % 251 for k in range(WRITE_BYTES))
SMALLER = b"\x06" + OBJECT + (3).to_bytes(8, "big")
APPEND = b"\x05" + OBJECT + b"appended"


def frame(body):
    return len(body).to_bytes(4, "big") + body


def run(program, words, data, flag, limit):
    """The status, negative for a signal, and what is on standard output and on standard error."""
    line = f'ulimit -c 0; ulimit {flag} {limit} || exit 125; exec "$@"' if flag else 'exec "$@"'
    ran = subprocess.run(["sh", "-c", line, "sh", program, *words], input=data, capture_output=True)
    return ran.returncode, ran.stdout, ran.stderr


def is_one_line(program, text):
    name = os.path.basename(program).split("_")[0].encode()
    return text.startswith(name + b": ") and text.endswith(b"\n") and text.count(b"\n") == 1


def is_loaded(program, flag, limit):
    """Whether the program comes to say something of its own: here, that there are no words."""
    status, _, errors = run(program, [], b"", flag, limit)
    return status in (1, 2) and is_one_line(program, errors)


def replies_of(output):
    """The replies, one after the other, of which the last may be cut."""
    replies, at = [], 0
    while at < len(output):
        end = at + 4 + int.from_bytes(output[at:at + 4], "big")
        replies.append(output[at:end])
        at = end
    return replies


def is_beginning(output, full):
    """Whether the replies are a beginning of the full ones, or are so up to one of NoMemory."""
    ours, wanted, short = replies_of(output), replies_of(full), False
    if len(ours) > len(wanted):
        return False
    for place, (reply, other) in enumerate(zip(ours, wanted)):
        is_cut = place == len(ours) - 1 and other.startswith(reply)
        if reply == other or is_cut:
            continue
        if reply == NO_MEMORY:
            short = True
        elif not short or reply[4:5] not in (other[4:5], b"\0"):
            return False
    return True


def fault_of(program, status, output, errors, full):
    if status not in (0, 1):
        return f"ended with status {status}"
    if not is_beginning(output, full):
        return "wrote what is no beginning of the full output"
    if status == 1 and not is_one_line(program, errors):
        return f"status 1, and on standard error {errors!r}"
    if status == 0 and errors:
        return f"status 0, and on standard error {errors!r}"
    if status == 0 and len(output) < len(full) and NO_MEMORY not in output:
        return "status 0, and replies are missing"
    return None


class Sweep:
    def __init__(self, program, data, full):
        self.program, self.data, self.full = program, data, full
        self.faults = 0

    def is_answered(self, flag, limit, seen):
        """Runs under the limit, prints a fault, and says whether all was answered."""
        status, output, errors = run(self.program, ["pipe", "client"], self.data, flag, limit)
        fault = fault_of(self.program, status, output, errors, self.full)
        if fault:
            self.faults += 1
            print(f"ulimit {flag} {limit}: {fault}")
        seen[status] = seen.get(status, 0) + 1
        return status == 0 and output == self.full

    def tell(self, flag, limits, answered, seen):
        counts = ", ".join(f"{count} of status {status}" for status, count in sorted(seen.items()))
        print(f"ulimit {flag}: run from {limits[0]} KiB on, all answered from {answered} KiB on; {counts}")

    def sweep_stacks(self):
        limits, answered, seen = stacks(), None, {}
        for limit in limits:
            is_answered = self.is_answered("-s", limit, seen)
            answered = (answered or limit) if is_answered else None
        self.tell("-s", limits, answered, seen)
        self.expect(answered)

    def sweep_spaces(self):
        """Small steps until all is answered over `SPACE_BEYOND` KiB, then large ones."""
        first = next((it for it in range(SPACE_STEP, LOADED_MOST, SPACE_STEP) if is_loaded(self.program, "-v", it)), None)
        if first is None:
            sys.exit("ulimit -v: the program is never loaded")
        answered, seen, limit = None, {}, first
        while limit <= SPACE_MOST:
            if not self.is_answered("-v", limit, seen):
                answered = None
            elif answered is None:
                answered = limit
            is_far = answered is not None and limit >= answered + SPACE_BEYOND
            limit += SPACE_LARGE_STEP if is_far else SPACE_STEP
        self.tell("-v", [first], answered, seen)
        self.expect(answered)

    def expect(self, answered):
        if answered is None:
            self.faults += 1
            print("not all is answered under the highest limit")


def stacks():
    """From the least stack under which `/bin/true` runs, whatever place the system chooses."""
    least = next(it for it in range(STACK_STEP, STACK_LOW, STACK_STEP) if run("/bin/true", [], b"", "-s", it)[0] == 0)
    first = least + STACK_CHANCE
    return [*range(first, STACK_LOW, STACK_STEP), *range(STACK_LOW, STACK_MOST + 1, STACK_LARGE_STEP)]


def create():
    return frame(b"\x01\0")


def write(number, content, at=0):
    return frame(b"\x04" + number.to_bytes(8, "big") + at.to_bytes(8, "big") + content)


def delete(number):
    return frame(b"\x02" + number.to_bytes(8, "big"))


def look(number):
    return frame(b"\x07" + number.to_bytes(8, "big") + b"\0")


NOTHING = b""
SMALL = create() + b"".join(write(1, bytes([byte])) for byte in range(82))  # one object's, so that its history is joined and freed
DIES = create() + b"".join(write(1, bytes([byte]) * READ_BYTES) for byte in range(3)) + delete(1)
THINS = create() + write(1, b"a") + create() + write(2, bytes(READ_BYTES)) + delete(2)  # one block is left of the first frame
SCATTERS = create() * 16 + b"".join(write(number, bytes([byte]) * 100) for number in range(1, 17) for byte in range(5))
SCATTERED = SCATTERS + write(16, b"6" * 100) * 3
AGES = look(1) * 101  # until nothing before them can be read
VARIED = create() * 3 + write(2, b"end", OBJECT_BYTES - 3) + b"".join(
    write(1, bytes([byte]) * 700, 300 * byte) + write(2, bytes([byte])) + write(3, bytes(READ_BYTES)) for byte in range(9)) + delete(3)
LONG = create() + b"".join(write(1, bytes([byte % 256]) * 600) for byte in range(600))  # until its journal is full


class Images:
    """The images that the commands are run over, in a folder of their own, with the files that sessions read."""

    def __init__(self, program, folder):
        self.program, self.folder = program, folder
        self.make("new", 0)
        self.make("dead", 0, DIES)
        self.make("thin", 0, THINS, frames=32)  # with 24 no move has room
        self.make("scattered", 100, SCATTERED, AGES)
        self.make("past", 1000, VARIED, frames=64)
        self.make("long", 10000, LONG, frames=160)
        for name, requests in (("nothing", NOTHING), ("small", SMALL), ("varied", VARIED)):
            with open(self.path(name + ".requests"), "wb") as file:
                file.write(requests)
        shutil.copy(self.path("past"), self.path("damaged"))
        with open(self.path("damaged"), "r+b") as file:
            file.seek(600)
            file.write(b"damaged")

    def path(self, name):
        return os.path.join(self.folder, name)

    def make(self, name, window, *sessions, frames=24):
        image, asked = self.path(name), self.path("asked")
        run(self.program, ["new", "--window", str(window), image, str(frames)], b"", None, None)
        for requests in sessions:
            with open(asked, "wb") as file:
                file.write(requests)
            words = ["run", "--tick", "0" if requests is not AGES else "1", "--no-upkeep", image, f"client:{asked}:/dev/null"]
            status, _, errors = run(self.program, words, b"", None, None)
            if status != 0:
                sys.exit(f"{name}: status {status}, {errors!r}")

    def served(self, sessions, *options):
        """The words of `run` over the image that is put there anew for each run."""
        return ["run", *options, self.path("image"), *[f"client:{self.path(name + '.requests')}:/dev/null" for name in sessions]]

    def renew(self, name):
        """Puts the image there anew, or takes it away where none is named, and what a command makes."""
        if name is None:
            with contextlib.suppress(FileNotFoundError):
                os.remove(self.path("image"))
        else:
            shutil.copy(self.path(name), self.path("image"))
        shutil.rmtree(self.path("folder"), ignore_errors=True)
        with contextlib.suppress(FileNotFoundError):
            os.remove(self.path("copy"))


def commands_of_s4d(images):
    """The image that each command is run over, and its words."""
    image = images.path("image")
    yield None, ["new", image, "24"]
    yield "past", ["verify", image]
    yield "past", ["at", image, "1", "5"]
    yield "new", images.served(["small"])
    yield "new", images.served(["varied"], "--no-upkeep")
    yield "new", images.served(["varied", "small", "nothing"])
    yield "past", images.served(["varied"] * 16)
    for name in ("dead", "thin", "scattered", "long"):
        yield name, images.served(["nothing"])


def commands_of_s4(images):
    image, folder = images.path("image"), images.path("folder")
    yield "past", ["--help"]
    yield "past", ["list", "--deleted", image]
    yield "past", ["list", "--json", image]
    yield "past", ["log", image]
    yield "past", ["log", "--json", "--object", "1", image]
    yield "past", ["audit", image]
    yield "past", ["audit", "--json", image]
    yield "past", ["cat", "--at", "9", image, "1"]
    yield "past", ["info", image]
    yield "past", ["info", "--json", image]
    yield "past", ["diff", image, "5"]
    yield "past", ["diff", "--patch", image, "5", "20"]
    yield "past", ["report", image]
    yield "past", ["export", "--at", "20", image, folder]
    yield "past", ["restore", "--at", "20", "--dry-run", image]
    yield "past", ["restore", "--at", "20", image]
    yield "long", ["restore", "--at", "5", "--flush", image]
    yield "past", ["check", image]
    yield "scattered", ["compact", image]
    yield "past", ["copy", "--without", "1", image, images.path("copy")]
    yield "damaged", ["salvage", image, folder]


class Commands:
    """Runs commands under limits of stack, and counts what ends in another way than it may."""

    def __init__(self, program, images):
        self.program, self.images, self.faults = program, images, 0

    def is_as_ever(self, limit, name, words, expected, seen):
        self.images.renew(name)
        status, output, errors = run(self.program, words, b"", "-s", limit)
        seen[status] = seen.get(status, 0) + 1
        is_whole = (status, output, errors) == expected
        # s4 ends with 2 where memory is short before the command is known, since of diff 1 says that something differs.
        failures = (1, 2) if os.path.basename(self.program) == "s4" else (1,)
        if not is_whole and not (status in failures and is_one_line(self.program, errors)):
            self.faults += 1
            print(f"ulimit -s {limit}, image {name}: {words}: status {status}, {errors[:200]!r}")
        return is_whole

    def sweep(self, name, words, limits):
        self.images.renew(name)
        expected, whole, seen = run(self.program, words, b"", None, None), None, {}
        for limit in limits:
            is_whole = self.is_as_ever(limit, name, words, expected, seen)
            whole = (whole or limit) if is_whole else None
        if expected[0] < 0 or expected[0] > 1 or whole is None:
            self.faults += 1
            print(f"image {name}: {words}: with no limit {expected[0]}, {expected[2][:200]!r}; as ever from {whole} KiB on")
        return whole


def sweep_commands(s4d, s4):
    """Runs each command of both programs under ever higher limits of stack, and answers how many faults were seen."""
    limits, faults = stacks(), 0
    with tempfile.TemporaryDirectory() as folder:
        images = Images(s4d, folder)
        for program, commands in ((s4d, commands_of_s4d(images)), (s4, commands_of_s4(images))):
            swept, wholes = Commands(program, images), []
            for name, words in commands:
                wholes.append(swept.sweep(name, words, limits))
            faults += swept.faults
            known = [it for it in wholes if it is not None]
            print(f"{os.path.basename(program)}: {len(wholes)} commands under {len(limits)} stacks, from {limits[0]} KiB on, "
                  f"all as ever from {max(known, default=None)} KiB on")
    return faults


def program_of(place, name):
    """The program that the word at that place names, or the one that was built here."""
    built = os.path.join(HERE, "..", "crates", name, "out", name)
    program = os.path.abspath(sys.argv[place] if len(sys.argv) > place else built)
    if not os.path.exists(program):
        sys.exit(f"limits.py: {program}: no program")
    return program


def main():
    if {"-h", "--help"} & set(sys.argv[1:]):
        print(__doc__)
        return 0
    file = sys.argv[1] if len(sys.argv) > 1 else os.path.join(HERE, "first_requests.hex")
    s4d, s4 = program_of(2, "s4d"), program_of(3, "s4")
    turned = [sys.executable, os.path.join(HERE, "hex.py"), "bytes", file]
    data = subprocess.run(turned, capture_output=True, check=True).stdout
    data += frame(LARGE_WRITE) + frame(SMALLER) + frame(APPEND)
    status, full, errors = run(s4d, ["pipe", "client"], data, None, None)
    if status != 0 or errors or not full:
        sys.exit(f"with no limit: status {status}, {errors!r}")
    status, output, errors = run(s4d, ["pipe", "nobody"], data, None, None)
    if status != 2 or output or not is_one_line(s4d, errors):
        sys.exit(f"words that spell no command: status {status}, {errors!r}")
    sweep = Sweep(s4d, data, full)
    sweep.sweep_stacks()
    sweep.sweep_spaces()
    faults = sweep.faults + sweep_commands(s4d, s4)
    print(f"limits: {faults} faults")
    return 1 if faults else 0


if __name__ == "__main__":
    sys.exit(main())
