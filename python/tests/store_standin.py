"""A stand-in for the programs `s4d`, `s4` and `s4serve`, as far as a store calls them, over a drive in a file of changes.

    s4d new --window W IMAGE FRAMES;  s4serve --door ROLE=DIR.. IMAGE;  s4 list|log --json -- IMAGE;  s4 list --json --versions --contents ..

Each change is in the file before its reply, so a kill loses nothing that was replied. The name by which it is called says which
program it is. ROOM in its environment is how many bytes all changes may write, CHAIN how many changes an object may have. Where it has
EARLIER, `s4 list` has no versions; where it has BROKEN, images with that in their paths can't be served.
"""
import json
import os
import pathlib
import sys
import time

from .plain_drive import PlainDrive, Refusal
from .standin import Service

NO_SPACE, CHAIN_FULL = 9, 12


class LastingDrive(PlainDrive):
    """A plain drive whose moments are the machine's time, and whose accepted changes are in a file."""

    def __init__(self, path: str, room: int, chain: int) -> None:
        super().__init__()
        self.path, self.file, self.room, self.chain = path, None, 2**60, 2**60
        with open(path, encoding="ascii") as lines:
            self.window = json.loads(lines.readline())["window"]
            for line in lines:
                if line.endswith("\n"):
                    moment, body = line.split()
                    self.now = int(moment)
                    self.answer("admin", bytes.fromhex(body))
        self.now, self.room, self.chain, self.written = None, room, chain, os.path.getsize(path) // 2

    def tick(self):
        """The clock goes on with the machine's time, before each request."""
        moment = self.now if self.now is not None else max(self.clock + 1, time.time_ns() // 1_000)
        self.clock = moment - 1
        self.floor = max(self.floor, self.clock - self.window)
        return moment

    def answer(self, role: str, data: bytes) -> bytes:
        moment = self.tick()
        if self.now is None and data[0] in (1, 4):
            if self.written + len(data) > self.room:
                return bytes([0, NO_SPACE])
            if data[0] == 4 and len(self.versions.get(int.from_bytes(data[1:9], "big"), ())) > self.chain:
                return bytes([0, CHAIN_FULL])
        reply = super().answer(role, data)
        if self.file is not None and reply[0] in (1, 2):
            line = f"{moment} {data.hex()}\n".encode("ascii")
            os.write(self.file, line)
            self.written += len(data)
        return reply


def new(words):
    window, path = words[1], words[2]
    pathlib.Path(path).write_text(json.dumps({"window": int(window)}) + "\n", encoding="ascii")


def serve(words):
    said = " ".join(words).replace("--door=", "--door ").split()
    doors = [word.split("=", 1) for before, word in zip(said, said[1:]) if before == "--door"]
    folder = pathlib.Path(doors[0][1]).parent
    service = Service(folder, [])
    if os.environ.get("BROKEN", "\0") in words[-1]:
        sys.exit(f"s4serve: {words[-1]}: Read-only file system")
    drive = LastingDrive(words[-1], int(os.environ.get("ROOM", 2**60)), int(os.environ.get("CHAIN", 2**60)))
    drive.file = os.open(words[-1], os.O_WRONLY | os.O_APPEND)
    service.drive = drive
    for role, _ in doors:
        service.attend(role)
    print(f"s4serve: serves {words[-1]}", file=sys.stderr, flush=True)
    service.ended.wait()
    time.sleep(0.05)  # for the requests that sessions are in
    with service.lock:
        os._exit(0)


def listed(words):
    if words == ["--help"]:
        print("--json" if "EARLIER" in os.environ else "--json --versions --contents")
        return
    drive = LastingDrive(words[-1], 2**60, 2**60)
    for number, versions in sorted(drive.versions.items()):
        last = versions[-1]
        if last.is_live:
            row = {"object": number, "state": "live", "size": len(last.data), "created": last.created, "created_time": None,
                   "changed": last.moment, "changed_time": None, "attribute": last.attribute.hex(), "attribute_text": None}
            if "--versions" in words:
                ends = [*(it.moment for it in versions[1:]), drive.clock + 1]
                row["versions"] = [{"moment": max(it.moment, drive.floor), "changed": it.moment, "size": len(it.data),
                                    "contents": it.data.hex()} for it, end in zip(versions, ends) if end > drive.floor]
            print(json.dumps(row))


def logged(words):
    drive = LastingDrive(words[-1], 2**60, 2**60)
    kinds = {1: "made", 2: "deleted", 4: "written"}
    for moment, kind, number, *_ in drive.rows:
        print(json.dumps({"moment": moment, "time": None, "object": number, "kind": kinds[kind], "size_before": 0,
                          "size_after": 0, "first_block": None, "last_block": None, "attribute_before": None,
                          "attribute_after": None}))


def programs(folder):
    """Scripts in a folder that are these programs, by their names."""
    top = pathlib.Path(__file__).resolve().parents[1]
    for name in ("s4d", "s4", "s4serve"):
        path = pathlib.Path(folder) / name
        path.write_text(f"#!/bin/sh\nPYTHONPATH={top} exec {sys.executable} -S -B -m tests.store_standin {name} \"$@\"\n",
                        encoding="utf-8")
        path.chmod(0o700)
    return {name: str(pathlib.Path(folder) / name) for name in ("s4d", "s4", "s4serve")}


if __name__ == "__main__":
    {"new": new, "list": listed, "log": logged}.get(sys.argv[2], lambda words: serve(sys.argv[2:]))(sys.argv[3:])
