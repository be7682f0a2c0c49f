"""A store's folder: the file `store.json`, the file of keys, and a folder for each drive."""
from __future__ import annotations

import contextlib
import json
import os
import re
import secrets
import subprocess
from dataclasses import asdict, dataclass, replace
from typing import Any, Dict, List, NamedTuple, Tuple

from ..addresses import address_of

DRIVES = range(1, 65)  # how many a store may have
FRAMES = range(24, 1_025)
VERSION = 1  # of the folder's layout
UNITS = {"s": 1, "m": 60, "h": 3_600, "d": 86_400, "w": 604_800}
DURATION = re.compile(r"([1-9][0-9]{0,8})([smhdw])")
ID = re.compile("([0-9a-f]{16})?")
LONGEST = 36_500 * 86_400 * 1_000_000  # microseconds of a duration: times after it still have a date
ROLES = ("client", "admin")  # the doors of each drive
REMOTE_NAMES = ("address", "ca", "cert", "key")  # what is said of a drive of another machine


class StoreFault(Exception):
    """Something of a store can't be had: its one line says what, and what to do."""


class Modes(NamedTuple):
    """The modes of a store's folders and files."""

    folder: int
    file: int
    door: int
    fifo: int


# Where the services are of another user than the gateway, their group is the gateway's, which reads the images and reaches the doors of
# clients; those of administrators it doesn't. What it makes at a door is the group's, too.
MODES = {False: Modes(0o700, 0o600, 0o700, 0o600), True: Modes(0o750, 0o640, 0o2770, 0o660)}


@dataclass(frozen=True)
class Remote:
    """A drive of another machine: its number, the address `tls:HOST:PORT` of its bridge, and paths of files in PEM: the authority of
    that one's certificate, and the store's own certificate and key.
    """

    drive: int
    address: str
    ca: str
    cert: str
    key: str


@dataclass(frozen=True)
class Settings:
    """What a store was made with: how many drives of how many frames, and for how long they keep the past. Its id, which those
    that were made first haven't, tells it from others. `remote` are those of the drives that are on other machines. Where it finds
    the services of the others, some other program starts and stops them.
    """

    drives: int
    frames: int
    keep: str
    id: str = ""
    remote: Tuple[Remote, ...] = ()
    finds: bool = False

    @property
    def window(self) -> int:
        """The time that `keep` says, in microseconds."""
        return microseconds(self.keep)


@dataclass(frozen=True)
class Programs:
    """The programs of the drives, by their names on the path or their paths."""

    s4d: str = "s4d"
    s4: str = "s4"
    s4serve: str = "s4serve"


def microseconds(duration: str) -> int:
    """The time that a word as `30d` says; ValueError where it says none, or one that is too long."""
    found = DURATION.fullmatch(duration)
    if found is None:
        raise ValueError(f"{duration!r} is no duration, as 30d: a number and s, m, h, d or w")
    time = int(found[1]) * UNITS[found[2]] * 1_000_000
    if time > LONGEST:
        raise ValueError(f"{duration} is longer than {LONGEST // UNITS['d'] // 1_000_000:,} days")
    return time


def drive_folder(folder: str, number: int) -> str:
    return os.path.join(folder, "drives", f"{number:02}")


def image_path(folder: str, number: int) -> str:
    return os.path.join(drive_folder(folder, number), "image")


def keys_path(folder: str) -> str:
    return os.path.join(folder, "keys")


def make_store(folder: str, settings: Settings, programs: Programs) -> None:
    """Makes a store in a folder that isn't there, or is empty. StoreFault where that can't be done.

    The file `store.json` comes last, once all else is on the disk: a folder without it is no store.
    """
    drives = os.path.join(folder, "drives")
    try:
        os.makedirs(folder, 0o700, exist_ok=True)
        if os.listdir(folder):
            raise StoreFault(f"{folder} isn't empty: name another folder, or remove what is there")
        os.mkdir(drives, 0o700)
        for path in (folder, drives) if settings.finds else ():
            os.chmod(path, MODES[True].folder)
        for number in range(settings.drives):
            make_drive(folder, number, settings, programs)
        write_new(keys_path(folder), keys_text(), MODES[settings.finds].file)
        for path in (drives, folder, os.path.dirname(os.path.abspath(folder))):
            sync_folder(path)
        write_settings(folder, replace(settings, id=secrets.token_hex(8)))
    except OSError as error:
        raise StoreFault(f"{error.filename or folder}: {error.strerror or error}") from error


def make_drive(folder: str, number: int, settings: Settings, programs: Programs) -> None:
    """The folder of a drive: its doors and its image, whose program has it on the disk."""
    for role in ROLES:
        doors = os.path.join(drive_folder(folder, number), "doors", role)
        modes = MODES[settings.finds and role == "client"]
        os.makedirs(doors)
        os.chmod(doors, modes.door)
        os.mkfifo(os.path.join(doors, "door"), 0o600)
        os.chmod(os.path.join(doors, "door"), modes.fifo)
    words = [programs.s4d, "new", "--window", str(settings.window), image_path(folder, number), str(settings.frames)]
    ran = subprocess.run(words, stdin=subprocess.DEVNULL, stdout=subprocess.PIPE, stderr=subprocess.PIPE, check=False)
    if ran.returncode:
        said = ran.stderr.decode("utf-8", "replace").strip() or f"status {ran.returncode}"
        raise StoreFault(f"drive {number} can't be made: {said}")
    sync_folder(os.path.join(drive_folder(folder, number), "doors"))
    sync_folder(drive_folder(folder, number))


def write_settings(folder: str, settings: Settings) -> None:
    """Writes the file `store.json`, which is whole whenever it is there."""
    path = os.path.join(folder, "store.json")
    said: Dict[str, Any] = {"version": VERSION, "drives": settings.drives, "frames": settings.frames, "keep": settings.keep,
                            "id": settings.id}
    if settings.remote:
        said["remote"] = [asdict(it) for it in settings.remote]
    if settings.finds:
        said["found"] = True
    with contextlib.suppress(FileNotFoundError):
        os.unlink(f"{path}.new")  # of a program that was killed
    write_new(f"{path}.new", json.dumps(said) + "\n", MODES[settings.finds].file)
    os.rename(f"{path}.new", path)
    sync_folder(folder)


def keys_text() -> str:
    """The file of keys of a new store: one key, with all rights."""
    return f"# access key, secret, read or write, buckets\ns4{secrets.token_hex(9)} {secrets.token_urlsafe(30)} write *\n"


def write_new(path: str, text: str, mode: int = 0o600) -> None:
    """Writes a file that isn't there, mostly for its owner alone, and waits until it is on the disk."""
    number = os.open(path, os.O_WRONLY | os.O_CREAT | os.O_EXCL | os.O_CLOEXEC, 0o600)
    with open(number, "w", encoding="utf-8") as file:
        os.fchmod(number, mode)
        file.write(text)
        file.flush()
        os.fsync(number)


def sync_folder(path: str) -> None:
    """Waits until the names in a folder are on the disk."""
    number = os.open(path, os.O_RDONLY | os.O_DIRECTORY | os.O_CLOEXEC)
    try:
        os.fsync(number)
    finally:
        os.close(number)


def settings_in(folder: str) -> Settings:
    """What `store.json` says; StoreFault where there is no store."""
    path = os.path.join(folder, "store.json")
    try:
        with open(path, encoding="utf-8") as file:
            said = json.load(file)
    except FileNotFoundError:
        raise StoreFault(f"{folder} is no store: make one by `python3 -m s4d.store init {folder}`") from None
    except (OSError, ValueError) as error:
        raise StoreFault(f"{path}: {getattr(error, 'strerror', None) or error}") from error
    return settings_of(said, path)


def settings_of(said: Any, path: str) -> Settings:
    """The settings that the JSON says; StoreFault where it says none."""
    if not isinstance(said, dict) or said.get("version") != VERSION:
        raise StoreFault(f"{path} isn't of version {VERSION}")
    faults = faults_of(said)
    if faults:
        raise StoreFault(f"{path}: {faults[0]}")
    remote = tuple(Remote(**it) for it in said.get("remote", []))
    return Settings(said["drives"], said["frames"], said["keep"], said.get("id", ""), remote, said.get("found", False))


def faults_of(said: Dict[str, Any]) -> List[str]:
    """What is wrong with the numbers of a store."""
    faults = [f"{name} is no number from {known[0]} to {known[-1]}" for name, known in (("drives", DRIVES), ("frames", FRAMES))
              if type(said.get(name)) is not int or said[name] not in known]
    if not isinstance(said.get("id", ""), str) or ID.fullmatch(said.get("id", "")) is None:
        faults.append("id is none of a store")
    if not isinstance(said.get("found", False), bool):
        faults.append("found is neither true nor false")
    try:
        microseconds(str(said.get("keep")))
    except ValueError as error:
        faults.append(f"keep: {error}")
    return faults or faults_of_remote(said.get("remote", []), range(said["drives"]))


def faults_of_remote(said: Any, drives: range) -> List[str]:
    """What is wrong with what is said of drives of other machines."""
    names = {"drive", *REMOTE_NAMES}
    if not isinstance(said, list) or not all(isinstance(it, dict) and set(it) == names for it in said):
        return [f"remote is no list of drives, each with {', '.join(('drive', *REMOTE_NAMES))}"]
    numbers = [it["drive"] for it in said]
    if not all(type(it) is int and it in drives for it in numbers) or len(set(numbers)) < len(numbers):
        return ["remote: a drive is none of the store, or named twice"]
    if not all(isinstance(it[name], str) for it in said for name in REMOTE_NAMES):
        return [f"remote: {', '.join(REMOTE_NAMES)} are texts"]
    return [f"remote: {it['address']!r} is no tls:HOST:PORT" for it in said if not is_tls_address(it["address"])]


def is_tls_address(text: str) -> bool:
    try:
        return address_of(text).kind == "tls"
    except ValueError:
        return False
