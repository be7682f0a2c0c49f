"""What the words of a bridge's call say."""
from __future__ import annotations

import argparse
import os
import re
import sys
from dataclasses import dataclass, field
from typing import Dict, NamedTuple, NoReturn, Optional, Sequence, Tuple

from .access_log import LOG_BYTES, say
from .handshakes import HANDSHAKE_SECONDS
from .pace import TIMES, Share, share_of
from .trust import Tls


class UnixSocket(NamedTuple):
    """A Unix socket to listen on: the role of its clients, its path and its mode."""

    role: str
    path: str
    mode: int


@dataclass(frozen=True)
class Settings:
    """What the command line says. Times are in seconds."""

    doors: str
    unix: Sequence[UnixSocket] = ()
    tls: Optional[Tls] = None
    seats: Dict[str, int] = field(default_factory=dict)
    queue: int = 64
    wait: float = 10.0
    idle: float = 60.0
    grace: float = 10.0
    log: Optional[str] = None
    port: Optional[int] = None
    image: Optional[str] = None
    s4: str = "s4"
    handshake: float = HANDSHAKE_SECONDS
    ready: Optional[int] = None
    share: Share = Share()
    log_bytes: int = LOG_BYTES


class Parser(argparse.ArgumentParser):
    """A parser that says a fault in one line."""

    def error(self, message: str) -> NoReturn:
        say(f"{message}; --help lists the options")
        sys.exit(2)


def unix_socket(text: str) -> UnixSocket:
    found = re.fullmatch(r"([a-z0-9-]+)=(.+?)(?::([0-7]{3}))?", text)
    if found is None:
        raise argparse.ArgumentTypeError(f"{text!r} is no ROLE=PATH[:MODE], as client=client.sock:660")
    return UnixSocket(found[1], found[2], int(found[3] or "600", 8))


def seats(text: str) -> Tuple[str, int]:
    found = re.fullmatch(r"([a-z0-9-]+)=([1-9][0-9]{0,4})", text)
    if found is None:
        raise argparse.ArgumentTypeError(f"{text!r} is no ROLE=N, as client=16")
    return found[1], int(found[2])


def share(text: str) -> Share:
    try:
        return share_of(text)
    except ValueError as error:
        raise argparse.ArgumentTypeError(str(error)) from None


def size(text: str) -> int:
    found = re.fullmatch(r"([1-9][0-9]{0,8})(KiB|MiB)?", text)
    if found is None:
        raise argparse.ArgumentTypeError(f"{text!r} is no size, as 32MiB")
    return int(found[1]) * TIMES[found[2] or ""]


def host_and_port(text: str) -> Tuple[str, int]:
    host, _, number = text.rpartition(":")
    if not host:
        raise argparse.ArgumentTypeError(f"{text!r} is no HOST:PORT")
    return host.strip("[]"), port(number)


def port(text: str) -> int:
    if not re.fullmatch(r"[0-9]{1,5}", text) or int(text) > 65_535:
        raise argparse.ArgumentTypeError(f"{text!r} is no port")
    return int(text)


def seconds(text: str) -> float:
    if not re.fullmatch(r"[0-9]{1,9}(\.[0-9]+)?", text):
        raise argparse.ArgumentTypeError(f"{text!r} is no number of seconds")
    return float(text)


def descriptor(text: str) -> int:
    """A descriptor that is open: it is looked for before this program opens any itself."""
    number = count(text)
    try:
        os.fstat(number)
    except OSError:
        raise argparse.ArgumentTypeError(f"{text!r} is no open descriptor") from None
    if number < 3:
        raise argparse.ArgumentTypeError(f"{text!r} is a standard stream: give 3 or more")
    return number


def count(text: str) -> int:
    if not re.fullmatch(r"[0-9]{1,9}", text):
        raise argparse.ArgumentTypeError(f"{text!r} is no number")
    return int(text)


def parser() -> Parser:
    """The options. Those without a default may be left out."""
    made = Parser(prog="python3 -m s4d.bridge", allow_abbrev=False,
                  description="Serves sockets by the doors of a running service.")
    add = made.add_argument
    add("--doors", metavar="DIR", required=True, help="the folder in which each role's door is, as DIR/client/door")
    add("--unix", metavar="ROLE=PATH[:MODE]", type=unix_socket, action="append", default=[],
        help="a Unix socket whose clients have this role; its mode is 600 where none is given")
    add("--tls", metavar="HOST:PORT", type=host_and_port, help="a port for TLS; it needs the four options that follow")
    add("--cert", metavar="FILE", help="this side's certificate")
    add("--key", metavar="FILE", help="its key")
    add("--client-ca", metavar="FILE", help="the authority of the clients' certificates")
    add("--roles", metavar="FILE", help="lines of a role and the common name that has it")
    add("--sessions", metavar="ROLE=N", type=seats, action="append", default=[],
        help="sessions of a role at once (admin=4, other roles 16)")
    add("--queue", metavar="N", type=count, default=64, help="clients of a role that may wait for a session (64)")
    add("--share", metavar="SHARE", type=share, default=Share(),
        help="what each peer of a role but admin may use, as sessions=12,changes=50/s,bytes=1MiB/min (sessions: three quarters of the role's)")
    add("--wait", metavar="SECONDS", type=seconds, default=10.0,
        help="how long a client waits for a session, for the service to open it, and for its share (10)")
    add("--handshake", metavar="SECONDS", type=seconds, default=HANDSHAKE_SECONDS,
        help="how long a handshake of TLS may take, from the connection on (5)")
    add("--idle", metavar="SECONDS", type=seconds, default=60.0,
        help="how long a session may be idle while others wait (60)")
    add("--grace", metavar="SECONDS", type=seconds, default=10.0,
        help="how long sessions may take to end at SIGTERM (10)")
    add("--log", metavar="FILE", help="the access log; standard output where none is given")
    add("--log-size", metavar="SIZE", type=size, default=LOG_BYTES,
        help="how large the log's file becomes before it is FILE.1, and that FILE.2, up to 7 (32MiB)")
    add("--ready-fd", metavar="N", type=descriptor,
        help="an open descriptor that gets the line `ready` once clients get sessions, and is closed then")
    add("--local", metavar="PORT", type=port, help="a port of 127.0.0.1 for /health and /metrics")
    add("--image", metavar="FILE", help="the image, for the drive's numbers in /metrics")
    add("--s4", metavar="PROGRAM", default="s4", help="the program that reads them (s4)")
    return made


def settings_of(words: Sequence[str]) -> Settings:
    """What the words say. Where they are wrong, the program ends with a line and status 2."""
    options = parser()
    found = options.parse_args(words)
    files = {"--cert": found.cert, "--key": found.key, "--client-ca": found.client_ca, "--roles": found.roles}
    missing = [name for name, path in files.items() if path is None]
    if not found.unix and found.tls is None:
        options.error("give at least one --unix or --tls")
    if found.tls is None and len(missing) < len(files):
        options.error(f"{next(name for name in files if name not in missing)} is for --tls alone")
    if found.tls is not None and missing:
        options.error(f"--tls needs {missing[0]}")
    if found.image is not None and found.local is None:
        options.error("--image is for --local alone")
    tls = None if found.tls is None else Tls(*found.tls, *files.values())
    return Settings(found.doors, found.unix, tls, dict(found.sessions), found.queue, found.wait, found.idle,
                    found.grace, found.log, found.local, found.image, found.s4, found.handshake, found.ready_fd, found.share,
                    found.log_size)
