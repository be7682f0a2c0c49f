"""The commands of a store: `init` makes one, `serve` starts its drives and the gateway before them, `add` gives it more drives, and
`rebalance` moves what it has to those that have less.
"""
from __future__ import annotations

import argparse
import asyncio
import signal
import sys
from typing import List, NoReturn, Optional, Sequence, Tuple

from ..access_log import AccessLog
from ..open_files import allow_open_files
from ..s3.past import moment_in
from .adding import add_drives, add_remote
from .opening import OpenStore
from .rebalance import Moves, Rebalance
from .service import say
from .serving import Past, Serving, Wanted
from .settings import (DRIVES, FRAMES, REMOTE_NAMES, Programs, Settings, StoreFault, is_tls_address, keys_path, make_store,
                       microseconds)


class Parser(argparse.ArgumentParser):
    """A parser that says a fault in one line."""

    def error(self, message: str) -> NoReturn:
        say(f"{message}; --help lists the options")
        sys.exit(2)


def number_in(known: range, text: str) -> int:
    if not text.isascii() or not text.isdigit() or len(text) > 5 or int(text) not in known:
        raise argparse.ArgumentTypeError(f"{text!r} is no number from {known[0]} to {known[-1]}")
    return int(text)


def drives(text: str) -> int:
    return number_in(DRIVES, text)


def frames(text: str) -> int:
    return number_in(FRAMES, text)


def duration(text: str) -> str:
    try:
        microseconds(text)
    except ValueError as error:
        raise argparse.ArgumentTypeError(str(error)) from None
    return text


def host_and_port(text: str) -> Tuple[str, int]:
    host, _, port = text.rpartition(":")
    if not host or not port.isascii() or not port.isdigit() or len(port) > 5 or int(port) > 65_535:
        raise argparse.ArgumentTypeError(f"{text!r} is no HOST:PORT")
    return host.strip("[]"), int(port)


def tls_address(text: str) -> str:
    if not is_tls_address(text):
        raise argparse.ArgumentTypeError(f"{text!r} is no tls:HOST:PORT")
    return text


def port(text: str) -> int:
    return number_in(range(65_536), text)


def add_serving(made: argparse.ArgumentParser) -> None:
    """Gives a parser the options of what serves a store."""
    made.add_argument("--listen", metavar="HOST:PORT", type=host_and_port, default=("127.0.0.1", 9000),
                      help="where clients come (127.0.0.1:9000)")
    made.add_argument("--at", nargs=2, metavar=("MOMENT", "HOST:PORT"), action="append", default=[],
                      help="where clients come that read all as it was at a moment; more than one may be given")
    made.add_argument("--local", metavar="PORT", type=port, help="a port of 127.0.0.1 for /health and /metrics")
    made.add_argument("--cert", metavar="FILE", help="a certificate, for TLS")
    made.add_argument("--key", metavar="FILE", help="its key")
    made.add_argument("--keys", metavar="FILE", help="the file of access keys (DIR/keys)")
    made.add_argument("--log", metavar="FILE", help="the access log; none is written where none is given")
    made.add_argument("--rebalance", action="store_true", help="does meanwhile what the command rebalance does")
    add_programs(made)


def add_programs(made: argparse.ArgumentParser) -> None:
    """Gives a parser the options of what starts drives."""
    made.add_argument("--leap", metavar="DURATION", type=duration, help="as s4serve takes it")
    made.add_argument("--s4", metavar="PROGRAM", default="s4", help="the program that reads images (s4)")
    made.add_argument("--s4serve", metavar="PROGRAM", default="s4serve", help="the program that serves a drive (s4serve)")


def parser() -> Parser:
    """The options of all commands."""
    made = Parser(prog="python3 -m s4d.store", allow_abbrev=False, description="A store over many drives.")
    commands = made.add_subparsers(dest="command", required=True, parser_class=Parser)
    init = commands.add_parser("init", help="makes a store in a folder", allow_abbrev=False)
    init.add_argument("folder", metavar="DIR")
    init.add_argument("--drives", type=drives, default=16, help="how many drives it has (16)")
    init.add_argument("--frames", type=frames, default=1_024, help="how many frames each has (1024)")
    init.add_argument("--keep", type=duration, default="30d", help="for how long versions are kept (30d)")
    init.add_argument("--found", action="store_true", help="others start its drives, as systemd by s4serve@.service: it finds them served")
    init.add_argument("--s4d", metavar="PROGRAM", default="s4d", help="the program that makes a drive (s4d)")
    serve = commands.add_parser("serve", help="starts its drives, and a gateway before them", allow_abbrev=False)
    serve.add_argument("folder", metavar="DIR")
    add_serving(serve)
    add = commands.add_parser("add", help="gives a store more drives, while it isn't served", allow_abbrev=False)
    add.add_argument("folder", metavar="DIR")
    which = add.add_mutually_exclusive_group(required=True)
    which.add_argument("--drives", type=drives, help="how many more are made in its folder")
    which.add_argument("--remote", metavar="tls:HOST:PORT", type=tls_address, help="one of another machine, which a bridge serves there")
    add.add_argument("--ca", metavar="FILE", help="the authority of that bridge's certificate")
    add.add_argument("--cert", metavar="FILE", help="the store's certificate, whose name has the role client there")
    add.add_argument("--key", metavar="FILE", help="its key")
    add.add_argument("--s4d", metavar="PROGRAM", default="s4d", help="the program that makes a drive (s4d)")
    add.add_argument("--s4", metavar="PROGRAM", default="s4", help="the program that reads images (s4)")
    moving = commands.add_parser("rebalance", help="moves what a store has to the drives that have less", allow_abbrev=False)
    moving.add_argument("folder", metavar="DIR")
    add_programs(moving)
    return made


def fault_of(error: Exception) -> str:
    """A line that says what couldn't be had, and why."""
    if isinstance(error, OSError) and error.filename is not None:
        return f"{error.filename}: {error.strerror}"
    return str(error)


def wanted_of(found: argparse.Namespace) -> Wanted:
    """What serves the store, as the options say it."""
    past = [Past(moment_in(moment), *host_and_port(listen)) for moment, listen in found.at]
    host, number = found.listen
    return Wanted(host, number, found.keys or keys_path(found.folder), found.cert, found.key, found.local, past, found.rebalance)


async def serve(found: argparse.Namespace) -> int:
    """Serves until a signal ends it: the status."""
    allow_open_files()
    log = AccessLog(found.log) if found.log is not None else None
    opened = OpenStore(found.folder, Programs(s4=found.s4, s4serve=found.s4serve), found.leap)
    serving = Serving(opened, wanted_of(found), log, found.s4)
    ended, loop = asyncio.Event(), asyncio.get_running_loop()
    for number in (signal.SIGTERM, signal.SIGINT):
        loop.add_signal_handler(number, ended.set)
    loop.add_signal_handler(signal.SIGHUP, serving.reload)
    starting, waiting = asyncio.ensure_future(serving.start()), asyncio.ensure_future(ended.wait())
    try:
        await asyncio.wait({starting, waiting}, return_when=asyncio.FIRST_COMPLETED)
        if starting.done():
            print("\n".join(starting.result()), flush=True)
            await waiting
            await serving.close()
        return 0
    finally:
        for task in (starting, waiting):
            task.cancel()
        await asyncio.wait({starting, waiting})
        await opened.stop()
        if log is not None:
            log.close()


async def rebalance(found: argparse.Namespace) -> int:
    """Moves what there is to move, until a signal ends it: the status."""
    allow_open_files()
    opened = OpenStore(found.folder, Programs(s4=found.s4, s4serve=found.s4serve), found.leap)
    moving, loop = asyncio.ensure_future(moved_of(opened)), asyncio.get_running_loop()
    for number in (signal.SIGTERM, signal.SIGINT):
        loop.add_signal_handler(number, moving.cancel)
    try:
        await asyncio.wait({moving})
        if moving.cancelled():
            return 1
        moves, loads = moving.result()
        print("\n".join(moves.lines(loads)), flush=True)
        return 1 if moves.kept else 0
    finally:
        await opened.stop()


async def moved_of(opened: OpenStore) -> Tuple[Moves, List[int]]:
    """What was moved, and what each drive has then."""
    rebalancing = Rebalance(await opened.start())
    return await rebalancing.run(), rebalancing.loads


def add(found: argparse.Namespace) -> int:
    """Gives a store more drives, and says how they are used."""
    programs = Programs(s4d=found.s4d, s4=found.s4)
    if found.remote is not None:
        count = add_remote(found.folder, found.remote, [found.ca, found.cert, found.key], programs)
    else:
        count = add_drives(found.folder, found.drives, programs)
    print(f"{found.folder} has {count} drives; what it has is moved to the new ones by: "
          f"python3 -m s4d.store rebalance {found.folder}")
    return 0


def init(found: argparse.Namespace) -> int:
    """Makes a store, and says how it is served."""
    make_store(found.folder, Settings(found.drives, found.frames, found.keep, finds=found.found), Programs(s4d=found.s4d))
    print(f"made {found.folder}; its access key is in {keys_path(found.folder)}; serve it by: "
          f"python3 -m s4d.store serve {found.folder}")
    return 0


def main(words: Optional[Sequence[str]] = None) -> int:
    """The program: its status."""
    options = parser()
    return run(options, options.parse_args(words))


def run(options: Parser, found: argparse.Namespace) -> int:
    """Does what was asked, if the words go together: the status."""
    if found.command == "serve" and (found.cert is None) != (found.key is None):
        options.error("--cert and --key need each other")
    if found.command == "add":
        files = [name for name in REMOTE_NAMES[1:] if getattr(found, name) is not None]
        if len(files) != (0 if found.remote is None else 3):
            options.error("--remote, --ca, --cert and --key need each other")
    if found.command == "serve":
        try:
            wanted_of(found)
        except (argparse.ArgumentTypeError, ValueError, OverflowError) as error:
            options.error(f"--at: {error}")
    try:
        if found.command in ("init", "add"):
            return init(found) if found.command == "init" else add(found)
        return asyncio.run(serve(found) if found.command == "serve" else rebalance(found))
    except (StoreFault, OSError, ValueError) as error:
        say(fault_of(error))
        return 1
