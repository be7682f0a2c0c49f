"""The command line of `s4d.restore`."""
from __future__ import annotations

import argparse
import os
import sys
import time
from typing import NoReturn, Optional, Sequence

from ..drive import Drive
from ..errors import Disconnected, Error
from ..history import TIMES, present
from ..image import Image
from ..moments import machine_time
from ..rows import Info
from ..tls import Tls
from .asking import Asker, Fault
from .reach import NOBODY
from .restoring import Done, Restore, Wanted
from .saying import Sayer, standard
from .words import Word, text_of, word_in


TO_FLUSH = "--flush hides moments of what is deleted, and of full journals, in steps until that serves"
NO_MORE_ROOM = ("no more may be hidden: what objects held at the moment stays readable, so the drive has to have room for that, for what they hold "
                "now, and for what they get; objects that are deleted first, or a larger drive, give some")


class Parser(argparse.ArgumentParser):
    """A parser that says a fault in one line."""

    def error(self, message: str) -> NoReturn:
        standard().say(f"{message}; --help lists the options")
        sys.exit(2)


def moment(text: str) -> Word:
    try:
        return word_in(text, machine_time())
    except ValueError as error:
        raise argparse.ArgumentTypeError(str(error)) from None


def number(text: str) -> int:
    if not text.isascii() or not text.isdigit() or not 0 < int(text) < 2**64:
        raise argparse.ArgumentTypeError(f"{text!r} is no object's number")
    return int(text)


def parser() -> Parser:
    made = Parser(prog="python3 -m s4d.restore", allow_abbrev=False,
                  description="Makes the objects of a drive that is served what they were at a moment, by an administrator's session.")
    made.add_argument("--connect", metavar="ADDRESS", required=True, help="where administrators come: unix:PATH, tls:HOST:PORT or HOST:PORT")
    made.add_argument("--at", metavar="M", type=moment, required=True, help="the moment: a number, a time as 2026-11-27T13:18:02Z, or an age as 2h")
    made.add_argument("--object", metavar="N", type=number, action="append", default=[], help="this object alone; may be given several times")
    made.add_argument("--created-since", metavar="M", type=moment, help="the objects alone that were made from this moment on, beside those named")
    made.add_argument("--dry-run", action="store_true", help="prints what would be done, and changes nothing")
    made.add_argument("--flush", action="store_true", help="hides moments, for good, where there is no room without that")
    made.add_argument("--to-nothing", action="store_true", help="restores also where no object is left")
    made.add_argument("--image", metavar="IMAGE", help="the drive's image, beside which the service runs: it is read, and no more")
    made.add_argument("--s4", metavar="PROGRAM", default="s4", help="the program that reads the image (s4)")
    made.add_argument("--ca", metavar="FILE", help="the authority of the other side's certificate, for TLS")
    made.add_argument("--cert", metavar="FILE", help="this side's certificate")
    made.add_argument("--key", metavar="FILE", help="its key")
    return made


def connected(found: argparse.Namespace) -> Drive:
    """A session, by which nothing was asked yet. Fault where none is to be had."""
    tls = None if found.ca is None and found.cert is None and found.key is None else Tls(found.ca, found.cert, found.key)
    try:
        return Drive.connect(found.connect, tls=tls)
    except OSError as error:
        raise Fault(f"{found.connect}: {error.strerror or error}") from error


def moment_of(name: str, word: Word, clock: int, sayer: Sayer) -> int:
    """The moment that a word says. Fault where moments are numbers and it is a time."""
    if not word.is_time:
        return word.moment
    if clock < TIMES:
        raise Fault(f"the drive's moments are numbers, and no time or age is one; give one up to {clock}")
    moment = min(word.moment, clock)
    sayer.say(f"{name} is {text_of(moment)}{', where the clock is' if moment < word.moment else ''}")
    return moment


def summary_of(done: Done, wanted: Wanted, seconds: float) -> str:
    """What was done, or would be, in one line."""
    would = "would be " if wanted.dry_run else ""
    parts = [f"{done.changed:,} {would}changed", f"{done.deleted:,} {would}deleted", f"{done.remade:,} {would}made anew",
             f"{done.failed:,} not restored"]
    if not wanted.dry_run:
        parts += [f"{done.hidden:,} spans of moments hidden", f"{done.others:,} changed by others meanwhile",
                  f"by {done.changes:,} changes in {seconds:.1f} s"]
    return ", ".join(parts)


def restore(found: argparse.Namespace, drive: Drive, sayer: Sayer) -> int:
    """Restores what the options say: the status."""
    asker, begun = Asker(drive), time.monotonic()
    clock, _ = drive._search(present(NOBODY))
    asker.see(clock)
    at = moment_of("--at", found.at, clock, sayer)
    since = None if found.created_since is None else moment_of("--created-since", found.created_since, clock, sayer)
    wanted = Wanted(at, tuple(found.object), since, found.dry_run, found.flush, found.to_nothing)
    facts: Optional[Info] = None if found.image is None else Image(found.image, s4=found.s4).info()
    try:
        done = Restore(asker, wanted, sayer, facts).run()
    except (KeyboardInterrupt, Disconnected, BrokenPipeError):
        sayer.say(f"interrupted; the same command with --at {at} goes on where it was")
        raise
    sayer.say(summary_of(done, wanted, time.monotonic() - begun))
    if done.is_short:
        sayer.say(TO_FLUSH if not wanted.flush else NO_MORE_ROOM)
    return 1 if done.failed else 0


def main(words: Optional[Sequence[str]] = None) -> int:
    """Runs the command: its status."""
    found, sayer = parser().parse_args(words), standard()
    try:
        with connected(found) as drive:
            return restore(found, drive, sayer)
    except BrokenPipeError:
        os.dup2(os.open(os.devnull, os.O_WRONLY), sys.stdout.fileno())  # else what is left in its buffer is written at the exit
        sayer.say("nobody reads standard output any more")
        return 1
    except KeyboardInterrupt:
        return 1
    except (Fault, Error, OSError, ValueError) as error:
        sayer.say(" ".join(str(error).split()))
        return 1
    finally:
        sayer.end()
