"""An image's file, by the commands `s4d new`, `verify` and `at`, and by those of `s4`."""
from __future__ import annotations

import os
from datetime import datetime, timedelta, timezone
from typing import Callable, Iterable, List, NamedTuple, NoReturn, Optional, Tuple, Union

from . import rows
from .drive import Drive
from .errors import REFUSALS, ProgramFailed
from .moments import EPOCH, MICROSECOND, When, checked_age, moment_of, with_offset
from .program import output_of, outputs_of
from .retry import NEVER, Retry
from .rows import (Aged, Change, ChangeKind, Checked, Compacted, Difference, Exported, Flush, Hidden, HiddenVersions,
                   Info, Listed, Restored, Stat, Widened)
from .wire import AuditKind, AuditRow

DIFFERS = 1  # the status of `diff` where anything differs
MANIFEST = "manifest.jsonl"  # the file that `export` writes last, a row for each object
AT_CLOCK = ", where the clock is"  # how the note ends of a time above the clock

Moment = Union[When, str]
Option = Union[Moment, ChangeKind, AuditKind, Tuple[int, ...], None]


class Facts(NamedTuple):
    """What `verify` says of an image: its frames, the objects that it keeps, clock, window and floor.

    The floor is the earliest moment that can be read.
    """

    frames: int
    objects: int
    clock: int
    window: int
    floor: int


class Export(NamedTuple):
    """What `export` wrote, by ascending number. A time above the clock is the clock, so that these are the objects as they are."""

    objects: List[Exported]
    is_clock: bool


class Image:
    """A drive's image in a file. Programs named otherwise than `s4d` and `s4` on the path are handed in.

    What fails in `s4` is raised as ProgramFailed, with the program's line and status. A moment is its number, a `datetime`
    with its offset from UTC, a `timedelta`, which is an age, or a text that `s4` takes, as `2026-11-27T13:18:02Z` or the age
    `2h`. With a timeout, in
    seconds, a command that takes longer is killed, and the file stays as it was; each wait of a session has it too.
    """

    def __init__(self, path: Union[str, os.PathLike[str]], program: str = "s4d", s4: str = "s4",
                 timeout: Optional[float] = None) -> None:
        self.path, self.program, self.s4, self.timeout = os.fspath(path), program, s4, timeout

    def make(self, frames: int, window: int = 100) -> None:
        """Writes the image of an empty drive; ProgramFailed where a file with bytes is there."""
        self._s4d("new", "--window", str(window), self.path, str(frames))

    def verify(self) -> Facts:
        """Reads the whole file; ProgramFailed where it is no image, or is damaged."""
        words = self._s4d("verify", self.path).decode().split()
        fields = dict(word.split("=") for word in words[1:])
        return Facts(**{name: int(fields[name]) for name in Facts._fields})

    def read(self, object: int, at: When) -> bytes:
        """The whole bytes of an object at a moment. Neither file nor clock changes, also while the image is served."""
        moment = moment_of(at)
        try:
            return self._s4d("at", self.path, str(object), str(moment))
        except ProgramFailed as failure:
            raise_refusal(failure, object, moment)

    def session(self, role: str = "client", *, tick: int = 0, upkeep: bool = True, retry: Retry = NEVER) -> Drive:
        """A session with the drive, which is saved when the session is closed.

        ImageServed where a program serves the image, or has it open in a session; NotAsked where it can't be had for
        another reason. Nothing is asked of the drive then.
        """
        return Drive.image(self.path, self.program, role, tick=tick, upkeep=upkeep, waits=True, timeout=self.timeout,
                           retry=retry)

    def list(self, at: Optional[Moment] = None, *, deleted: bool = False, versions: bool = False,
             contents: bool = False) -> List[Listed]:
        """The objects that are live at a moment, now where none is given, by ascending number; with `deleted` also those
        that were deleted before.

        With `versions` each has its versions that can be read at the moment or before, the oldest first, and with
        `contents` besides each of these has its bytes.
        """
        printed = self._s4("list", [], at=at, deleted=deleted, versions=versions, contents=contents, json=True)
        return rows.rows_of(printed, rows.listed)

    def log(self, *, object: Optional[int] = None, name: Optional[str] = None, since: Optional[Moment] = None,
            until: Optional[Moment] = None, kind: Union[ChangeKind, str, None] = None, limit: Optional[int] = None,
            by_object: bool = False, reverse: bool = False) -> List[Union[Change, Hidden, Flush]]:
        """What was changed, and what is hidden, by ascending moment: of all objects, or of one by its number or attribute.

        From the moment `since` up to `until`; of one kind alone, and no more changes than the limit, beside the hidden
        moments between. By object they are in the order of objects, and each order can be reversed. Then come the
        flushes that hid what is asked for, by ascending moment, whatever kind, limit and order.
        """
        printed = self._s4("log", [], object=object, name=name, since=since, until=until, kind=kind, limit=limit,
                           by_object=by_object, reverse=reverse, json=True)
        return rows.rows_of(printed, rows.logged)

    def audit(self, *, object: Optional[int] = None, since: Optional[Moment] = None, until: Optional[Moment] = None,
              kind: Union[AuditKind, str, None] = None, limit: Optional[int] = None) -> List[AuditRow]:
        """What was accepted from the floor on, whether a flush hides it or not, oldest first: the rows of `Drive.audit`.

        From the moment `since` up to `until`; of one object alone, 0 for what is of none, of one kind alone, and no more
        rows than the limit.
        """
        printed = self._s4("audit", [], object=object, since=since, until=until, kind=kind, limit=limit, json=True)
        return rows.rows_of(printed, rows.audited)

    def stats(self, *, object: Optional[int] = None, name: Optional[str] = None, since: Optional[Moment] = None,
              until: Optional[Moment] = None, kind: Union[ChangeKind, str, None] = None) -> List[Stat]:
        """How many changes each object has in the log that is asked for, and when, by ascending number."""
        printed = self._s4("log", [], object=object, name=name, since=since, until=until, kind=kind, stat=True,
                           json=True)
        return rows.rows_of(printed, rows.stat)

    def diff(self, before: Moment, after: Optional[Moment] = None, *, object: Optional[int] = None,
             name: Optional[str] = None, patch: bool = False, text: bool = False) -> List[Difference]:
        """What differs between two moments, the second the clock's where it isn't given, by ascending object.

        Nothing differs where the list is empty. With `patch` ranges have their bytes, with `text` differences have lines.
        """
        moments = [word_of(before)] if after is None else [word_of(before), word_of(after)]
        printed = self._s4("diff", moments, DIFFERS, object=object, name=name, patch=patch, text=text, json=True)
        return rows.rows_of(printed, rows.difference)

    def cat(self, object: Optional[int] = None, *, name: Optional[str] = None, at: Optional[Moment] = None) -> bytes:
        """The bytes of an object, by its number or its attribute, at a moment, now where none is given."""
        return self._s4("cat", [] if object is None else [str(object)], name=name, at=at)

    def export(self, folder: Union[str, os.PathLike[str]], at: Optional[Moment] = None,
               is_ended: Optional[Callable[[], bool]] = None) -> Export:
        """Writes the bytes of each object that is live at a moment, now where none is given, into a folder.

        The folder is made where it isn't there, and has to be empty. Where it fails, what was written by then stays there.
        It fails too where `is_ended` says so, which is asked from time to time.
        """
        path = os.fspath(folder)
        said = outputs_of(self._words("export", [path], at=at), self.timeout, is_ended=is_ended)[1]
        with open(os.path.join(path, MANIFEST), "rb") as manifest:
            return Export(rows.rows_of(manifest.read(), rows.exported), said.endswith(AT_CLOCK))

    def restore(self, at: Moment, *, objects: Iterable[int] = (), name: Optional[str] = None, dry_run: bool = False,
                flush: bool = False, skip: bool = False, keep_newer: bool = False, to_nothing: bool = False,
                leap: Optional[timedelta] = None) -> List[Union[Restored, HiddenVersions, Widened, Aged]]:
        """Makes objects what they were at a moment: these, or the one of an attribute, or all where none is named.

        All is done or nothing: where an object can't be restored ProgramFailed is raised, unless `skip` leaves it out.
        `flush` hides as few versions of full journals as serve, for good. `keep_newer` keeps objects that were made
        since. `to_nothing` also restores a moment at which no object was there. A dry run gives what would be done, and
        does nothing.

        Where moments are times the changes are of the machine's time, and ProgramFailed is raised where too much of the
        past would age by that, unless `leap`, in whole seconds, is as long as the drive had no change.
        """
        printed = self._s4("restore", [], at=at, object=tuple(objects), name=name, dry_run=dry_run, flush=flush,
                           skip=skip, keep_newer=keep_newer, to_nothing=to_nothing, leap=word_of_leap(leap), json=True)
        return rows.rows_of(printed, rows.restored)

    def info(self) -> Info:
        """The drive's numbers."""
        return rows.row_of(self._s4("info", [], json=True), rows.info)

    def check(self) -> Checked:
        """Reads every version that can be read."""
        return rows.row_of(self._s4("check", [], json=True), rows.checked)

    def compact(self) -> Compacted:
        """Frees what nobody can read any more, and gathers what is scattered."""
        return rows.row_of(self._s4("compact", [], json=True), rows.compacted)

    def _s4d(self, *words: str) -> bytes:
        return output_of([self.program, *words], self.timeout)

    def _s4(self, command: str, operands: List[str], differs: Optional[int] = None,
            **options: Option) -> bytes:
        """What a command prints, of this image, with operands that follow it, and with options by their names."""
        return output_of(self._words(command, operands, **options), self.timeout, differs)

    def _words(self, command: str, operands: List[str], **options: Option) -> List[str]:
        """The words of a command of `s4`."""
        given = [word for name, value in options.items() for word in option_of(name, value)]
        return [self.s4, command, *given, "--", self.path, *operands]


def option_of(name: str, value: Option) -> List[str]:
    """The words of an option: none where it isn't given, or is a flag that isn't; as many as it has values."""
    option = f"--{name.replace('_', '-')}"
    if value is None or value is False:
        return []
    if isinstance(value, tuple):
        return [f"{option}={one}" for one in value]
    return [option] if value is True else [f"{option}={word_of(value)}"]


def word_of(value: Union[Moment, ChangeKind, AuditKind]) -> str:
    """The word for a moment or a kind; ValueError for a time without an offset from UTC."""
    if isinstance(value, ChangeKind):
        return str(value.value)
    if isinstance(value, AuditKind):
        return next(word for word, (kind, _) in rows.AUDIT_KINDS.items() if kind is value)
    if isinstance(value, timedelta):
        return word_of_age(value)
    if not isinstance(value, datetime):
        return str(value)
    return with_offset(value).astimezone(timezone.utc).isoformat().replace("+00:00", "Z")


def word_of_age(age: timedelta) -> str:
    """The word for an age; where that isn't one of whole seconds, which `s4` counts in, for the time that it means."""
    seconds, rest = divmod(checked_age(age), timedelta(seconds=1))
    return f"{seconds}s" if not rest else word_of(EPOCH + moment_of(age) * MICROSECOND)


def word_of_leap(leap: Optional[timedelta]) -> Optional[str]:
    """The word for how far a clock may be set forward, in whole seconds: what is less than one is left out."""
    return None if leap is None else f"{checked_age(leap) // timedelta(seconds=1)}s"


def raise_refusal(failure: ProgramFailed, object: int, at: int) -> NoReturn:
    """Raises the refusal that a program's line names, else the failure."""
    for kind in REFUSALS.values():
        if failure.ended.said == f"s4d: {kind.__name__}":
            raise kind("read", object, at) from None
    raise failure
