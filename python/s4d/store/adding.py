"""Gives a store more drives: new ones in its folder, or one of another machine."""
from __future__ import annotations

import asyncio
import contextlib
import os
import shutil
from dataclasses import replace
from typing import Awaitable, Callable, Iterator, List

from ..async_drive import AsyncDrive
from ..errors import BadReply, Error, NotAdmin, ProgramFailed
from ..image import Image
from ..moments import machine_time
from .asking import objects_of
from .drives import DriveAway, StoreDrive
from .elsewhere import RemoteService
from .layout import mark_attribute
from .opening import locked
from .service import say
from .settings import (DRIVES, Programs, Remote, Settings, StoreFault, drive_folder, image_path, make_drive, settings_in, sync_folder,
                       write_settings)

APART = 1_000_000  # microseconds by which another machine's clock may differ before that is said


def add_drives(folder: str, more: int, programs: Programs) -> int:
    """Makes so many drives more, as those that there are: how many there are then. StoreFault where that can't be done.

    They count once `store.json` says so, which comes last: what an earlier program left that was killed is made anew.
    """
    with more_drives(folder, more) as settings:
        count = settings.drives + more
        for number in range(settings.drives, count):
            remove_unused(folder, number, programs)
            make_drive(folder, number, settings, programs)
        sync_folder(os.path.join(folder, "drives"))
        write_settings(folder, replace(settings, drives=count))
        return count


@contextlib.contextmanager
def more_drives(folder: str, more: int) -> Iterator[Settings]:
    """The settings of a store, which nobody serves in the block, and which may have so many drives more. StoreFault where it
    hasn't, and for each fault of the system.
    """
    settings, lock = settings_in(folder), locked(folder)
    try:
        if settings.drives + more not in DRIVES:
            raise StoreFault(f"{folder} has {settings.drives} drives: it may have {DRIVES[-1]}")
        yield settings
    except OSError as error:
        raise StoreFault(f"{error.filename or folder}: {error.strerror or error}") from error
    finally:
        os.close(lock)


def add_remote(folder: str, address: str, files: List[str], programs: Programs) -> int:
    """Gives a store a drive of another machine, which has no objects yet: how many drives there are then. The files are those that
    `Remote` names. StoreFault where that can't be done; the drive has no object of the store then.
    """
    with more_drives(folder, 1) as settings:
        if not settings.id:
            raise StoreFault(f"{folder} has no id, by which a drive elsewhere would say whose it is: make another store")
        number = settings.drives
        ca, cert, key = [os.path.abspath(it) for it in files]
        remote = Remote(number, address, ca, cert, key)
        remove_unused(folder, number, programs)
        os.mkdir(drive_folder(folder, number), 0o700)
        asyncio.run(claim(folder, remote, settings.id))
        sync_folder(os.path.join(folder, "drives"))
        write_settings(folder, replace(settings, drives=number + 1, remote=(*settings.remote, remote)))
        return number + 1


async def claim(folder: str, remote: Remote, store: str) -> None:
    """Makes the object that says whose the drive is. StoreFault where it has others, or this store would be its administrator."""
    drive = StoreDrive(remote.drive, RemoteService(folder, remote), is_remote=True)
    attribute = mark_attribute(store, remote.drive)
    try:
        await drive.start()
        if await drive.ask(is_administrator):
            raise StoreFault(f"{remote.address} takes the store for an administrator: give its certificate's name the role client")
        before = machine_time()
        made = await drive.ask(lambda session: session.create(attribute))
        say_clock(remote.address, ahead_of(made.moment, before, machine_time()))
        others = await objects_of(drive, range(1, made.object))
        earlier = [it.object for it in others if it.attribute == attribute]  # of an earlier program that was killed
        is_empty = len(earlier) == len(others)
        await asyncio.gather(*[drive.ask(deleting(it)) for it in [*earlier, *([] if is_empty else [made.object])]])
        if not is_empty:
            raise StoreFault(f"{remote.address} has objects already: give the store a drive of its own")
    except (DriveAway, Error) as error:
        raise StoreFault(f"{remote.address}: {error}") from error
    finally:
        await drive.stop()


def deleting(number: int) -> Callable[[AsyncDrive], Awaitable[int]]:
    return lambda session: session.delete(number)


def ahead_of(moment: int, before: int, after: int) -> int:
    """By how much a clock is ahead, at least, that gave a moment between two times of this machine; below zero where it is behind."""
    return max(moment - after, 0) + min(moment - before, 0)


def say_clock(address: str, ahead: int) -> None:
    """Says where another machine's clock isn't this one's: times of its versions may be off by that."""
    if abs(ahead) > APART:
        say(f"{address}: its clock is {abs(ahead) / 1e6:.1f} s {'ahead of' if ahead > 0 else 'behind'} this machine's")


async def is_administrator(session: AsyncDrive) -> bool:
    """Whether the session may ask what administrators alone may."""
    try:
        async for _ in session.audit(0):
            break
    except NotAdmin:
        return False
    return True


def remove_unused(folder: str, number: int, programs: Programs) -> None:
    """Removes a drive that doesn't count yet, if one is there. StoreFault where it was ever used: then it is some other one."""
    path = drive_folder(folder, number)
    if not os.path.lexists(path):
        return
    if os.path.lexists(image_path(folder, number)) and is_used(Image(image_path(folder, number), s4=programs.s4)):
        raise StoreFault(f"{path} is a drive with a past, and none of the store's: move it elsewhere")
    shutil.rmtree(path)


def is_used(image: Image) -> bool:
    """Whether anything was ever done to a drive; StoreFault where its image can't be read."""
    try:
        return any(True for _ in image.log())
    except (ProgramFailed, BadReply) as error:
        raise StoreFault(f"{image.path}: {error}") from error
