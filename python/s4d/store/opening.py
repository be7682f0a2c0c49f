"""A store's folder as one program has it: its lock, its drives, and the store over them."""
from __future__ import annotations

import asyncio
import contextlib
import fcntl
import os
from typing import Awaitable, List, Optional, Union

from ..errors import Error, Refused
from .asking import found_by_asking
from .contents import Pieces
from .drives import DriveAway, StoreDrive
from .elsewhere import QUIET_SECONDS, FoundService, RemoteService
from .found import IMAGES_AT_ONCE, Found, found_in
from .layout import mark_attribute
from .loading import Loading
from .service import Service, say
from .settings import Programs, Settings, StoreFault, image_path, settings_in, write_new
from .store import Store
from .upload_records import Upload


NEWER = ".s4serve.new"  # after the name of an image: of what a service couldn't put in its place


class OpenStore:
    """`store` and `drives` are there from `start` to `stop`."""

    def __init__(self, folder: str, programs: Programs, leap: Optional[str] = None) -> None:
        self.folder, self._programs, self._leap = folder, programs, leap
        self.settings: Settings = settings_in(folder)
        self._remote = {it.drive: RemoteService(folder, it) for it in self.settings.remote}
        self._lock = locked(folder)
        self._serving = os.path.join(folder, "serving")
        self.drives: List[StoreDrive] = []
        self._looking: Optional[asyncio.Future[None]] = None
        self.store: Optional[Store] = None
        self.uploads: List[Upload] = []  # that were begun before, and aren't complete
        self.away: List[int] = []  # drives that weren't served at the start: uploads that were begun before aren't known then

    async def start(self) -> Store:
        """Starts the drives, or finds them served, makes the index, and deletes what puts left that were cut. StoreFault where what one has
        can't be known. Where one of those here isn't served, and its image says all, it is away, and nothing is deleted.
        """
        services = [self._service(number) for number in range(self.settings.drives)]
        self.drives = [StoreDrive(number, it, isinstance(it, RemoteService)) for number, it in enumerate(services)]
        for service in services:
            service.take()
        await asyncio.gather(*[service.end_earlier() for service in services])
        self._note_serving()
        await all_done([drive.start() for drive, service in zip(self.drives, services) if not service.is_own])
        pieces, limit = Pieces(self.drives), asyncio.Semaphore(IMAGES_AT_ONCE)
        loading = Loading(pieces, self.settings.window)
        found = await asyncio.gather(*[self._taken(drive, limit, loading) for drive in self.drives])
        unmarked = self._unmarked(found)
        await self._start_own([drive for drive, service in zip(self.drives, services) if service.is_own], found)
        await self._mark([drive for drive in unmarked if drive.number not in self.away])
        self.store = await self._loaded(pieces, loading)
        self._looking = asyncio.ensure_future(self.store.look_after())
        return self.store

    def _service(self, number: int) -> Union[Service, FoundService, RemoteService]:
        """What serves a drive."""
        remote = self._remote.get(number)
        if remote is not None:
            return remote
        if self.settings.finds:
            return FoundService(self.folder, number)
        return Service(self.folder, number, self._programs.s4serve, self._leap)

    async def _start_own(self, drives: List[StoreDrive], found: List[Found]) -> None:
        """Starts those that this program serves. One that can't be served is away, where nothing that it has can be unknown."""
        results = await asyncio.gather(*[drive.start() for drive in drives], return_exceptions=True)
        faults = [(drive, it) for drive, it in zip(drives, results) if it is not None]
        for drive, fault in faults:
            newer = os.path.exists(image_path(self.folder, drive.number) + NEWER)  # which may have what was acknowledged
            if not isinstance(fault, StoreFault) or len(faults) == len(self.drives) or newer or found[drive.number].versions is None:
                raise fault
        for drive, fault in faults:
            say(f"{fault}; what it has answers 503 until it is served, and nothing is deleted before the next start")
            self.away.append(drive.number)
            drive.start_away()

    def _note_serving(self) -> None:
        """Notes in the folder that drives of other machines are asked. Where that is there, a program that noted it was killed, or left
        something that may still be done.
        """
        if not self._remote:
            return
        if os.path.exists(self._serving):
            say(f"drives elsewhere may still do what an earlier program asked: that is waited for, {QUIET_SECONDS:g} s")
            for service in self._remote.values():
                service.wait_for_earlier()
        else:
            write_new(self._serving, "")

    async def _taken(self, drive: StoreDrive, limit: asyncio.Semaphore, loading: Loading) -> Found:
        """What a drive has, which the index takes while others are read."""
        found = await self._found(drive, limit)
        loading.take(drive.number, found)
        return found

    async def _found(self, drive: StoreDrive, limit: asyncio.Semaphore) -> Found:
        """What a drive has: its image says it, or where that is elsewhere the drive itself."""
        remote = self._remote.get(drive.number)
        if remote is None:
            return await found_in(image_path(self.folder, drive.number), self._programs.s4, limit)
        try:
            return await found_by_asking(drive, remote.numbers)
        except (DriveAway, Error) as error:
            raise StoreFault(f"drive {drive.number}: what it has can't be asked: {error}") from error

    def _unmarked(self, found: List[Found]) -> List[StoreDrive]:
        """The drives that don't say which they are. StoreFault where one says that it is another: nothing of it is deleted then."""
        unmarked: List[StoreDrive] = []
        for drive, image in zip(self.drives, found):
            marks = [row.attribute for row in image.objects if row.attribute[:1] == b"S"]
            right = mark_attribute(self.settings.id, drive.number)
            if self.settings.id and marks and marks != [right] * len(marks):
                store, _, number = marks[0][1:].decode("ascii", "replace").partition("/")
                whose = f"drive {number} of this store" if store == self.settings.id else "a drive of another store"
                raise StoreFault(f"drive {drive.number}: {self._place(drive.number)} is {whose}: put it where it belongs")
            unmarked += [] if marks or not self.settings.id else [drive]
        return unmarked

    def _place(self, number: int) -> str:
        """Where a drive is."""
        return next((it.address for it in self.settings.remote if it.drive == number), image_path(self.folder, number))

    async def _mark(self, drives: List[StoreDrive]) -> None:
        """Makes the objects that say which drives these are. One without room goes without."""
        async def mark(drive: StoreDrive) -> None:
            with contextlib.suppress(Refused):
                await drive.ask(lambda session: session.create(mark_attribute(self.settings.id, drive.number)))

        try:
            await all_done([mark(drive) for drive in drives])
        except DriveAway as error:
            raise StoreFault(f"{error}") from error

    async def _loaded(self, pieces: Pieces, loading: Loading) -> Store:
        try:
            index = await loading.load()
            count = 0 if self.away else await loading.collect()
            self.uploads = loading.uploads
        except (DriveAway, Error) as error:
            raise StoreFault(f"the index can't be made: {error}") from error
        if count:
            say(f"{count} objects were left by puts that were cut, or are past the window, and are deleted")
        return Store(pieces, index)

    async def stop(self) -> None:
        """Ends what was started, in order."""
        if self._looking is not None:
            self._looking.cancel()
            with contextlib.suppress(asyncio.CancelledError):
                await self._looking
        if self.store is not None:
            await self.store.close()
        await asyncio.gather(*[drive.stop() for drive in self.drives])
        if not any(service.is_quiet() for service in self._remote.values()):
            with contextlib.suppress(FileNotFoundError):
                os.unlink(self._serving)
        os.close(self._lock)


async def all_done(works: List[Awaitable[None]]) -> None:
    """Waits for all, and raises what the first of them failed by, in their order."""
    for found in await asyncio.gather(*works, return_exceptions=True):
        if found is not None:
            raise found


def locked(folder: str) -> int:
    """The folder, locked against other programs that would serve the store."""
    number = os.open(folder, os.O_RDONLY | os.O_DIRECTORY | os.O_CLOEXEC)
    try:
        fcntl.flock(number, fcntl.LOCK_EX | fcntl.LOCK_NB)
    except OSError:
        os.close(number)
        raise StoreFault(f"{folder}: another program serves this store: end that one") from None
    return number
