"""A store in this process, over plain drives in memory whose moments are the machine's time: no program is started."""
import asyncio

from s4d import Refused, wire
from s4d.history import shown_before
from s4d.moments import machine_time
from s4d.store.contents import Pieces
from s4d.store.drives import DriveAway
from s4d.store.found import Found, Kept, Seen
from s4d.store.loading import Loading
from s4d.store.store import Store

from .plain_drive import PlainDrive

DAY = 86_400_000_000
NO_SPACE, CHAIN_FULL = 9, 12


class Clock:
    """A time that a test sets, and that goes on by a millisecond each time that it is asked."""

    def __init__(self):
        self.value = machine_time()

    def __call__(self):
        self.value += 1_000
        return self.value


class TimedDrive(PlainDrive):
    """A plain drive whose clock is the machine's time, with room for so many bytes of writes, and changes of an object."""

    tells_versions = False  # whether `s4 list` prints them

    def __init__(self, window=30 * DAY, room=2**60, chain=2**60, clock=machine_time):
        super().__init__(window)
        self.room, self.chain, self.now = room, chain, clock

    def answer(self, role, data):
        self.clock = max(self.clock, self.now() - 1)
        self.floor = max(self.floor, self.clock - self.window)
        if data[0] in (1, 4):
            if self.room < len(data):
                return bytes([0, NO_SPACE])
            if data[0] == 4 and len(self.versions.get(int.from_bytes(data[1:9], "big"), ())) > self.chain:
                return bytes([0, CHAIN_FULL])
            self.room -= len(data)
        return super().answer(role, data)

    def found(self):
        """What `s4 list` and `s4 log` say of it."""
        live = [Seen(number, len(it.data), it.created, it.moment, it.attribute)
                for number, (*_, it) in sorted(self.versions.items()) if it.is_live]
        if self.tells_versions:
            return Found(live, {}, {it.object: self.readable(it.object) for it in live if it.attribute[:1] != b"P"})
        moments = {number: [it.moment for it in versions] for number, versions in self.versions.items()}
        return Found(live, moments)

    def readable(self, number):
        """The versions of an object that can be read at some moment."""
        versions = self.versions[number]
        ends = [*(it.moment for it in versions[1:]), self.clock + 1]
        return [Kept(it.moment, it.data) for it, end in zip(versions, ends) if end > self.floor]

    def live(self, kind):
        """How many live objects of a kind there are."""
        return sum(row.attribute[:1] == kind for row in self.found().objects)


class PlainSession:
    """The methods of a session that a store uses."""

    def __init__(self, drive):
        self.drive = drive

    async def ask(self, request):
        await asyncio.sleep(0)
        answer = request.answer(self.drive.answer("client", request.body))
        if isinstance(answer, Refused):
            raise answer
        return answer

    async def create(self, attribute=b""):
        return await self.ask(wire.create(attribute))

    async def delete(self, object):
        return await self.ask(wire.delete(object))

    async def write(self, object, offset, data):
        return await self.ask(wire.write(object, offset, data))

    async def read(self, object, offset, length, at=None):
        return await self.ask(wire.read(object, offset, length, at))

    async def attributes(self, object, at=None):
        return await self.ask(wire.attributes(object, at))

    async def shown_before(self, object, found):
        steps = shown_before(object, found)
        try:
            requests = next(steps)
            while True:
                requests = steps.send([it.answer(self.drive.answer("client", it.body)) for it in requests])
        except StopIteration as end:
            return end.value


class PlainStoreDrive:
    """A drive of a store, in this process. One that is away answers nothing."""

    def __init__(self, number, drive, is_remote=False):
        self.number, self.drive, self.is_away, self.is_remote = number, drive, False, is_remote
        self.loses = None  # a request of this kind is done, and its reply is lost

    async def ask(self, work):
        if self.is_away:
            raise DriveAway(self.number, was_asked=False)
        asked = len(self.drive.rows)
        found = await work(PlainSession(self.drive))
        if self.loses is not None and len(self.drive.rows) > asked and self.drive.rows[-1][1] == self.loses:
            self.loses = None
            raise DriveAway(self.number, was_asked=True)
        return found


class PlainStores:
    """Drives, and the store over them as each start finds it."""

    def __init__(self, count=2, window=30 * DAY, clock=machine_time, **options):
        self.window, self.clock = window, clock
        self.drives = []
        self.add(count, **options)

    def add(self, count, **options):
        """So many drives more, which the next start has."""
        self.drives += [TimedDrive(self.window, clock=self.clock, **options) for _ in range(count)]

    def session_drives(self):
        return [PlainStoreDrive(number, drive) for number, drive in enumerate(self.drives)]

    async def start(self, order=list):
        """The store, and how many objects were left by puts that were cut. The images of the drives are read in this order."""
        pieces = Pieces(self.session_drives())
        loading = Loading(pieces, self.window)
        for number, drive in order(enumerate(self.drives)):
            loading.take(number, drive.found())
        index = await loading.load()
        self.collected, self.uploads = await loading.collect(), loading.uploads
        return Store(pieces, index)

    def live(self):
        """How many live objects of each kind all drives have."""
        counts = {kind: sum(drive.live(kind.encode()) for drive in self.drives) for kind in "BHPU"}
        return {kind: count for kind, count in counts.items() if count}
