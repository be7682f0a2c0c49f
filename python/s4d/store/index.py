"""What a store has, in memory: buckets, keys in their order, and the versions that can be read."""
from __future__ import annotations

import heapq
from bisect import bisect_left, insort
from dataclasses import dataclass, field
from typing import Callable, Dict, Iterable, List, NamedTuple, Optional, Set, Tuple

from .layout import Version


class Place(NamedTuple):
    """An object of a drive of the store."""

    drive: int
    object: int


class Change(NamedTuple):
    """A change of a drive: what the access log has of it, by the names that a bridge's log gives it."""

    drive: int
    session: Optional[str]  # the name of the session in which it was asked, where that is known
    request: str
    object: int
    moment: int


@dataclass
class Entry:
    """A version, the object that is its head, its moment, and that of the version that replaced it. Where it was moved, `moved` is
    the moment of the Write that did that; its own stays that of the first. `change` is its first Write, where this program made it.
    """

    version: Version
    head: Place
    moment: int
    until: Optional[int] = None
    moved: Optional[int] = None
    change: Optional[Change] = None

    @property
    def written(self) -> int:
        """The moment of its Write."""
        return self.moment if self.moved is None else self.moved

    def was_there(self, at: Optional[int]) -> bool:
        """Whether it was written by a moment; without one, it was."""
        return at is None or self.moment <= at

    def is_latest(self, at: Optional[int]) -> bool:
        """Whether nothing has replaced it, now or at a moment."""
        return self.until is None or (at is not None and self.until > at)


@dataclass
class Bucket:
    """A bucket: the object that says so, when it was made, in microseconds, and its keys. `names` are all keys in their order,
    `live` those whose current version is no marker. The versions of a key ascend. `puts` are heads on their way. `others` are objects
    that may say so still, though it was moved. `change` is what made it, where this program did.
    """

    name: str
    place: Place
    created: int
    keys: Dict[str, List[Entry]] = field(default_factory=dict)
    names: List[str] = field(default_factory=list)
    live: List[str] = field(default_factory=list)
    puts: int = 0
    others: List[Place] = field(default_factory=list)
    change: Optional[Change] = None

    def current(self, key: str, at: Optional[int] = None) -> Optional[Entry]:
        """The newest version of a key, now or at a moment, which may be a marker."""
        return next((it for it in reversed(self.keys.get(key, ())) if it.was_there(at)), None)

    def version(self, key: str, id: str, at: Optional[int] = None) -> Optional[Entry]:
        """The version of this id, where it can be read still, and was there at a moment."""
        return next((it for it in self.keys.get(key, ()) if it.version.id == id and it.was_there(at)), None)

    def live_version(self, key: str, at: Optional[int]) -> Optional[Entry]:
        """The same as `current`, where that is no marker."""
        found = self.current(key, at)
        return None if found is None or found.version.is_marker else found


def entry_of(version: Version, head: Place, written: int, change: Optional[Change] = None) -> Entry:
    """A version whose head was written at a moment, by a change."""
    if version.since is None:
        return Entry(version, head, written, change=change)
    return Entry(version, head, version.since, moved=written)


def nobody(_bucket: str, _key: str) -> bool:
    """No key is used."""
    return False


class Index:
    """Versions are added in the order of their sequence for each key. They leave when nobody can read them any more: from the moment
    `floor` on, each that was the newest of its key at some moment is there.
    """

    def __init__(self, window: int) -> None:
        self._window = window
        self.buckets: Dict[str, Bucket] = {}
        self.floor = 0
        self._ends: List[Tuple[int, int, Entry]] = []  # a heap: when a version leaves, a number in their order, and it
        self._count = 0

    def add(self, entry: Entry) -> Optional[Place]:
        """Takes a version that is the newest of its key from now on, or the newest one where it is now, after a move: its head up
        to then, where no version needs that any more.
        """
        bucket, key = self.buckets[entry.version.bucket], entry.version.key
        before = bucket.current(key)
        was_live, left = bucket.live_version(key, None) is not None, self._take(bucket, entry)
        if before is None:
            insort(bucket.names, key)
        if was_live and entry.version.is_marker:
            remove(bucket.live, key)
        elif not was_live and not entry.version.is_marker:
            insort(bucket.live, key)
        return left

    def fill(self, entries: Iterable[Entry]) -> Set[Place]:
        """Takes all versions of buckets that have none, as `add` takes one after the other. The heads that it gives."""
        left = {self._take(self.buckets[it.version.bucket], it) for it in entries}
        for bucket in self.buckets.values():
            bucket.names = sorted(bucket.keys)  # once: one by one they take long where they are many
            bucket.live = [key for key in bucket.names if not bucket.keys[key][-1].version.is_marker]
        return {it for it in left if it is not None}

    def _take(self, bucket: Bucket, entry: Entry) -> Optional[Place]:
        """The same without the bucket's names."""
        known = bucket.keys.setdefault(entry.version.key, [])
        if known and known[-1].version.id == entry.version.id:
            return move(known, entry)
        if known:
            known[-1].until = entry.moment
            self._leaves(entry.moment, known[-1])
        known.append(entry)
        if entry.version.is_marker:
            self._leaves(entry.moment, entry)
        return None

    def _leaves(self, moment: int, entry: Entry) -> None:
        self._count += 1
        heapq.heappush(self._ends, (moment + self._window, self._count, entry))

    def expire(self, now: int, is_used: Callable[[str, str], bool] = nobody) -> List[Place]:
        """Lets go of what can't be read any more at a moment: versions that were replaced, and markers that are all that a key
        has. Heads that no version needs any more. A key that is used, whose head may be written now, is left for later.
        """
        heads: List[Place] = []
        later: List[Tuple[int, int, Entry]] = []
        self.floor = max(self.floor, now - self._window)
        while self._ends and self._ends[0][0] < now:
            end = heapq.heappop(self._ends)
            if is_used(end[2].version.bucket, end[2].version.key):
                later.append(end)
            else:
                heads += self._let_go(end[2])
        for end in later:
            heapq.heappush(self._ends, end)
        return heads

    def _let_go(self, entry: Entry) -> List[Place]:
        """Lets go of the oldest version of a key: its head, where no later one needs that."""
        bucket = self.buckets.get(entry.version.bucket)
        known = bucket.keys.get(entry.version.key) if bucket is not None else None
        if bucket is None or not known or known[0] is not entry:
            return []
        known.pop(0)
        if not known:
            del bucket.keys[entry.version.key]
            remove(bucket.names, entry.version.key)
        return [] if any(it.head == entry.head for it in known) else [entry.head]


def move(known: List[Entry], entry: Entry) -> Optional[Place]:
    """Takes the newest version of a key for moved: its head up to then, where no version needs that any more."""
    newest = known[-1]
    before, newest.version, newest.head, newest.moved = newest.head, entry.version, entry.head, entry.moved
    return None if any(it.head == before for it in known) else before


def remove(names: List[str], name: str) -> None:
    """Takes a name out of names that ascend."""
    place = bisect_left(names, name)
    if place < len(names) and names[place] == name:
        del names[place]
