"""Pages of a bucket's keys and versions, in the order of their names. A page costs what it has, however much the bucket has."""
from __future__ import annotations

from bisect import bisect_left, bisect_right
from dataclasses import dataclass, field
from typing import List, Optional, Tuple

from .index import Bucket, Entry

LAST_CHARACTER = chr(0x10FFFF)


@dataclass
class Page:
    """Entries, newest first of each key, and prefixes that keys share, both in their order; `last` is the name of what came
    last. Where more would follow it is cut.
    """

    entries: List[Entry] = field(default_factory=list)
    prefixes: List[str] = field(default_factory=list)
    last: str = ""
    is_cut: bool = False

    def __len__(self) -> int:
        return len(self.entries) + len(self.prefixes)


def after_prefix(prefix: str) -> Optional[str]:
    """The least name above all that begin with a prefix, or None where there is none."""
    kept = prefix.rstrip(LAST_CHARACTER)
    return kept[:-1] + chr(ord(kept[-1]) + 1) if kept else None


def skipped(names: List[str], prefix: str) -> int:
    """The place of the first name above those that begin with a prefix."""
    bound = after_prefix(prefix)
    return len(names) if bound is None else bisect_left(names, bound)


def shared_prefix(name: str, prefix: str, delimiter: str) -> Optional[str]:
    """What a name has up to the first delimiter after the prefix, or None where it has none."""
    place = name.find(delimiter, len(prefix)) if delimiter else -1
    return None if place < 0 else name[:place + len(delimiter)]


def first_place(names: List[str], prefix: str, delimiter: str, after: str) -> int:
    """Where a page begins that follows a name, or all that begin with a prefix which came before."""
    if after and shared_prefix(after, prefix, delimiter) == after and after.startswith(prefix):
        return max(skipped(names, after), bisect_left(names, prefix))
    return max(bisect_right(names, after) if after else 0, bisect_left(names, prefix))


def keys_page(bucket: Bucket, prefix: str, delimiter: str, after: str, most: int, at: Optional[int] = None) -> Page:
    """The current versions of the keys that are there, those after a name. At a moment it passes over those that weren't then."""
    page, names = Page(), bucket.live if at is None else bucket.names
    place = first_place(names, prefix, delimiter, after)
    while place < len(names) and names[place].startswith(prefix):
        name = names[place]
        entry = bucket.live_version(name, at)
        if entry is None:
            place += 1
            continue
        if len(page) >= most:
            page.is_cut = most > 0
            break
        shared = shared_prefix(name, prefix, delimiter)
        if shared is None:
            page.entries.append(entry)
            page.last, place = name, place + 1
        else:
            page.prefixes.append(shared)
            page.last, place = shared, skipped(names, shared)
    return page


def versions_page(bucket: Bucket, prefix: str, delimiter: str, after: Tuple[str, str], most: int, at: Optional[int] = None) -> Page:
    """All versions that can be read, and were there at a moment: those after a key, or after a version of it."""
    page, names = Page(), bucket.names
    key, id = after
    if id and bucket.version(key, id, at) is not None and key.startswith(prefix):
        place = bisect_left(names, key)
    else:
        place, id = first_place(names, prefix, delimiter, key), ""
    while place < len(names) and names[place].startswith(prefix):
        name = names[place]
        entries = [it for it in bucket.keys[name] if it.was_there(at)]
        shared = shared_prefix(name, prefix, delimiter)
        if not entries:
            place += 1
        elif shared is None:
            take_versions(page, entries, id, most)
            id, place = "", place + 1
        elif len(page) < most:
            page.prefixes.append(shared)
            page.last, place = shared, skipped(names, shared)
        else:
            page.is_cut = most > 0
        if page.is_cut or not most:
            break
    return page


def take_versions(page: Page, entries: List[Entry], after: str, most: int) -> None:
    """Takes a key's versions into a page, newest first, those after an id where there is one."""
    newest = entries[::-1]
    if after:
        newest = newest[next(i for i, it in enumerate(newest) if it.version.id == after) + 1:]
    room = most - len(page)
    page.entries += newest[:room]
    page.is_cut = most > 0 and len(newest) > room
    if newest[:room]:
        page.last = newest[0].version.key
