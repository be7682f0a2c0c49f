"""The names of a moment's objects, which anyone may have given them, as those of files in folders."""
from __future__ import annotations

import re
import unicodedata
from bisect import bisect_left
from typing import Dict, Iterable, List, Optional, Set, Tuple

BY_NUMBER = b"by-number"  # the folder that has each object under its number
PLAIN = re.compile(rb"object-[0-9]+")  # what objects are called that have no other name: no other object has one of these
AFTER_SLASH = b"0"  # the byte that follows `/`
UNSAFE = {"Cc", "Zl", "Zp"}  # controls and ends of lines
TURNING = {"\u061c", "\u200e", "\u200f", *map(chr, range(0x202a, 0x202f)), *map(chr, range(0x2066, 0x206a))}  # the order of what is shown


def plain_name(object: int) -> bytes:
    return b"object-%d" % object


def safe_name(attribute: bytes) -> Optional[bytes]:
    """The path that an attribute is, without one leading `/`; None where it is no path that a folder may have."""
    path = attribute[1:] if attribute.startswith(b"/") else attribute
    parts = path.split(b"/")
    if parts[0] == BY_NUMBER or PLAIN.fullmatch(parts[0]) or any(part in (b"", b".", b"..") for part in parts):
        return None
    try:
        text = path.decode("utf-8")
    except UnicodeDecodeError:
        return None
    return None if any(unicodedata.category(it) in UNSAFE or it in TURNING for it in text) else path


class Names:
    """The path of each object, from the attributes by ascending number. Folders are what paths have before a `/`.

    An object whose attribute is no safe path, or names a folder of another one, or is the path of a lower number, is
    called `object-N`.
    """

    def __init__(self, attributes: Iterable[Tuple[int, bytes]]) -> None:
        paths = {object: safe_name(attribute) for object, attribute in attributes}
        asked = sorted({path for path in paths.values() if path is not None})
        taken: Set[bytes] = set()
        self._of: Dict[int, bytes] = {}
        for object, path in paths.items():
            if path is None or path in taken or has_under(asked, path):
                path = plain_name(object)
            taken.add(path)
            self._of[object] = path
        self._objects = {path: object for object, path in self._of.items()}
        self._sorted = sorted(taken)

    def of(self, object: int) -> Optional[bytes]:
        """The path of an object; None where there is no such object."""
        return self._of.get(object)

    def object_at(self, path: bytes) -> Optional[int]:
        """The object that has a path; None where none has."""
        return self._objects.get(path)

    def is_folder(self, path: bytes) -> bool:
        """Whether that is a folder: the one of all, with an empty path, or of some."""
        return not path or has_under(self._sorted, path)

    def numbers(self) -> List[int]:
        return list(self._of)

    def in_folder(self, path: bytes) -> List[bytes]:
        """What a folder has: files and folders, each once."""
        start = path + b"/" if path else b""
        found, at = [], bisect_left(self._sorted, start)
        end = bisect_left(self._sorted, path + AFTER_SLASH, at) if path else len(self._sorted)
        while at < end:
            part, slash, _ = self._sorted[at][len(start):].partition(b"/")
            found.append(part)
            at = bisect_left(self._sorted, start + part + AFTER_SLASH, at) if slash else at + 1
        return found


def has_under(paths: List[bytes], folder: bytes) -> bool:
    """Whether one of the sorted paths lies in a folder."""
    at = bisect_left(paths, folder + b"/")
    return at < len(paths) and paths[at].startswith(folder + b"/")
