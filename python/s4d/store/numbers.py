"""The numbers of a drive's objects, in a file beside it.

A client can't ask a drive which objects it has, and a number that was used is never used again. So it is noted here up to which
number objects may have been made, and which of those before were there when all of them were asked for.
"""
from __future__ import annotations

import contextlib
import json
import os
from typing import Iterable, List, Tuple

from .settings import StoreFault, sync_folder, write_new

ROOM = 1_000  # numbers that may be used before that is noted anew
LEAST = ROOM // 2  # of these that are left then: more than all sessions can use without an answer


class Numbers:
    """All numbers are below `bound`, which is 0 where nothing is known. Of those below `asked` only `live` may be there still."""

    def __init__(self, path: str) -> None:
        self._path = path
        self.bound, self.asked, self.live = self._read()

    def _read(self) -> Tuple[int, int, List[int]]:
        try:
            with open(self._path, encoding="ascii") as file:
                said = json.load(file)
            numbers = [said["bound"], said["asked"], *said["live"]]
        except FileNotFoundError:
            return 0, 1, []
        except (OSError, ValueError, TypeError, KeyError) as error:
            raise StoreFault(f"{self._path}: {getattr(error, 'strerror', None) or error!r}") from error
        if not all(type(it) is int and it > 0 for it in numbers):
            raise StoreFault(f"{self._path} has other things than numbers; without it all objects are asked for")
        return numbers[0], numbers[1], numbers[2:]

    def to_ask(self) -> List[int]:
        """The numbers that objects may have now."""
        return [*self.live, *range(self.asked, self.bound)]

    def made(self, number: int) -> None:
        """Takes the number of an object that was made. What follows it is on the disk before it can be used."""
        if number + LEAST > self.bound:
            self.bound = number + ROOM
            self._write()

    def found(self, live: Iterable[int], asked: int) -> None:
        """Takes the numbers of all objects that are there. Those below `asked` that aren't among them never will be."""
        self.live, self.asked = sorted(live), asked
        self._write()

    def _write(self) -> None:
        with contextlib.suppress(FileNotFoundError):
            os.unlink(f"{self._path}.new")  # of a program that was killed
        write_new(f"{self._path}.new", json.dumps({"bound": self.bound, "asked": self.asked, "live": self.live}) + "\n")
        os.rename(f"{self._path}.new", self._path)
        sync_folder(os.path.dirname(self._path))
