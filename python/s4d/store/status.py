"""A store's `/health` and `/metrics`, for this machine alone. They ask nothing of the drives' services."""
from __future__ import annotations

import asyncio
from typing import Callable, Dict, List, Optional, Sequence

from ..metrics import Family, Sample
from ..rows import Info
from ..status import Answer, DriveNumbers, StatusServer
from .drives import StoreDrive
from .index import Index

IMAGES_AT_ONCE = 4  # that are read side by side


class StoreStatus(StatusServer):
    """Answers on a port of 127.0.0.1. `more` are the metrics of others."""

    def __init__(self, port: int, drives: Sequence[StoreDrive], images: Dict[int, str], program: str, index: Index,
                 more: Callable[[], List[Family]]) -> None:
        """The images are those of the drives that are here, by their numbers."""
        super().__init__(port, self._away, self._all, None)
        self._drives, self._index, self._more = drives, index, more
        self._numbers = {number: DriveNumbers(image, program) for number, image in images.items()}
        self._limit = asyncio.Semaphore(IMAGES_AT_ONCE)
        self._infos: Dict[int, Optional[Info]] = {}

    async def _answer(self, head: bytes) -> Answer:
        if head.startswith(b"GET /metrics"):
            self._infos = dict(zip(self._numbers, await asyncio.gather(*map(self._read, self._numbers.values()))))
        return await super()._answer(head)

    async def _read(self, numbers: DriveNumbers) -> Optional[Info]:
        async with self._limit:
            return await numbers.read()

    def _away(self) -> List[str]:
        return [f"drive {drive.number} isn't served" for drive in self._drives if not drive.is_served]

    def _all(self) -> List[Family]:
        buckets = self._index.buckets.values()
        served = {drive.number: int(drive.is_served) for drive in self._drives}
        return [*self._more(), of_store("buckets", "Buckets.", len(buckets)),
                of_store("keys", "Keys that are there.", sum(len(it.live) for it in buckets)),
                of_store("past_keys", "Keys of which some version can be read.", sum(len(it.names) for it in buckets)),
                of_drives("served", "Whether a drive's service answers.", served), *self._of_images()]

    def _of_images(self) -> List[Family]:
        """What `s4 info` says of each image that can be read."""
        found = {number: info for number, info in self._infos.items() if info is not None}
        return [of_drives("readable", "Whether the image could be read.", {n: int(n in found) for n in self._infos}),
                of_drives("clock", "The drive's clock, a moment.", {n: it.clock for n, it in found.items()}),
                of_drives("floor", "The earliest moment that can be read.", {n: it.floor for n, it in found.items()}),
                of_drives("room_blocks", "Blocks of 512 bytes that changes may append.", {n: it.room for n, it in found.items()}),
                of_drives("free_frames", "Frames that are free.", {n: it.free for n, it in found.items()})]


def of_store(name: str, help: str, value: int) -> Family:
    return Family(f"s4_store_{name}", "gauge", help, [Sample("", {}, value)])


def of_drives(name: str, help: str, values: Dict[int, int]) -> Family:
    """A number of each drive."""
    return Family(f"s4_store_drive_{name}", "gauge", help, [Sample("", {"drive": f"{n:02}"}, it) for n, it in values.items()])
