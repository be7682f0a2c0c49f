"""What a drive has whose image can't be read here, as one of another machine: its objects, and when they were changed, by asking."""
from __future__ import annotations

import asyncio
from typing import Awaitable, Callable, List, Optional, Sequence

from ..async_drive import AsyncDrive
from ..errors import NoObject
from ..wire import Attributes
from .drives import StoreDrive
from .found import Found, Seen
from .numbers import Numbers

AT_ONCE = 32  # objects that a session asks for together: a bridge takes up to 64 requests


async def found_by_asking(drive: StoreDrive, numbers: Numbers) -> Found:
    """What a drive has. A refusal, or DriveAway, is raised as it is."""
    if not numbers.bound:
        made = await drive.ask(lambda session: session.create())  # its number says how many there were
        await drive.ask(lambda session: session.delete(made.object))
    objects = await objects_of(drive, numbers.to_ask())
    heads = [it for it in objects if it.attribute[:1] == b"H" and it.size]
    moments = await asyncio.gather(*[drive.ask(moments_of(it)) for it in heads])
    top = max((it.object for it in objects), default=0)
    numbers.found([it.object for it in objects], max(top + 1, numbers.asked))
    return Found(objects, {it.object: found for it, found in zip(heads, moments)})


async def objects_of(drive: StoreDrive, numbers: Sequence[int]) -> List[Seen]:
    """Those of these objects that are there."""
    parts = [numbers[start:start + AT_ONCE] for start in range(0, len(numbers), AT_ONCE)]
    found = await asyncio.gather(*[drive.ask(rows_of(part)) for part in parts])
    return [row for rows in found for row in rows]


def rows_of(numbers: Sequence[int]) -> Callable[[AsyncDrive], Awaitable[List[Seen]]]:
    async def ask(session: AsyncDrive) -> List[Seen]:
        rows = await asyncio.gather(*[row_of(session, number) for number in numbers])
        return [row for row in rows if row is not None]

    return ask


async def row_of(session: AsyncDrive, number: int) -> Optional[Seen]:
    """An object; None where it isn't there."""
    try:
        it = await session.attributes(number)
    except NoObject:
        return None
    return Seen(number, it.size, it.created, it.changed, it.attribute)


def moments_of(row: Seen) -> Callable[[AsyncDrive], Awaitable[List[int]]]:
    """Asks for moments just after those at which the earlier versions of an object can be read."""
    found = Attributes(row.size, row.created, row.changed, row.attribute)

    async def ask(session: AsyncDrive) -> List[int]:
        return [moment + 1 for moment in await session.shown_before(row.object, found)]

    return ask
