"""A session for the tasks of an event loop, by the door of a service."""
from __future__ import annotations

import asyncio
import os
from typing import Optional, Tuple

from ..async_drive import AsyncDrive
from ..doors import Door, TurnedAway
from ..errors import NoObject, NotAsked

OPEN_SECONDS = 120.0  # that a service may take to open a session
NO_OBJECT = 0  # the number that no object has


class NamedDrive(AsyncDrive):
    """A session whose name at the service's door is known."""

    name: Optional[str] = None


def name_of(session: AsyncDrive) -> Optional[str]:
    """The name of a session; None where it isn't known here, as where a bridge elsewhere gave it."""
    return session.name if isinstance(session, NamedDrive) else None


async def session_at(door: Door, timeout: float) -> AsyncDrive:
    """A session that the service has opened. NotAsked where it doesn't. Its FIFOs have no names any more."""
    name = door.new_name()
    try:
        pipes = door.ask_for(name)
    except TurnedAway as turned:
        raise NotAsked(f"no session was to be had: {turned.fault}") from turned
    try:
        reader, writer, replies = await pipe_streams(*pipes.take_ends())
        drive = NamedDrive(reader, writer, timeout)
        drive.name = name
        try:
            await asyncio.wait_for(first_reply(drive), OPEN_SECONDS)
        except BaseException as error:
            replies.close()  # which the service may never open, and so never close
            await drive.close()
            if isinstance(error, asyncio.TimeoutError):
                raise NotAsked(f"no session was opened in {OPEN_SECONDS:g} seconds") from None
            raise
        return drive
    finally:
        pipes.close()


async def first_reply(drive: AsyncDrive) -> None:
    """Asks something that changes nothing, so that the service has both pipes open."""
    try:
        await drive.attributes(NO_OBJECT)
    except NoObject:
        pass


async def pipe_streams(sink: int, source: int) -> Tuple[asyncio.StreamReader, asyncio.StreamWriter, asyncio.BaseTransport]:
    """The streams over two pipes, and the transport of the reader. When the writer is closed the other side ends its pipe, too,
    and both are gone. Where this is cancelled both are closed: a session whose requests stay open takes a place of the service.
    """
    loop, reader, unread = asyncio.get_running_loop(), asyncio.StreamReader(), asyncio.StreamReader()
    protocol, replies = asyncio.StreamReaderProtocol(unread), os.fdopen(source, "rb", 0)
    try:
        transport, _ = await loop.connect_write_pipe(lambda: protocol, os.fdopen(sink, "wb", 0))
    except BaseException:
        replies.close()
        raise
    try:
        reading, _ = await loop.connect_read_pipe(lambda: asyncio.StreamReaderProtocol(reader), replies)
    except BaseException:
        transport.abort()
        raise
    return reader, asyncio.StreamWriter(transport, protocol, reader, loop), reading
