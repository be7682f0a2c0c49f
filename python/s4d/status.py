"""A bridge's `/health` and `/metrics`, for this machine alone. They ask nothing of the drive."""
from __future__ import annotations

import asyncio
import time
from http import HTTPStatus
from typing import Callable, Dict, List, Optional, Tuple

from .errors import BadReply
from .listeners import listen_tcp
from .metrics import Family, of_drive, text_of
from .rows import Info, info, row_of

SECONDS = 5.0  # that a request may take to come
INFO_SECONDS = 10.0  # that `s4 info` may take
KEPT_SECONDS = 15.0  # as long an image's numbers are said again before they are read anew
HEAD_BYTES = 8_192
MOST_ASKING = 32  # connections at once: who comes then ends the oldest

PLAIN = "text/plain; charset=utf-8"
PROMETHEUS = "text/plain; version=0.0.4; charset=utf-8"

Answer = Tuple[int, str, str]  # status, type and text


class DriveNumbers:
    """The numbers of an image by `s4 info --json`, which reads the file and nothing else."""

    def __init__(self, image: str, program: str) -> None:
        self._words = (program, "info", "--json", image)
        self._lock, self._read_at = asyncio.Lock(), -KEPT_SECONDS
        self._info: Optional[Info] = None

    async def read(self) -> Optional[Info]:
        """They are at most fifteen seconds old; None where the image can't be read."""
        async with self._lock:
            if time.monotonic() - self._read_at >= KEPT_SECONDS:
                self._info = await self._read_now()
                self._read_at = time.monotonic()
            return self._info

    async def _read_now(self) -> Optional[Info]:
        pipe, null = asyncio.subprocess.PIPE, asyncio.subprocess.DEVNULL
        try:
            process = await asyncio.create_subprocess_exec(*self._words, stdin=null, stdout=pipe, stderr=null)
        except OSError:
            return None
        try:
            printed, _ = await asyncio.wait_for(process.communicate(), INFO_SECONDS)
        except asyncio.TimeoutError:
            process.kill()
            await process.wait()
            return None
        try:
            return row_of(printed, info) if process.returncode == 0 else None
        except BadReply:
            return None


class StatusServer:
    """Answers a request a connection, on a port of 127.0.0.1."""

    def __init__(self, port: int, faults: Callable[[], List[str]], families: Callable[[], List[Family]],
                 drive: Optional[DriveNumbers]) -> None:
        self._port, self._faults, self._families, self._drive = port, faults, families, drive
        self._server: Optional[asyncio.AbstractServer] = None
        self._asking: Dict[asyncio.StreamWriter, None] = {}  # in the order in which they came

    async def start(self) -> None:
        """OSError where the port can't be had."""
        listener = listen_tcp("127.0.0.1", self._port)
        self._server = await asyncio.start_server(self._attend, sock=listener, limit=HEAD_BYTES)

    def close(self) -> None:
        """Accepts no more."""
        if self._server is not None:
            self._server.close()

    async def _attend(self, reader: asyncio.StreamReader, writer: asyncio.StreamWriter) -> None:
        if len(self._asking) >= MOST_ASKING:
            oldest = next(iter(self._asking))
            del self._asking[oldest]
            oldest.transport.abort()
        self._asking[writer] = None
        try:
            head = await asyncio.wait_for(reader.readuntil(b"\r\n\r\n"), SECONDS)
            status, kind, text = await self._answer(head)
            body = text.encode()
            line = f"HTTP/1.1 {status} {HTTPStatus(status).phrase}"
            said = f"{line}\r\nContent-Type: {kind}\r\nContent-Length: {len(body)}\r\nConnection: close\r\n\r\n"
            writer.write(said.encode() + body)
            await asyncio.wait_for(writer.drain(), SECONDS)
        except (OSError, EOFError, asyncio.TimeoutError, asyncio.LimitOverrunError):
            pass  # who asks so gets no answer
        finally:
            self._asking.pop(writer, None)
            writer.close()

    async def _answer(self, head: bytes) -> Answer:
        method, _, rest = head.decode("latin-1").partition(" ")
        path = rest.partition(" ")[0].partition("?")[0]
        if method != "GET":
            return 405, PLAIN, "GET alone\n"
        if path == "/health":
            faults = self._faults()
            return (503, PLAIN, "".join(f"{fault}\n" for fault in faults)) if faults else (200, PLAIN, "ok\n")
        if path == "/metrics":
            families = self._families()
            if self._drive is not None:
                families = families + of_drive(await self._drive.read())
            return 200, PROMETHEUS, text_of(families)
        return 404, PLAIN, "/health or /metrics\n"
