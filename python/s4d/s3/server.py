"""The connections of a gateway: how many there are, and how long each may take."""
from __future__ import annotations

import asyncio
import contextlib
import socket
import ssl
from collections import Counter
from typing import Any, Dict, Optional, Set, Tuple
from typing import Counter as Counted

from ..doors import TurnedAway
from ..handshakes import HANDSHAKE_SECONDS
from ..listeners import HandshakeListener, Peer, Serve, TurnAway, listen_tcp
from ..relay import Client
from ..store.service import say
from .errors import S3Error
from .faults import is_known
from .gateway import Gateway, error_answer
from .http import Answer, Body, Ended, Request, read_head, request_of, write_answer
from .limits import BODY_SECONDS, CONNECTIONS, DRAINED_BYTES, HEAD_BYTES, LINGER_SECONDS, PIECE_BYTES
from .record import Record

NOBODY = Request("GET", "/", "/", [], {}, False)
CONTINUE = b"HTTP/1.1 100 Continue\r\n\r\n"


class TlsConnections(HandshakeListener):
    """Connections that come for TLS. Whoever signs may ask: nobody needs a certificate."""

    def __init__(self, link: socket.socket, context: ssl.SSLContext, serve: Serve, turn_away: TurnAway) -> None:
        super().__init__(link, HANDSHAKE_SECONDS, serve, turn_away, HEAD_BYTES)
        self._context = context

    async def _client(self, link: socket.socket, address: Tuple[Any, ...]) -> Client:
        return await self._greeted(link, address, self._context, lambda _client: None)


class Server:
    """Serves connections until it is closed. Who sends no request holds no place from others."""

    def __init__(self, gateway: Gateway, host: str, port: int, tls: Optional[ssl.SSLContext]) -> None:
        self._gateway, self._tls = gateway, tls
        self._listener = listen_tcp(host, port)
        self._server: Optional[asyncio.AbstractServer] = None
        self._secure: Optional[TlsConnections] = None
        self.turned_away: Counted[str] = Counter()  # connections of which no TLS came about, by few texts that say why
        self._idle: Dict[asyncio.StreamWriter, None] = {}  # connections without a request, in the order of their waits
        self._tasks: Set[asyncio.Future[None]] = set()
        self._is_stopping = False

    @property
    def port(self) -> int:
        return int(self._listener.getsockname()[1])

    @property
    def connections(self) -> int:
        return len(self._tasks)

    async def start(self) -> None:
        if self._tls is None:
            self._server = await asyncio.start_server(self._attend, sock=self._listener, limit=HEAD_BYTES)
        else:
            self._secure = TlsConnections(self._listener, self._tls, self._attend_client, self._turn_away)
            self._secure.start()

    async def close(self, seconds: float) -> None:
        """Accepts no more, and waits for the requests that are worked on; what takes longer is cancelled."""
        self._is_stopping = True
        if self._server is not None:
            self._server.close()
        if self._secure is not None:
            await self._secure.accept_no_more()
        for writer in list(self._idle):
            writer.transport.abort()
        if self._tasks:
            await asyncio.wait(set(self._tasks), timeout=seconds)
        for task in list(self._tasks):
            task.cancel()
        if self._tasks:
            await asyncio.wait(set(self._tasks))

    def _turn_away(self, _role: Optional[str], _peer: Peer, turned: TurnedAway) -> None:
        self.turned_away[turned.why] += 1

    async def _attend_client(self, client: Client) -> None:
        await self._attend(client.reader, client.writer)

    async def _attend(self, reader: asyncio.StreamReader, writer: asyncio.StreamWriter) -> None:
        """All that becomes of a connection. Nothing that goes wrong with one reaches another."""
        task = asyncio.ensure_future(self._serve_to_end(reader, writer))
        self._tasks.add(task)
        try:
            await asyncio.wait({task})
        finally:
            self._tasks.discard(task)

    async def _serve_to_end(self, reader: asyncio.StreamReader, writer: asyncio.StreamWriter) -> None:
        """Serves a connection, which counts until it is closed, and that has an end where the other side takes nothing more."""
        try:
            await self._serve(reader, writer)
            self._idle[writer] = None  # who leaves it open holds no place so
            writer.close()
            await asyncio.wait_for(writer.wait_closed(), BODY_SECONDS)
        except (OSError, asyncio.TimeoutError):
            pass  # the other side is gone, or takes nothing
        finally:
            self._idle.pop(writer, None)
            writer.transport.abort()

    async def _serve(self, reader: asyncio.StreamReader, writer: asyncio.StreamWriter) -> None:
        if not self._has_room():
            with contextlib.suppress(Ended):
                await write_answer(writer, error_answer(S3Error("SlowDown"), NOBODY, Record(NOBODY, peer_of(writer))), False)
            return
        try:
            while not self._is_stopping and await self._serve_one(reader, writer):
                pass
        except Ended:
            pass
        except Exception as fault:  # where an answer breaks off, its client sees that it is cut
            writer.transport.abort()
            if not isinstance(fault, OSError) and not is_known(fault):
                say(f"a connection failed: {fault!r}")

    def _has_room(self) -> bool:
        """Whether one more may be served. Where there are too many, the one goes that has waited for longest without a request."""
        if len(self._tasks) <= CONNECTIONS:
            return True
        oldest = next(iter(self._idle), None)
        if oldest is None:
            return False
        del self._idle[oldest]
        oldest.transport.abort()
        return True

    async def _serve_one(self, reader: asyncio.StreamReader, writer: asyncio.StreamWriter) -> bool:
        """Answers a request, and says whether the connection goes on."""
        self._idle[writer] = None
        request = NOBODY
        try:
            head = await read_head(reader)
            self._idle.pop(writer, None)
            request = request_of(head)
            body = Body(reader, request.headers, lambda: begin(request, writer))
        except S3Error as error:
            await write_answer(writer, with_end(error_answer(error, request, Record(request, peer_of(writer)))), request.method == "HEAD")
            await dropped(reader, writer)
            return False
        finally:
            self._idle.pop(writer, None)
        async with self._gateway.answer(request, body, peer_of(writer)) as answer:
            if not answer.is_signed:
                self._idle[writer] = None  # it has its answer, and holds no place by not taking it
            keeps = request.keeps and not self._is_stopping and await drained(body, request)
            await write_answer(writer, answer if keeps else with_end(answer), request.method == "HEAD")
        if not keeps:
            await dropped(reader, writer)
        return keeps


def begin(request: Request, writer: asyncio.StreamWriter) -> None:
    """Says that the body may come, to who waits for that, once."""
    if request.expects:
        request.expects = False
        writer.write(CONTINUE)


async def drained(body: Body, request: Request) -> bool:
    """Whether nothing is left of the body that nobody wanted, so that the next request can be read. It isn't waited for: who has
    not signed could hold places so.
    """
    if body.is_over:
        return True
    if request.expects or (body.length or 0) > DRAINED_BYTES:
        return False
    with contextlib.suppress(S3Error, OSError, asyncio.TimeoutError):
        await asyncio.wait_for(body.whole(DRAINED_BYTES), LINGER_SECONDS)
    return body.is_over


async def dropped(reader: asyncio.StreamReader, writer: asyncio.StreamWriter) -> None:
    """Takes what still comes for a moment: who sends it to a closed connection may never see its answer."""
    with contextlib.suppress(OSError, asyncio.TimeoutError):
        if writer.can_write_eof():
            writer.write_eof()
        await asyncio.wait_for(read_to_end(reader), LINGER_SECONDS)


async def read_to_end(reader: asyncio.StreamReader) -> None:
    while await reader.read(PIECE_BYTES):
        pass


def with_end(answer: Answer) -> Answer:
    answer.headers["Connection"] = "close"
    return answer


def peer_of(writer: asyncio.StreamWriter) -> str:
    found = writer.get_extra_info("peername")
    return f"{found[0]}:{found[1]}" if found else ""
