"""The server's side of TLS in an event loop.

The loop's own TLS closes a connection once the client has ended its side, with what was still to be written, and says
nothing to a client whose certificate it refuses. Here replies may follow the client's end, and the alert is sent.
"""
from __future__ import annotations

import asyncio
import contextlib
import socket
import ssl
from typing import Any, Dict, Optional, Tuple

from .wire import BODY_BYTES

PIECE = 65_536  # bytes that are taken out of TLS at once


class TlsProtocol(asyncio.StreamReaderProtocol):
    """Takes what a socket receives through TLS to a reader."""

    def __init__(self, reader: asyncio.StreamReader, context: ssl.SSLContext) -> None:
        super().__init__(reader)
        self._reader, self._incoming, self._outgoing = reader, ssl.MemoryBIO(), ssl.MemoryBIO()
        self._object = context.wrap_bio(self._incoming, self._outgoing, server_side=True)
        self._link: Optional[asyncio.Transport] = None
        self._is_over = False  # what the socket receives is dropped
        self._has_ended, self._is_closing = False, False  # the other side of the connection, and this one
        self.handshake: asyncio.Future[None] = asyncio.get_running_loop().create_future()

    def connection_made(self, transport: asyncio.BaseTransport) -> None:
        assert isinstance(transport, asyncio.Transport)
        self._link = transport
        super().connection_made(transport)

    def data_received(self, data: bytes) -> None:
        if self._is_over:
            return
        self._incoming.write(data)
        try:
            self._advance()
        except ssl.SSLWantReadError:
            pass
        except ssl.SSLError as error:
            self._fail(error)
        if self._link is not None:
            self._link.write(self._outgoing.read())  # what TLS has to say itself

    def _advance(self) -> None:
        """Takes what came, up to SSLWantReadError or the other side's end."""
        if not self.handshake.done():
            self._object.do_handshake()
            self.handshake.set_result(None)
        while data := self._object.read(PIECE):
            self._reader.feed_data(data)
        self._is_over = True
        self._reader.feed_eof()

    def _fail(self, error: Exception) -> None:
        self._is_over = True
        if self.handshake.done():
            self._reader.set_exception(error)
        else:
            self.handshake.set_exception(error)

    def eof_received(self) -> bool:
        self._has_ended = True
        if not self.handshake.done():
            self._fail(ConnectionResetError("it ended in its handshake"))
        self._reader.feed_eof()
        return not self._is_closing

    def connection_lost(self, exc: Optional[Exception]) -> None:
        if not self.handshake.done():
            self._fail(exc or ConnectionResetError("it ended in its handshake"))
        super().connection_lost(exc)

    def certificate(self) -> Optional[Dict[str, Any]]:
        """The other side's certificate."""
        return self._object.getpeercert()

    def sealed(self, data: bytes) -> bytes:
        """What these bytes are for the socket."""
        rest = memoryview(data)
        while rest:
            rest = rest[self._object.write(rest):]
        return self._outgoing.read()

    def sealed_end(self) -> bytes:
        """What says that nothing follows. What is received from now on is dropped."""
        self._is_over = True
        with contextlib.suppress(ssl.SSLError):  # the other side hasn't said so yet, or there is no session any more
            self._object.unwrap()
        return self._outgoing.read()

    def close(self, link: asyncio.WriteTransport) -> None:
        """Closes the connection once the other side has ended it, so that what was written isn't lost to a reset."""
        self._is_closing = True
        if self._has_ended:
            link.close()
        elif self._link is not None:
            self._link.resume_reading()


class TlsWriter(asyncio.StreamWriter):
    """Writes to a client through TLS."""

    def __init__(self, transport: asyncio.Transport, protocol: TlsProtocol, reader: asyncio.StreamReader) -> None:
        super().__init__(transport, protocol, reader, asyncio.get_running_loop())
        self._tls, self._has_ended = protocol, False

    async def handshake(self, seconds: float) -> Optional[Dict[str, Any]]:
        """The client's certificate. OSError where no TLS comes about."""
        try:
            await asyncio.wait_for(self._tls.handshake, seconds)
        except asyncio.TimeoutError:
            raise OSError("its handshake took too long") from None
        return self._tls.certificate()

    def write(self, data: Any) -> None:
        super().write(self._tls.sealed(data))

    def write_eof(self) -> None:
        if not self._has_ended:
            self._has_ended = True
            super().write(self._tls.sealed_end())
            with contextlib.suppress(OSError):  # the connection was reset meanwhile
                super().write_eof()

    def close(self) -> None:
        if not self.is_closing():
            self.write_eof()
            self._tls.close(self.transport)


async def tls_streams(link: socket.socket, context: ssl.SSLContext, limit: int = BODY_BYTES) -> Tuple[asyncio.StreamReader, TlsWriter]:
    """The streams of a connected socket, whose handshake is still to be awaited. The limit is that of the reader."""
    reader = asyncio.StreamReader(limit=limit)
    protocol = TlsProtocol(reader, context)
    transport, _ = await asyncio.get_running_loop().connect_accepted_socket(lambda: protocol, link)
    return reader, TlsWriter(transport, protocol, reader)
