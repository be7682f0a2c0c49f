"""TLS over a connected socket, which one thread may read while another writes."""
from __future__ import annotations

import contextlib
import io
import os
import socket
import ssl
import threading
from dataclasses import dataclass
from typing import Any, Callable, Optional, TypeVar, Union

PIECE = 65_536  # bytes that are taken from the socket at once

T = TypeVar("T")
PathLike = Union[str, "os.PathLike[str]"]


@dataclass(frozen=True)
class Tls:
    """Paths of files in PEM: the authority that the other side's certificate is tested by (the system's where none is
    given), this side's certificate, and its key where that is in a file of its own.
    """

    ca: Optional[PathLike] = None
    cert: Optional[PathLike] = None
    key: Optional[PathLike] = None

    def context(self) -> ssl.SSLContext:
        """OSError where a file can't be taken."""
        context = ssl.create_default_context(cafile=self.ca)
        context.minimum_version = ssl.TLSVersion.TLSv1_2
        if self.cert is not None:
            context.load_cert_chain(self.cert, self.key)
        return context


def refuses_certificate(error: Exception) -> bool:
    """Whether the other side says by this error that it refuses this side's certificate, or wants one: it took nothing then."""
    reason = (error.reason or "") if isinstance(error, ssl.SSLError) else ""
    return "ALERT" in reason and ("CERTIFICATE" in reason or "UNKNOWN_CA" in reason)


class TlsStream(io.RawIOBase):
    """The two directions of a connection. A socket of Python's `ssl` can't be read and written at once; here a lock keeps
    apart what is done to the TLS object, and nobody waits for the socket while it is held.
    """

    def __init__(self, link: socket.socket, context: ssl.SSLContext, host: str) -> None:
        self._link, self._incoming, self._outgoing = link, ssl.MemoryBIO(), ssl.MemoryBIO()
        self._object = context.wrap_bio(self._incoming, self._outgoing, server_hostname=host)
        self._lock, self._sending = threading.Lock(), threading.Lock()
        self._perform(self._object.do_handshake)

    def readable(self) -> bool:
        return True

    def writable(self) -> bool:
        return True

    def readinto(self, buffer: Any) -> int:
        try:
            found = self._perform(lambda: self._object.read(len(buffer)))
        except (ssl.SSLZeroReturnError, ssl.SSLEOFError):
            return 0
        buffer[:len(found)] = found
        return len(found)

    def write(self, data: Any) -> int:
        rest = memoryview(data)
        with self._sending:
            with self._lock:
                while rest:
                    rest = rest[self._object.write(rest):]  # into memory, so nothing waits
            self._send_all()
        self._send_own()
        return len(data)

    def end(self) -> None:
        """Says to the other side that nothing follows, unless a request is still being sent."""
        if self._sending.acquire(blocking=False):
            try:
                with self._lock:
                    self._object.unwrap()
            except ssl.SSLError:
                pass  # it hasn't said so itself
            finally:
                self._sending.release()
            self._send_own()

    def _perform(self, step: Callable[[], T]) -> T:
        """Does what may need bytes of the other side first."""
        while True:
            try:
                with self._lock:
                    return step()
            except ssl.SSLWantReadError:
                pass
            finally:
                with contextlib.suppress(OSError):  # what the other side said before it ended is still to be read
                    self._send_own()
            data = self._link.recv(PIECE)
            with self._lock:
                if data:
                    self._incoming.write(data)
                else:
                    self._incoming.write_eof()

    def _send_own(self) -> None:
        """Sends what TLS itself has to say. Where a request is being sent that is left to who sends it: a reader may not
        wait for it, since the other side may wait for replies to be read.
        """
        while self._outgoing.pending and self._sending.acquire(blocking=False):
            try:
                self._send_all()
            finally:
                self._sending.release()

    def _send_all(self) -> None:
        while True:
            with self._lock:
                rest = memoryview(self._outgoing.read())
            if not rest:
                return
            while rest:
                rest = rest[self._link.send(rest):]
