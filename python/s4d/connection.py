"""Frames over a pair of streams."""
from __future__ import annotations

import contextlib
import io
import socket
from typing import Callable, Optional, Protocol, Union

from .addresses import Address
from .errors import SERVED, BadReply, Disconnected, Ended, ImageServed, NotAsked, ReplyLost
from .tls import Tls, TlsStream, refuses_certificate
from .wire import READ_BYTES, TURNED_AWAY


ENDED = "the session was ended before this request, which waited too long for its turn; it wasn't passed on"


class Reader(Protocol):
    """A binary stream that replies come from."""

    def read(self, count: int, /) -> Optional[bytes]: ...


class Writer(Protocol):
    """A binary stream that requests go to."""

    def write(self, data: bytes, /) -> object: ...

    def flush(self) -> object: ...


class Peer:
    """What is at the other end of the streams. By itself it can't be ended and says nothing of its end."""

    def close(self) -> Optional[Ended]:
        """Ends it, and says how it ended where it is a program."""
        return None

    def outcome(self) -> Optional[Ended]:
        """How it ended, where it is a program that has."""
        return None


class Connection:
    """Sends requests and takes replies.

    After a failure nothing more is sent, since a late reply could belong to any request.
    """

    def __init__(self, reader: Reader, writer: Writer, peer: Peer) -> None:
        self._reader, self._writer, self._peer = reader, writer, peer
        self._may_turn_away = isinstance(peer, (SocketPeer, TlsPeer))  # it may be a bridge that has no session
        self._usable, self._closed, self._is_new, self._is_turned_away = True, False, True, False
        self.ended: Optional[Ended] = None

    def close(self) -> Optional[Ended]:
        """Ends the session, at the first call."""
        self._usable = False
        if not self._closed:
            self._closed = True
            self.ended = self._peer.close()
        return self.ended

    def check(self) -> None:
        """Disconnected where nothing can be sent any more."""
        if self._is_turned_away:
            raise self._not_asked()
        if not self._usable:
            raise Disconnected("the session has ended", self.ended)

    def send(self, data: bytes) -> None:
        """Writes frames of requests. ReplyLost where a part of them may have gone, ImageServed where nobody took them."""
        self.check()
        try:
            self._writer.write(data)
            self._writer.flush()
        except (OSError, ValueError) as error:
            raise self._lost(f"the request could not be sent: {error}", error) from error

    def send_alone(self, data: bytes) -> None:
        """Writes frames while nobody receives. NotAsked where the other side had turned this one away before."""
        try:
            self.send(data)
        except ReplyLost as lost:
            if self._is_new and self._may_turn_away and not isinstance(lost.__cause__, TimeoutError):
                self._look_whether_turned_away()
            raise

    def receive(self) -> bytes:
        """The body of the next reply to what was sent. ReplyLost where none comes, NotAsked where a bridge has no session, or none
        any more, ImageServed where the program can't have the image.
        """
        if self._is_turned_away:
            raise self._not_asked()
        length = int.from_bytes(self._bytes(4), "big")
        if not 1 <= length <= READ_BYTES + 1:
            raise self.bad(f"a reply has no {length:,} bytes")
        body = self._bytes(length)
        if self._may_turn_away and body == TURNED_AWAY:
            raise self._not_asked() if self._is_new else self._not_asked(ENDED)
        self._is_new = False
        return body

    def _look_whether_turned_away(self) -> None:
        with contextlib.suppress(ReplyLost, BadReply):
            self.receive()

    def _not_asked(self, why: str = "no session was to be had; nothing was passed on") -> NotAsked:
        self._usable, self._is_turned_away = False, True
        return NotAsked(why)

    def bad(self, why: str) -> BadReply:
        """The error of bytes that are no reply; the session is over."""
        self._usable = False
        return BadReply(why)

    def _bytes(self, count: int) -> bytes:
        found = b""
        while len(found) < count:
            try:
                more = self._reader.read(count - len(found))
            except (OSError, ValueError) as error:
                if self._is_new and refuses_certificate(error):
                    raise self._not_asked(f"the certificate was refused: {error}") from error
                raise self._lost(f"the reply could not be read: {error}", error) from error
            if not more:
                raise self._lost("the stream ended before the reply")
            found += more
        return found

    def _lost(self, why: str, error: Optional[Exception] = None) -> Disconnected:
        self._usable = False
        if not isinstance(error, TimeoutError):  # after one it still runs
            self.ended = self.ended or self._peer.outcome()
        if self._is_new and self.ended is not None and self.ended.said.endswith(SERVED):
            return ImageServed("no session was to be had", self.ended)
        return ReplyLost(why, self.ended)


class SocketPeer(Peer):
    """A socket and its two streams."""

    def __init__(self, link: socket.socket) -> None:
        self.reader, self.writer, self._link = link.makefile("rb"), link.makefile("wb"), link

    def close(self) -> None:
        close_all(self.writer.close, self.reader.close, self._link.close)


class TlsPeer(Peer):
    """A socket with TLS, and its two streams."""

    def __init__(self, link: socket.socket, tls: Tls, host: str) -> None:
        stream = TlsStream(link, tls.context(), host)
        self.reader = io.BufferedReader(stream)
        self.writer, self._link = stream, link

    def close(self) -> None:
        close_all(self.writer.end, self._link.close)


def close_all(*ways: Callable[[], object]) -> None:
    """Closes what there is, whether the other side is still there or not."""
    for close in ways:
        try:
            close()
        except OSError:
            pass


def connected(address: Address, timeout: Optional[float], tls: Optional[Tls]) -> Union[SocketPeer, TlsPeer]:
    """The peer at an address. Each wait ends after the timeout, in seconds, with an OSError."""
    link = dialled(address, timeout)
    try:
        return SocketPeer(link) if address.kind != "tls" else TlsPeer(link, tls or Tls(), address.host)
    except OSError:
        link.close()
        raise


def dialled(address: Address, timeout: Optional[float]) -> socket.socket:
    """A socket that is connected to an address."""
    if address.kind != "unix":
        return socket.create_connection((address.host, address.port), timeout)
    link = socket.socket(socket.AF_UNIX)
    try:
        link.settimeout(timeout)
        link.connect(address.path)
    except OSError:
        link.close()
        raise
    return link
