"""Requests and answers of HTTP/1.1 over a pair of streams."""
from __future__ import annotations

import asyncio
import contextlib
import re
from dataclasses import dataclass, field
from http import HTTPStatus
from typing import AsyncIterator, Awaitable, Callable, Dict, Iterator, List, Optional, Tuple, Union
from urllib.parse import unquote_to_bytes

from .errors import S3Error
from .limits import (BODY_SECONDS, CHUNK_LINE_BYTES, EMPTY_BYTES, HEAD_BYTES, HEAD_SECONDS, IDLE_SECONDS, LEAST_RATE,
                     PIECE_BYTES)

METHODS = ("GET", "HEAD", "PUT", "POST", "DELETE")
CONTROL = re.compile("[\x00-\x1f\x7f]")
FORBIDDEN = re.compile("[\x00-\x08\x0a-\x1f\x7f]")  # in a head: who takes one of them for an end of a line reads another request
NAME = re.compile(r"[!#$%&'*+.^_`|~0-9A-Za-z-]+")  # of a header: it is given back with a version, so it has no end of a line
CHUNK = re.compile(rb"([0-9A-Fa-f]{1,12})[ \t]*(?:;[^\x00-\x08\x0a-\x1f\x7f]*)?\r\n")  # the line before a chunk


class Ended(Exception):
    """The other side has ended the connection, or sends nothing: there is nobody to answer."""


@dataclass
class Request:
    """A request's head. Names of headers are in lower case; path and query are decoded, and there as they came, too."""

    method: str
    raw_path: str
    path: str
    query: List[Tuple[str, str]]
    headers: Dict[str, str]
    keeps: bool  # whether the connection goes on
    expects: bool = False  # whether the body comes only once it is asked for

    def parameter(self, name: str) -> Optional[str]:
        """The value of a parameter of the query, empty where it has none; None where it isn't there."""
        return next((value for key, value in self.query if key == name), None)

    @property
    def names(self) -> List[str]:
        return [name for name, _ in self.query]


@dataclass
class Answer:
    """An answer: a body as bytes, or as they come, of a length that is known."""

    status: int = 200
    body: Union[bytes, AsyncIterator[bytes]] = b""
    headers: Dict[str, str] = field(default_factory=dict)
    length: int = 0
    is_signed: bool = True  # whether who asked is known by a signature

    def content_length(self) -> int:
        return len(self.body) if isinstance(self.body, bytes) else self.length


async def read_head(reader: asyncio.StreamReader) -> bytes:
    """The bytes of the next request's head. Ended where none comes, or half of one; S3Error where it is too long or too slow."""
    try:
        with time_limit(reader, IDLE_SECONDS):
            first = await first_byte(reader)
    except (EOFError, OSError, asyncio.TimeoutError):
        raise Ended() from None
    try:
        with time_limit(reader, HEAD_SECONDS):
            return first + await reader.readuntil(b"\r\n\r\n")
    except asyncio.LimitOverrunError:
        raise S3Error("RequestHeaderSectionTooLarge") from None
    except asyncio.TimeoutError:
        raise S3Error("RequestTimeout") from None
    except (EOFError, OSError):
        raise Ended() from None


@contextlib.contextmanager
def time_limit(reader: asyncio.StreamReader, seconds: float) -> Iterator[None]:
    """What is read in the block raises TimeoutError where it takes longer; nothing more can be read then. It takes no task of its own,
    as `wait_for` does, which costs more than reading a small request.
    """
    timer = asyncio.get_running_loop().call_later(seconds, reader.set_exception, asyncio.TimeoutError())
    try:
        yield
    finally:
        timer.cancel()


async def first_byte(reader: asyncio.StreamReader) -> bytes:
    """That of a request's head. Empty lines before it say nothing, if they are few."""
    for _ in range(EMPTY_BYTES):
        first = await reader.readexactly(1)
        if first not in (b"\r", b"\n"):
            return first
    raise S3Error("InvalidRequest", "Too many empty lines are before the first line.")


def request_of(head: bytes) -> Request:
    """The request that a head says; S3Error where it is none."""
    first, *lines = head[:-4].decode("latin-1").split("\r\n")
    words = first.split(" ")
    if any(map(FORBIDDEN.search, (first, *lines))):
        raise S3Error("InvalidRequest", "A line of the head has a control character.")
    if len(words) != 3 or words[2] not in ("HTTP/1.1", "HTTP/1.0") or not words[1].startswith("/"):
        raise S3Error("InvalidRequest", "The first line is no request of HTTP/1.1.")
    headers: Dict[str, str] = {}
    for line in lines:
        name, colon, value = line.partition(":")
        if not colon or NAME.fullmatch(name) is None:
            raise S3Error("InvalidRequest", "A line of the head is no header.")
        name, value = name.lower(), value.strip(" \t")
        if name in headers and name in ("host", "content-length", "transfer-encoding", "authorization"):
            raise S3Error("InvalidRequest", f"The header {name} is there twice.")
        headers[name] = f"{headers[name]},{value}" if name in headers else value
    is_now = words[2] == "HTTP/1.1"
    check_framing(headers, is_now)
    raw_path, _, raw_query = words[1].partition("?")
    keeps = is_now and "close" not in [it.strip().lower() for it in headers.get("connection", "").split(",")]
    expects = is_now and headers.get("expect", "").lower() == "100-continue"
    return Request(words[0], raw_path, decoded(raw_path), query_of(raw_query), headers, keeps, expects)


def check_framing(headers: Dict[str, str], is_now: bool) -> None:
    """S3Error where another program may see another end of the body than this one does, or takes another host for the one meant."""
    if is_now and "host" not in headers:
        raise S3Error("InvalidRequest", "The header host is missing.")
    if "transfer-encoding" not in headers:
        return
    if "content-length" in headers:
        raise S3Error("InvalidRequest", "A body has a content-length or a transfer-encoding, and not both.")
    if not is_now:
        raise S3Error("InvalidRequest", "HTTP/1.0 has no transfer-encoding.")
    if headers["transfer-encoding"].lower() != "chunked":
        raise S3Error("NotImplemented", "Of transfer encodings only chunked is implemented.")


def decoded(text: str) -> str:
    """A percent-encoded text; InvalidURI where it isn't UTF-8."""
    try:
        return unquote_to_bytes(text.encode("latin-1")).decode()
    except UnicodeDecodeError:
        raise S3Error("InvalidURI") from None


def query_of(text: str) -> List[Tuple[str, str]]:
    parts = (part.partition("=") for part in text.split("&") if part)
    return [(decoded(name.replace("+", " ")), decoded(value.replace("+", " "))) for name, _, value in parts]


class Body:
    """A request's body. IncompleteBody is raised where it ends before its length, RequestTimeout where it is too slow."""

    def __init__(self, reader: asyncio.StreamReader, headers: Dict[str, str], begin: Callable[[], None]) -> None:
        self._reader, self._begin = reader, begin
        self.is_chunked = "transfer-encoding" in headers
        self.length = None if self.is_chunked else number_of(headers.get("content-length", "0"))
        self._left, self._is_over = self.length or 0, self.length == 0
        self._held, self.taken, self._is_broken = b"", 0, False
        self._since = asyncio.get_running_loop().time()

    @property
    def is_over(self) -> bool:
        """Whether all of it was taken."""
        return self._is_over and not self._held

    async def some(self, most: int = PIECE_BYTES) -> bytes:
        """The next bytes, at most so many; none at the end."""
        data = self._held or await self._next()
        self._held = data[most:]
        return data[:most]

    async def line(self) -> bytes:
        """The next line, without its end; InvalidRequest where it is too long."""
        while b"\n" not in self._held:
            more = await self._next()
            if not more:
                raise S3Error("IncompleteBody")
            self._held += more
            if len(self._held) > CHUNK_LINE_BYTES + PIECE_BYTES:
                break
        line, end, rest = self._held.partition(b"\n")
        if not end or len(line) > CHUNK_LINE_BYTES:
            raise S3Error("InvalidRequest", "A line of the body is too long.")
        self._held = rest
        return line.rstrip(b"\r")

    async def whole(self, most: int) -> bytes:
        """All of it; MaxMessageLengthExceeded where that is too much."""
        found = bytearray()
        while data := await self.some():
            found += data
            if len(found) > most:
                raise S3Error("MaxMessageLengthExceeded")
        return bytes(found)

    async def _next(self) -> bytes:
        if self._is_over:
            return b""
        if self._is_broken:
            raise S3Error("IncompleteBody")
        self._begin()
        self._is_broken = True  # until this has come: what follows a fault is no request
        if self.is_chunked and not self._left:
            self._left = await self._next_chunk()
            if not self._left:
                self._is_over = True
                return b""
        data = await self._timed(self._reader.read(min(self._left, PIECE_BYTES)))
        if not data:
            raise S3Error("IncompleteBody")
        self.taken += len(data)
        self._left -= len(data)
        if not self._left and not self.is_chunked:
            self._is_over = True
        elif not self._left and await self._timed(self._reader.readuntil(b"\r\n")) != b"\r\n":
            raise S3Error("InvalidRequest", "A chunk is longer than its length.")
        self._is_broken = False
        return data

    async def _next_chunk(self) -> int:
        """The length of the next chunk; after the last the lines that follow are passed over."""
        found = CHUNK.fullmatch(await self._timed(self._reader.readuntil(b"\r\n")))
        if found is None:
            raise S3Error("InvalidRequest", "A chunk has no length.")
        length, passed = int(found[1], 16), 0
        while not length and (line := await self._timed(self._reader.readuntil(b"\r\n"))) != b"\r\n":
            passed += len(line)
            if passed > HEAD_BYTES:
                raise S3Error("InvalidRequest", "Too much follows the last chunk.")
        return length

    async def _timed(self, reading: Awaitable[bytes]) -> bytes:
        allowed = self._since + BODY_SECONDS + self.taken / LEAST_RATE - asyncio.get_running_loop().time()
        try:
            with time_limit(self._reader, max(allowed, 0.01)):
                return await reading
        except asyncio.TimeoutError:
            raise S3Error("RequestTimeout") from None
        except asyncio.LimitOverrunError:
            raise S3Error("InvalidRequest", "A line of the body is too long.") from None
        except EOFError:
            raise S3Error("IncompleteBody") from None


def number_of(text: str) -> int:
    """A length in digits; InvalidRequest where it is none."""
    if not text.isascii() or not text.isdigit() or len(text) > 15:
        raise S3Error("InvalidRequest", f"{text[:20]} is no length.")
    return int(text)


def hexadecimal(digits: bytes) -> int:
    """A length in hexadecimal digits; InvalidRequest where it is none."""
    if not 1 <= len(digits) <= 12 or digits.strip(b"0123456789abcdefABCDEF"):
        raise S3Error("InvalidRequest", "A chunk has no length.")
    return int(digits, 16)


def head_of(answer: Answer, has_body: bool) -> bytes:
    """The bytes of an answer's head."""
    lines = [f"HTTP/1.1 {answer.status} {HTTPStatus(answer.status).phrase}"]
    lines += [f"{name}: {CONTROL.sub(' ', value)}" for name, value in answer.headers.items()]
    if has_body or answer.status not in (204, 304):
        lines.append(f"Content-Length: {answer.content_length()}")
    return "\r\n".join([*lines, "", ""]).encode("latin-1", "replace")


async def write_answer(writer: asyncio.StreamWriter, answer: Answer, without_body: bool) -> None:
    """Writes an answer. Ended where the other side takes it too slowly, or has gone, or the body isn't as long as was said."""
    loop = asyncio.get_running_loop()
    since, sent = loop.time(), 0
    try:
        writer.write(head_of(answer, not without_body and answer.content_length() > 0))
        async for data in pieces_of(answer.body if not without_body else b""):
            writer.write(data)
            sent += len(data)
            await drained(writer, since + BODY_SECONDS + sent / LEAST_RATE - loop.time())
        await drained(writer, BODY_SECONDS)
        if not without_body and sent != answer.content_length():
            raise EOFError  # else the next answer would be taken for the rest of this one
    except (OSError, EOFError, asyncio.TimeoutError):
        writer.transport.abort()  # what it didn't take is let go
        raise Ended() from None


async def drained(writer: asyncio.StreamWriter, seconds: float) -> None:
    """Returns once more may be written. TimeoutError where the other side takes it too slowly."""
    if writer.transport.is_closing() or writer.transport.get_write_buffer_size():
        await asyncio.wait_for(writer.drain(), max(seconds, 0.01))


async def pieces_of(body: Union[bytes, AsyncIterator[bytes]]) -> AsyncIterator[bytes]:
    """An answer's body, in pieces that a connection takes at once."""
    if isinstance(body, bytes):
        for start in range(0, len(body), PIECE_BYTES):
            yield body[start:start + PIECE_BYTES]
        return
    async for data in body:
        yield data
