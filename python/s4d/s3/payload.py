"""A body as its sender meant it: chunks of `aws-chunked` are taken out, and digests and signatures are compared.

All bytes come before the last comparison fails, so whoever takes them does nothing with them until they have come to their end.
"""
from __future__ import annotations

import base64
import binascii
import hashlib
import hmac
import zlib
from typing import AsyncIterator, Dict, List, Optional, Protocol, Tuple

from .errors import S3Error
from .http import Body, Request, hexadecimal, number_of
from .limits import EMPTY_BYTES
from .signature import UNSIGNED, Signed, digest_of

STREAMING = "STREAMING-"
SIGNED_CHUNKS = ("STREAMING-AWS4-HMAC-SHA256-PAYLOAD", "STREAMING-AWS4-HMAC-SHA256-PAYLOAD-TRAILER")
UNSIGNED_CHUNKS = "STREAMING-UNSIGNED-PAYLOAD-TRAILER"
EMPTY = digest_of(b"")
CHECKSUM = "x-amz-checksum-"
TRAILERS = 10  # lines


class Digest(Protocol):
    """Something that a body's bytes are counted into."""

    def update(self, data: bytes, /) -> None: ...

    def digest(self) -> bytes: ...


class Crc32:
    """The checksum of zlib, as bytes."""

    def __init__(self) -> None:
        self._value = 0

    def update(self, data: bytes) -> None:
        self._value = zlib.crc32(data, self._value)

    def digest(self) -> bytes:
        return self._value.to_bytes(4, "big")


def checksum_of(name: str) -> Digest:
    """A checksum by its header's name; NotImplemented where it isn't in Python's library."""
    if name == f"{CHECKSUM}crc32":
        return Crc32()
    if name in (f"{CHECKSUM}sha1", f"{CHECKSUM}sha256"):
        return hashlib.new(name[len(CHECKSUM):])
    raise S3Error("NotImplemented", f"Of checksums only CRC32, SHA1 and SHA256 are implemented, and not {name}.")


def base64_in(text: str) -> bytes:
    try:
        return base64.b64decode(text, validate=True)
    except (binascii.Error, ValueError):
        raise S3Error("InvalidDigest") from None


class Payload:
    """Gives the bytes by `data`, once. S3Error where they aren't what the head or the trailers say."""

    def __init__(self, request: Request, body: Body, signed: Signed, most: int) -> None:
        self._body, self._signed, self._most, self._headers = body, signed, most, request.headers
        self._is_streaming = signed.payload.startswith(STREAMING)
        self._sha256 = hashlib.sha256()
        self._checksums: List[Tuple[Digest, bytes]] = []
        self._trailer: Optional[Tuple[str, Digest]] = None
        for name, value in request.headers.items():
            if name == "content-md5":
                self._checksums.append((hashlib.md5(), base64_in(value)))
            elif name.startswith(CHECKSUM) and name not in (f"{CHECKSUM}type", f"{CHECKSUM}algorithm", f"{CHECKSUM}mode"):
                self._checksums.append((checksum_of(name), base64_in(value)))
        named = request.headers.get("x-amz-trailer", "").lower()
        if named:
            self._trailer = named, checksum_of(named)
        self.length = self._length()

    def _length(self) -> int:
        """How many bytes there are; EntityTooLarge where that is too much."""
        length = self._headers.get("x-amz-decoded-content-length") if self._is_streaming else None
        found = self._body.length if length is None else number_of(length)
        if found is None:
            raise S3Error("MissingContentLength")
        if found > self._most:
            raise S3Error("EntityTooLarge")
        return found

    async def data(self) -> AsyncIterator[bytes]:
        """The bytes, in pieces."""
        count = 0
        async for data in (self._chunks() if self._is_streaming else self._plain()):
            count += len(data)
            if count > self.length:
                raise S3Error("IncompleteBody", "The body is longer than its length.")
            for digest, _ in self._checksums:
                digest.update(data)
            if self._trailer is not None:
                self._trailer[1].update(data)
            yield data
        if count != self.length:
            raise S3Error("IncompleteBody")
        if any(digest.digest() != wanted for digest, wanted in self._checksums):
            raise S3Error("BadDigest")

    async def _plain(self) -> AsyncIterator[bytes]:
        while data := await self._body.some():
            self._sha256.update(data)
            yield data
        if self._signed.payload not in (UNSIGNED, self._sha256.hexdigest()):
            raise S3Error("XAmzContentSHA256Mismatch")

    async def _chunks(self) -> AsyncIterator[bytes]:
        """The bytes of chunks; each signature goes on from that of the chunk before, and the first from the head's."""
        if self._signed.payload not in (*SIGNED_CHUNKS, UNSIGNED_CHUNKS):
            raise S3Error("NotImplemented", f"{self._signed.payload[:60]} is not implemented.")
        before, length = self._signed.signature, -1
        while length:
            size, _, extension = (await self._body.line()).partition(b";")
            length = hexadecimal(size)
            left, digest = length, hashlib.sha256()
            while left:
                data = await self._body.some(left)
                if not data:
                    raise S3Error("IncompleteBody")
                left -= len(data)
                digest.update(data)
                yield data
            if self._signed.payload in SIGNED_CHUNKS:
                before = self._checked(before, extension, digest.hexdigest())
            if length and await self._body.line():
                raise S3Error("InvalidRequest", "A chunk is longer than its length.")
        await self._trailers(before)
        if (await self._body.whole(EMPTY_BYTES)).strip(b"\r\n"):  # and the body has come to its own end
            raise S3Error("InvalidRequest", "Something follows the last chunk.")

    def _checked(self, before: str, extension: bytes, digest: str) -> str:
        """The signature of a chunk; SignatureDoesNotMatch where another is there."""
        wanted = self._signed.next_signature("PAYLOAD", before, EMPTY, digest)
        if not hmac.compare_digest(extension, b"chunk-signature=" + wanted.encode()):
            raise S3Error("SignatureDoesNotMatch")
        return wanted

    async def _trailers(self, before: str) -> None:
        """What follows the last chunk: the checksum that the head names, and its signature."""
        found: Dict[str, str] = {}
        while not self._body.is_over and (line := await self._body.line()):
            name, _, value = line.decode("latin-1").partition(":")
            found[name.lower().strip()] = value.strip()
            if len(found) > TRAILERS:
                raise S3Error("InvalidRequest", "The body has too many trailers.")
        signature = found.pop("x-amz-trailer-signature", "")
        if self._signed.payload == SIGNED_CHUNKS[1]:
            text = "".join(f"{name}:{value}\n" for name, value in sorted(found.items()))
            wanted = self._signed.next_signature("TRAILER", before, digest_of(text.encode()))
            if not hmac.compare_digest(signature.encode(), wanted.encode()):
                raise S3Error("SignatureDoesNotMatch")
        if self._trailer is not None and self._trailer[1].digest() != base64_in(found.get(self._trailer[0], "")):
            raise S3Error("BadDigest")
