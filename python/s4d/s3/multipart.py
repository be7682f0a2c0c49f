"""Uploads in parts."""
from __future__ import annotations

from typing import AsyncIterator, Awaitable, Callable, Dict, Tuple

from ..store.store import Store
from ..store.upload_records import Upload
from ..store.uploads import PARTS, Uploads
from .answers import quoted, stamp_of
from .buckets import xml_answer
from .conditions import check_write, range_of
from .context import Context
from .errors import S3Error
from .http import Answer
from .lists import list_parts
from .objects import Objects
from .xml import document, parsed, text_in


class Multipart:
    """The requests of uploads, each by its method and its part of the query."""

    def __init__(self, store: Store, uploads: Uploads, objects: Objects) -> None:
        self._store, self._uploads, self._objects = store, uploads, objects
        self.calls: Dict[Tuple[str, str], Callable[[Context], Awaitable[Answer]]] = {
            ("POST", "uploads"): self.begin, ("PUT", "uploadId"): self.part, ("POST", "uploadId"): self.complete,
            ("DELETE", "uploadId"): self.abort, ("GET", "uploadId"): self.parts,
        }

    def upload(self, context: Context) -> Upload:
        self._store.bucket(context.bucket)
        return self._uploads.of(context.bucket, context.key, context.request.parameter("uploadId") or "")

    async def begin(self, context: Context) -> Answer:
        """CreateMultipartUpload."""
        upload = await self._uploads.begin(context.bucket, context.key, self._objects.kept(context), context.signed.key.access)
        return xml_answer(document("InitiateMultipartUploadResult", [("Bucket", upload.bucket), ("Key", upload.key),
                                                                     ("UploadId", upload.id)]))

    async def part(self, context: Context) -> Answer:
        """UploadPart and UploadPartCopy."""
        upload, number = self.upload(context), part_number(context.request.parameter("partNumber") or "")
        if "x-amz-copy-source" in context.request.headers:
            part = await self._uploads.put_part(upload, number, await self._copied(context))
            return xml_answer(document("CopyPartResult", [("ETag", quoted(part.etag)), ("LastModified", stamp_of(part.time))]))
        part = await self._uploads.put_part(upload, number, context.payload().data())
        return Answer(headers={"ETag": quoted(part.etag)})

    async def _copied(self, context: Context) -> AsyncIterator[bytes]:
        """The bytes of another version, or of a range of it."""
        entry = await self._objects.source(context)
        given = context.request.headers.get("x-amz-copy-source-range")
        part = range_of(given, entry.version.size)
        if given is not None and part is None:
            raise S3Error("InvalidArgument", "The x-amz-copy-source-range isn't bytes=FIRST-LAST.")
        first, last = part or (0, entry.version.size - 1)
        return self._store.stream(entry, first, last)

    async def complete(self, context: Context) -> Answer:
        """CompleteMultipartUpload."""
        root = parsed(await context.xml(), "CompleteMultipartUpload")
        named = [(part_number(text_in(it, "PartNumber")), text_in(it, "ETag").strip().strip('"')) for it in root.findall("Part")]
        if not named:
            raise S3Error("MalformedXML")
        if any(before >= after for (before, _), (after, _) in zip(named, named[1:])):
            raise S3Error("InvalidPartOrder")
        entry = self._uploads.version_of(context.bucket, context.key, context.request.parameter("uploadId") or "")
        if entry is None:
            upload = self.upload(context)
            entry = await self._uploads.complete(upload, named, lambda before: check_write(context.request.headers, before))
            context.record.made(entry)
        context.record.say(version=entry.version.id)
        answer = xml_answer(document("CompleteMultipartUploadResult", [
            ("Location", f"/{context.bucket}/{context.key}"), ("Bucket", context.bucket), ("Key", context.key),
            ("ETag", quoted(entry.version.etag))]))
        answer.headers["x-amz-version-id"] = entry.version.id
        return answer

    async def abort(self, context: Context) -> Answer:
        """AbortMultipartUpload."""
        await self._uploads.abort(self.upload(context))
        return Answer(204)

    async def parts(self, context: Context) -> Answer:
        """ListParts."""
        return xml_answer(list_parts(self.upload(context), context.request))


def part_number(text: str) -> int:
    """The number of a part; InvalidArgument where it is none from 1 to 10,000."""
    if not text.isascii() or not text.isdigit() or len(text) > 5 or not 1 <= int(text) <= PARTS:
        raise S3Error("InvalidArgument", f"Part number must be an integer between 1 and {PARTS}, inclusive")
    return int(text)
