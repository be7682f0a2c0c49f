"""What is asked of objects: their contents, copies, deletions, and what Object Lock says."""
from __future__ import annotations

import asyncio
from typing import AsyncIterator, Awaitable, Callable, Dict, List, Optional, Tuple

from ..moments import machine_time
from ..store.index import Entry
from ..store.names import is_key
from ..store.store import Store
from .answers import date_of, headers_of, headers_to_keep, quoted, stamp_in, stamp_of, time_at
from .buckets import acl_document, xml_answer
from .conditions import check_read, check_write, range_of
from .context import Context
from .errors import S3Error
from .faults import error_of, is_known
from .http import Answer, decoded
from .limits import DELETES, PAGE
from .stubs import check_acl_request
from .tags import TAGGING, tags_document, tags_in, tags_of_xml, with_tags
from .xml import Node, document, parsed, text_in

OVERRIDES = ("content-type", "content-language", "expires", "cache-control", "content-disposition", "content-encoding")
LOCK = "x-amz-object-lock-"


class Objects:
    """The requests of objects, each by its method and its part of the query."""

    def __init__(self, store: Store, window: int) -> None:
        self._store, self._window = store, window
        self.calls: Dict[Tuple[str, str], Callable[[Context], Awaitable[Answer]]] = {
            ("GET", ""): self.get, ("HEAD", ""): self.get, ("PUT", ""): self.put, ("DELETE", ""): self.delete,
            ("GET", "retention"): self.retention, ("PUT", "retention"): self.set_retention,
            ("GET", "legal-hold"): self.legal_hold, ("PUT", "legal-hold"): self.set_legal_hold, ("GET", "acl"): self.acl,
            ("PUT", "acl"): self.set_acl, ("GET", "tagging"): self.tagging, ("PUT", "tagging"): self.set_tagging,
            ("DELETE", "tagging"): self.set_tagging, ("GET", "attributes"): self.attributes,
        }

    async def entry(self, bucket: str, key: str, id: Optional[str], at: Optional[int] = None) -> Entry:
        """The version that is asked for, now or at a moment, which is no marker; S3Error where there is none."""
        await self._store.settle(bucket, key)
        found = self._store.bucket(bucket, at)
        entry = found.current(key, at) if id is None else found.version(key, id, at)
        if entry is None:
            raise S3Error("NoSuchKey" if id is None else "NoSuchVersion")
        if entry.version.is_marker:
            headers = {"x-amz-delete-marker": "true", "x-amz-version-id": entry.version.id}
            if id is None:
                raise S3Error("NoSuchKey", headers=headers)
            raise S3Error("MethodNotAllowed", headers={**headers, "Last-Modified": date_of(entry.version.time), "Allow": "DELETE"})
        return entry

    async def asked(self, context: Context) -> Entry:
        """The version that a request names by its path."""
        return await self.entry(context.bucket, context.key, context.version(), context.at)

    async def get(self, context: Context) -> Answer:
        """GetObject and HeadObject."""
        entry, request = await self.asked(context), context.request
        check_read(request.headers, entry)
        if "partNumber" in request.names:
            raise S3Error("NotImplemented", "Parts of an object can't be read by their numbers.")
        size = entry.version.size
        given = request.headers.get("range")
        if request.headers.get("if-range", quoted(entry.version.etag)) != quoted(entry.version.etag):
            given = None
        part = range_of(given, size)
        first, last = part or (0, size - 1)
        headers = headers_of(entry, self._window)
        headers.update({name.title(): value for name in OVERRIDES if (value := request.parameter(f"response-{name}"))})
        if part is not None:
            headers["Content-Range"] = f"bytes {first}-{last}/{size}"
        context.record.say(version=entry.version.id)
        body = self._store.stream(entry, first, last)
        if request.method == "HEAD":
            return Answer(200 if part is None else 206, body, headers, last - first + 1)
        return Answer(200 if part is None else 206, await begun(body), headers, last - first + 1)

    async def put(self, context: Context) -> Answer:
        """PutObject and CopyObject."""
        if "x-amz-copy-source" in context.request.headers:
            return await self.copy(context)
        headers = self.kept(context)
        payload = context.payload()
        entry = await self._store.put(context.bucket, context.key, payload.data(), headers,
                                      lambda before: check_write(context.request.headers, before))
        context.record.made(entry)
        return Answer(headers={"ETag": quoted(entry.version.etag), "x-amz-version-id": entry.version.id})

    def kept(self, context: Context) -> Dict[str, str]:
        """The headers that are kept, where the key may be one and what is wanted of the lock is what it does."""
        if not is_key(context.key):
            raise S3Error("KeyTooLongError")
        headers = context.request.headers
        until = headers.get(f"{LOCK}retain-until-date")
        if headers.get(f"{LOCK}mode", "COMPLIANCE") != "COMPLIANCE" or headers.get(f"{LOCK}legal-hold", "OFF") != "OFF":
            raise S3Error("InvalidRequest", "The store keeps each version in compliance mode, for its window, without legal holds.")
        if until is not None and stamp_in(until) > time_at(machine_time() + self._window):
            raise S3Error("InvalidRequest", "The store keeps versions for its window and no longer.")
        return headers_to_keep(headers)

    async def source(self, context: Context) -> Entry:
        """The version that is copied, which the key may read, and which is what the request wants."""
        name, _, query = context.request.headers["x-amz-copy-source"].partition("?")
        bucket, _, key = decoded(name).lstrip("/").partition("/")
        id = decoded(query[len("versionId="):]) if query.startswith("versionId=") else None
        if not bucket or not key or (query and id is None):
            raise S3Error("InvalidArgument", "The x-amz-copy-source isn't BUCKET/KEY or BUCKET/KEY?versionId=ID.")
        if not context.signed.key.may(bucket, False):
            raise S3Error("AccessDenied")
        entry = await self.entry(bucket, key, id)
        check_read(context.request.headers, entry, "x-amz-copy-source-")
        return entry

    async def copy(self, context: Context) -> Answer:
        entry, headers = await self.source(context), self.kept(context)
        directive, tagging = (context.request.headers.get(f"x-amz-{name}-directive", "COPY") for name in ("metadata", "tagging"))
        if {directive, tagging} - {"COPY", "REPLACE"}:
            raise S3Error("InvalidArgument", "Unknown directive.")
        tags = (headers if tagging == "REPLACE" else entry.version.headers).get(TAGGING, "")
        headers = with_tags(headers if directive == "REPLACE" else entry.version.headers, tags_in(tags))
        is_itself = (entry.version.bucket, entry.version.key, entry.until) == (context.bucket, context.key, None)
        if is_itself and directive == "COPY":
            raise S3Error("InvalidRequest", "This copy request is illegal because it is trying to copy an object to itself "
                                            "without changing the object's metadata.")
        body = self._store.stream(entry, 0, entry.version.size - 1)
        made = await self._store.put(context.bucket, context.key, body, headers,
                                     lambda before: check_write(context.request.headers, before))
        context.record.made(made)
        answer = xml_answer(document("CopyObjectResult", [("ETag", quoted(made.version.etag)),
                                                          ("LastModified", stamp_of(made.version.time))]))
        answer.headers.update({"x-amz-version-id": made.version.id, "x-amz-copy-source-version-id": entry.version.id})
        return answer

    async def delete(self, context: Context) -> Answer:
        """DeleteObject: a marker, where something is there. A version that can be read isn't deleted."""
        found = await self._delete(context, context.key, context.version())
        context.record.say(version=found.get("x-amz-version-id"))
        return Answer(204, headers=found)

    async def _delete(self, context: Context, key: str, id: Optional[str]) -> Dict[str, str]:
        bucket = context.bucket
        await self._store.settle(bucket, key)
        entry = self._store.bucket(bucket).current(key)
        if id is not None:
            if self._store.bucket(bucket).version(key, id) is not None:
                raise S3Error("AccessDenied", "Access Denied because object protected by object lock.")
            return {"x-amz-version-id": id}
        if entry is None:
            return {}
        if not entry.version.is_marker:
            entry = await self._store.delete(bucket, key)
            context.record.made(entry)
        return {"x-amz-delete-marker": "true", "x-amz-version-id": entry.version.id}

    async def delete_many(self, context: Context) -> Answer:
        """DeleteObjects."""
        root = parsed(await context.xml(), "Delete")
        self._store.bucket(context.bucket)
        rows = [(text_in(it, "Key"), it.findtext("VersionId")) for it in root.findall("Object")]
        if not 1 <= len(rows) <= PAGE:
            raise S3Error("MalformedXML")
        is_quiet = root.findtext("Quiet") == "true"
        found: List[Node] = []
        for start in range(0, len(rows), DELETES):
            deletes = [self._delete_one(context, key, id, is_quiet) for key, id in rows[start:start + DELETES]]
            found += [node for nodes in await asyncio.gather(*deletes) for node in nodes]
        return xml_answer(document("DeleteResult", found))

    async def _delete_one(self, context: Context, key: str, id: Optional[str], is_quiet: bool) -> List[Node]:
        named: List[Node] = [("Key", key), *([("VersionId", id)] if id else [])]
        try:
            found = await self._delete(context, key, id)
        except Exception as fault:
            if not is_known(fault):
                raise
            error = error_of(fault)
            return [("Error", [*named, ("Code", error.code), ("Message", error.message)])]
        if is_quiet:
            return []
        marker: List[Node] = []
        if found.get("x-amz-delete-marker"):
            marker = [("DeleteMarker", True), ("DeleteMarkerVersionId", found["x-amz-version-id"])]
        return [("Deleted", named + marker)]

    async def retention(self, context: Context) -> Answer:
        version = (await self.asked(context)).version
        return xml_answer(document("Retention", [("Mode", "COMPLIANCE"),
                                                 ("RetainUntilDate", stamp_of(version.time + self._window))]))

    async def set_retention(self, context: Context) -> Answer:
        """What the window keeps anyway may be said; a later date is refused."""
        version, root = (await self.asked(context)).version, parsed(await context.xml(), "Retention")
        if text_in(root, "Mode") != "COMPLIANCE" or stamp_in(text_in(root, "RetainUntilDate")) > time_at(version.time + self._window):
            raise S3Error("InvalidRequest", "The store keeps each version in compliance mode, for its window and no longer.")
        return Answer()

    async def legal_hold(self, context: Context) -> Answer:
        await self.asked(context)
        return xml_answer(document("LegalHold", [("Status", "OFF")]))

    async def set_legal_hold(self, context: Context) -> Answer:
        await self.asked(context)
        if text_in(parsed(await context.xml(), "LegalHold"), "Status") != "OFF":
            raise S3Error("InvalidRequest", "The store keeps versions for its window, and has no legal holds.")
        return Answer()

    async def acl(self, context: Context) -> Answer:
        await self.asked(context)
        return xml_answer(acl_document())

    async def set_acl(self, context: Context) -> Answer:
        await self.asked(context)
        await check_acl_request(context)
        return Answer()

    async def tagging(self, context: Context) -> Answer:
        """GetObjectTagging."""
        entry = await self.asked(context)
        answer = xml_answer(tags_document(entry.version.headers))
        answer.headers["x-amz-version-id"] = entry.version.id
        return answer

    async def set_tagging(self, context: Context) -> Answer:
        """PutObjectTagging and DeleteObjectTagging: a version of the same contents, since a version never changes."""
        entry, is_put = await self.asked(context), context.request.method == "PUT"
        tags = tags_of_xml(await context.xml()) if is_put else {}
        if entry.until is not None:
            raise S3Error("InvalidRequest", "A version that was replaced keeps the tags that it has.")

        def unchanged(before: Optional[Entry]) -> None:
            if before is not entry:
                raise S3Error("OperationAborted")

        made = await self._store.relabel(entry, with_tags(entry.version.headers, tags), unchanged)
        context.record.made(made)
        return Answer(200 if is_put else 204, headers={"x-amz-version-id": made.version.id})

    async def attributes(self, context: Context) -> Answer:
        """GetObjectAttributes, but for parts and checksums, which aren't kept."""
        entry = await self.asked(context)
        wanted = {it.strip() for it in context.request.headers.get("x-amz-object-attributes", "").split(",")}
        known: List[Node] = [("ETag", entry.version.etag), ("StorageClass", "STANDARD"), ("ObjectSize", entry.version.size)]
        answer = xml_answer(document("GetObjectAttributesResponse", [node for node in known if node[0] in wanted]))
        answer.headers.update({"x-amz-version-id": entry.version.id, "Last-Modified": date_of(entry.version.time)})
        return answer


async def begun(body: AsyncIterator[bytes]) -> AsyncIterator[bytes]:
    """The same bytes; the first are there, so that an error that comes before them has an answer of its own."""
    try:
        first = await body.__anext__()
    except StopAsyncIteration:
        first = b""

    async def all_of() -> AsyncIterator[bytes]:
        yield first
        async for data in body:
            yield data

    return all_of()
