"""From a request to its answer: who asks, what it is, and what became of it."""
from __future__ import annotations

import contextlib
from collections import Counter
from datetime import datetime, timezone
from typing import AsyncIterator, Awaitable, Callable, Iterator, Mapping, Optional
from typing import Counter as Counted

from ..access_log import AccessLog
from ..moments import machine_time
from ..store.drives import DriveAway
from ..store.service import say
from ..store.store import Store
from ..store.shares import ASKER
from ..store.uploads import Uploads
from .answers import date_of
from .buckets import Buckets
from .context import Context
from .counts import Counts
from .errors import S3Error
from .faults import error_of, is_known
from .http import METHODS, Answer, Body, Request
from .keys import Key
from .limits import KEY_REQUESTS, OBJECT_BYTES
from .multipart import Multipart
from .objects import Objects
from .past import moment_asked
from .record import Record
from .signature import AT, verified
from .xml import error_document

Call = Callable[[Context], Awaitable[Answer]]

# The names in a query that say what is asked for. Those that no call has are NotImplemented.
PARTS = frozenset((
    "accelerate", "acl", "analytics", "attributes", "cors", "delete", "encryption", "intelligent-tiering", "inventory",
    "legal-hold", "lifecycle", "location", "logging", "metrics", "notification", "object-lock", "ownershipControls", "policy",
    "policyStatus", "publicAccessBlock", "replication", "requestPayment", "restore", "retention", "select", "tagging",
    "torrent", "uploadId", "uploads", "versioning", "versions", "website"))
WRITES = ("PUT", "POST", "DELETE")
# The other names that a query may have. One that isn't known might ask for another thing than what would be done.
PARAMETERS = frozenset((
    "continuation-token", "delimiter", "encoding-type", "fetch-owner", "key-marker", "list-type", "marker", "max-keys", "max-parts",
    "max-uploads", "part-number-marker", "partNumber", "prefix", "start-after", "upload-id-marker", "version-id-marker", "versionId",
    "x-id"))


class Gateway:
    """Answers requests. Nothing is done before the signature is found good, and the key has the right."""

    def __init__(self, store: Store, keys: Mapping[str, Key], window: int, log: Optional[AccessLog], at: Optional[int] = None,
                 counts: Optional[Counts] = None, uploads: Optional[Uploads] = None) -> None:
        """With a moment `at` all is read as it was then, and nothing is changed."""
        self.keys, self._log, self._store, self._window, self._at = keys, log, store, window, at
        self._counts = counts or Counts()
        uploads = uploads or Uploads(store, OBJECT_BYTES)
        self._buckets, self._objects = Buckets(store, uploads, window), Objects(store, window)
        self._multipart = Multipart(store, uploads, self._objects)
        self._working: Counted[str] = Counter()  # requests of each key that are worked on

    @contextlib.asynccontextmanager
    async def answer(self, request: Request, body: Body, peer: str) -> AsyncIterator[Answer]:
        """The answer to a request, errors too. The request counts for its key until the block, which takes the answer, ends."""
        with contextlib.ExitStack() as held:
            yield await self._answer(request, body, peer, held)

    async def _answer(self, request: Request, body: Body, peer: str, held: contextlib.ExitStack) -> Answer:
        record = Record(request, peer)
        try:
            answer = await self._answered(request, body, record, held)
        except Exception as fault:
            if not is_known(fault):  # of this program: the other requests go on
                say(f"request {record.id} failed: {fault!r}")
            if isinstance(fault, DriveAway):
                record.away(fault)
            answer = error_answer(error_of(fault), request, record)
        except BaseException:  # it is cancelled, and what it asked may have been done
            if self._log is not None:
                record.write(self._log, lost=True)
            raise
        answer.is_signed = record.is_signed
        answer.headers.update({"x-amz-request-id": record.id, "Server": "s4d", "Date": date_of(machine_time())})
        self._count(request, body, answer, record)
        if self._log is not None:
            record.write(self._log, status=answer.status, bytes=answer.content_length())
            await self._log.settle()
        return answer

    def _count(self, request: Request, body: Body, answer: Answer, record: Record) -> None:
        method = request.method if request.method in METHODS else "other"
        self._counts.add(method, answer.status, record.error, record.seconds())
        self._counts.taken += body.taken
        self._counts.given += answer.content_length() if method != "HEAD" else 0

    async def _answered(self, request: Request, body: Body, record: Record, held: contextlib.ExitStack) -> Answer:
        if request.method not in METHODS:
            raise S3Error("MethodNotAllowed")
        signed = verified(request, self.keys, datetime.now(timezone.utc))
        access = signed.key.access
        record.sign(access)
        ASKER.set(access)  # until the connection's next request, so that its answer's body is asked for by the same
        bucket, _, key = request.path[1:].partition("/")
        context = Context(request, body, signed, record, bucket, key, self._moment(request, record))
        call = self._call(context)
        if bucket and not signed.key.may(bucket, request.method in WRITES):
            raise S3Error("AccessDenied")
        held.enter_context(self._place(access))
        if context.at is not None:
            await self._store.cut(context.at, bucket)
        return await call(context)

    def _moment(self, request: Request, record: Record) -> Optional[int]:
        """The moment that is read: of the header, or of this gateway; None where it is now. S3Error where it can't be, or where
        something is to be changed.
        """
        text = request.headers.get(AT)
        if text is None and self._at is None:
            return None
        at = moment_asked(text if text is not None else str(self._at), self._window)
        record.say(at=at)
        if request.method in WRITES:
            raise S3Error("MethodNotAllowed", "At a moment that has passed nothing can be changed.")
        if "uploads" in request.names or "uploadId" in request.names:
            raise S3Error("NotImplemented", "Of uploads nothing is known but what there is now.")
        return at

    @contextlib.contextmanager
    def _place(self, access: str) -> Iterator[None]:
        """One of the places that an access key has; SlowDown where it has no more."""
        if self._working[access] >= KEY_REQUESTS:
            raise S3Error("SlowDown")
        self._working[access] += 1
        try:
            yield
        finally:
            self._working[access] -= 1

    def _call(self, context: Context) -> Call:
        """What a request asks for; NotImplemented, or MethodNotAllowed, where it is nothing of these."""
        request = context.request
        part = next((name for name in request.names if name in PARTS), "")
        if any(is_strange(name, value, request.method) for name, value in request.query):
            raise S3Error("NotImplemented")
        if not context.bucket:
            if request.method == "GET" and not part:
                return self._buckets.list_all
            raise S3Error("MethodNotAllowed")
        calls = self._buckets.calls
        if context.key:
            calls = {**self._objects.calls, **self._multipart.calls}
        elif (request.method, part) == ("POST", "delete"):
            return self._objects.delete_many
        found = calls.get((request.method, part))
        if found is None:
            raise S3Error("NotImplemented" if part else "MethodNotAllowed")
        return found


def is_strange(name: str, value: str, method: str) -> bool:
    """Whether a name of a query may ask for what isn't known here. A read may have others with a value, which say nothing."""
    is_known = name in PARTS or name in PARAMETERS or name.lower().startswith(("x-amz-", "response-"))
    return not is_known and (method in WRITES or not value)


def error_answer(error: S3Error, request: Request, record: Record) -> Answer:
    """The answer that says an error."""
    record.say(error=error.code)
    if error.status == 304:
        return Answer(304, headers=dict(error.headers))
    body = error_document([("Code", error.code), ("Message", error.message), ("Resource", request.path), ("RequestId", record.id)])
    return Answer(error.status, body, {**error.headers, "Content-Type": "application/xml"})
