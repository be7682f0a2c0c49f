"""What is asked of buckets."""
from __future__ import annotations

from typing import Awaitable, Callable, Dict, List, Tuple

from ..store.names import is_bucket_name
from ..store.store import Store
from ..store.uploads import DAYS as UPLOAD_DAYS
from ..store.uploads import Uploads
from .answers import OWNER, check_acl, stamp_of
from .context import Context
from .errors import S3Error
from .http import Answer
from .lists import list_keys, list_keys_2, list_uploads, list_versions
from .stubs import calls_of
from .xml import Node, document, parsed, text_in

DAY = 86_400_000_000  # microseconds
REGION = "us-east-1"
OUTSIDE = "x-s4-outside-cut"  # the header of lists that names the drives of other machines


def xml_answer(data: bytes) -> Answer:
    return Answer(body=data, headers={"Content-Type": "application/xml"})


class Buckets:
    """The requests of buckets, each by its method and its part of the query."""

    def __init__(self, store: Store, uploads: Uploads, window: int) -> None:
        self._store, self._uploads, self._window = store, uploads, window
        self.calls: Dict[Tuple[str, str], Callable[[Context], Awaitable[Answer]]] = {
            ("PUT", ""): self.create, ("HEAD", ""): self.head, ("DELETE", ""): self.delete, ("GET", ""): self.keys,
            ("GET", "versions"): self.versions, ("GET", "uploads"): self.uploads, ("GET", "location"): self.location,
            ("GET", "versioning"): self.versioning, ("PUT", "versioning"): self.set_versioning,
            ("GET", "object-lock"): self.lock, ("PUT", "object-lock"): self.set_lock, ("GET", "lifecycle"): self.lifecycle,
            ("GET", "acl"): self.acl, **calls_of(store),
        }

    async def list_all(self, context: Context) -> Answer:
        """ListBuckets: those that the key may know of."""
        found = [it for name, it in sorted(self._store.index.buckets.items())
                 if context.signed.key.sees(name) and (context.at is None or it.created <= context.at)]
        rows: List[Node] = [("Bucket", [("Name", it.name), ("CreationDate", stamp_of(it.created))]) for it in found]
        return self._list_answer(document("ListAllMyBucketsResult", [OWNER, ("Buckets", rows)]))

    def _list_answer(self, data: bytes) -> Answer:
        """A list, with the drives whose moments are another machine's: what they have isn't of the same cut."""
        answer, remote = xml_answer(data), self._store.pieces.remote
        if remote:
            answer.headers[OUTSIDE] = ", ".join(map(str, remote))
        return answer

    async def create(self, context: Context) -> Answer:
        if not is_bucket_name(context.bucket):
            raise S3Error("InvalidBucketName")
        check_acl(context.request.headers)
        body = await context.xml()
        if body:
            parsed(body, "CreateBucketConfiguration")
        made = await self._store.create_bucket(context.bucket)
        context.record.changed(context.bucket, "", made.change)
        return Answer(headers={"Location": f"/{context.bucket}"})

    async def head(self, context: Context) -> Answer:
        self._store.bucket(context.bucket, context.at)
        return Answer(headers={"x-amz-bucket-region": REGION})

    async def delete(self, context: Context) -> Answer:
        if self._uploads.in_bucket(context.bucket):
            raise S3Error("BucketNotEmpty")
        context.record.changed(context.bucket, "", await self._store.delete_bucket(context.bucket))
        return Answer(204)

    async def keys(self, context: Context) -> Answer:
        bucket, kind = self._store.bucket(context.bucket, context.at), context.request.parameter("list-type")
        if kind not in (None, "1", "2"):
            raise S3Error("InvalidArgument", "The list-type is neither 1 nor 2.")
        listing = list_keys_2 if kind == "2" else list_keys
        return self._list_answer(listing(bucket, context.request, context.at))

    async def versions(self, context: Context) -> Answer:
        return self._list_answer(list_versions(self._store.bucket(context.bucket, context.at), context.request, context.at))

    async def uploads(self, context: Context) -> Answer:
        self._store.bucket(context.bucket, context.at)
        return xml_answer(list_uploads(context.bucket, self._uploads.in_bucket(context.bucket), context.request))

    async def location(self, context: Context) -> Answer:
        self._store.bucket(context.bucket, context.at)
        return xml_answer(document("LocationConstraint", []))

    async def versioning(self, context: Context) -> Answer:
        self._store.bucket(context.bucket, context.at)
        return xml_answer(document("VersioningConfiguration", [("Status", "Enabled")]))

    async def set_versioning(self, context: Context) -> Answer:
        """Every bucket has versions: that may be said again, and nothing else."""
        self._store.bucket(context.bucket, context.at)
        if text_in(parsed(await context.xml(), "VersioningConfiguration"), "Status") != "Enabled":
            raise S3Error("InvalidBucketState", "Every version is kept for the store's window: versioning can't be suspended.")
        return Answer()

    async def lock(self, context: Context) -> Answer:
        """The window in whole days, as Object Lock says it; below a day it has no rule."""
        self._store.bucket(context.bucket, context.at)
        days = self._window // DAY
        rule: List[Node] = [("Rule", [("DefaultRetention", [("Mode", "COMPLIANCE"), ("Days", days)])])] if days else []
        return xml_answer(document("ObjectLockConfiguration", [("ObjectLockEnabled", "Enabled"), *rule]))

    async def set_lock(self, context: Context) -> Answer:
        """What the window keeps anyway may be said; nothing else can be had."""
        self._store.bucket(context.bucket, context.at)
        root = parsed(await context.xml(), "ObjectLockConfiguration")
        retention = root.find("Rule/DefaultRetention")
        if retention is not None:
            days = retention.findtext("Days", "")
            is_kept = days.isascii() and days.isdigit() and len(days) < 10 and int(days) * DAY <= self._window
            if retention.findtext("Mode") != "COMPLIANCE" or not is_kept:
                raise S3Error("InvalidRequest", "The store keeps each version in compliance mode, for its window and no longer.")
        return Answer()

    async def lifecycle(self, context: Context) -> Answer:
        """Versions that were replaced leave with the window, and uploads that aren't completed after some days."""
        self._store.bucket(context.bucket, context.at)
        days = max(-(-self._window // DAY), 1)
        rule: List[Node] = [("ID", "window"), ("Filter", [("Prefix", "")]), ("Status", "Enabled"),
                            ("NoncurrentVersionExpiration", [("NoncurrentDays", days)]),
                            ("AbortIncompleteMultipartUpload", [("DaysAfterInitiation", UPLOAD_DAYS)])]
        return xml_answer(document("LifecycleConfiguration", [("Rule", rule)]))

    async def acl(self, context: Context) -> Answer:
        self._store.bucket(context.bucket, context.at)
        return xml_answer(acl_document())


def acl_document() -> bytes:
    """The owner has all rights, and nobody else has any: rights are those of the file of keys."""
    grantee = '<Grantee xmlns:xsi="http://www.w3.org/2001/XMLSchema-instance" xsi:type="CanonicalUser">'
    grant = f"<Grant>{grantee}<ID>s4</ID><DisplayName>s4</DisplayName></Grantee><Permission>FULL_CONTROL</Permission></Grant>"
    plain = document("AccessControlPolicy", [OWNER, ("AccessControlList", "")])
    return plain.replace(b"<AccessControlList></AccessControlList>",
                         f"<AccessControlList>{grant}</AccessControlList>".encode())
