"""Lists of buckets, keys, versions and uploads, as S3 writes them."""
from __future__ import annotations

import base64
import binascii
from typing import Callable, List, Optional, Tuple
from urllib.parse import quote

from ..store.index import Bucket, Entry
from ..store.listing import Page, keys_page, versions_page
from ..store.upload_records import Part, Upload
from .answers import OWNER, quoted, stamp_of
from .errors import S3Error
from .http import Request
from .limits import PAGE
from .xml import Node, document

Encode = Callable[[str], str]


def unchanged(text: str) -> str:
    return text


def url_encoded(text: str) -> str:
    return quote(text, safe="/-_.~")


class Asked:
    """What a request for a list says: its prefix, its delimiter, how many entries, and how names are written."""

    def __init__(self, request: Request, most: str = "max-keys") -> None:
        self.request = request
        self.prefix = request.parameter("prefix") or ""
        self.delimiter = request.parameter("delimiter") or ""
        encoding = request.parameter("encoding-type")
        if encoding not in (None, "", "url"):
            raise S3Error("InvalidArgument", "Invalid Encoding Method specified in Request")
        self.encode: Encode = url_encoded if encoding == "url" else unchanged
        self.encoding: List[Node] = [("EncodingType", "url")] if encoding == "url" else []
        given = request.parameter(most)
        if given is not None and (not given.isascii() or not given.isdigit() or len(given) > 10):
            raise S3Error("InvalidArgument", f"Provided {most} not an integer or within integer range")
        self.most = min(PAGE, PAGE if given is None else int(given))
        self.most_said: Node = ("MaxKeys", PAGE if given is None else min(int(given), PAGE))

    def given(self, name: str) -> str:
        return self.request.parameter(name) or ""

    def shared(self, page: Page) -> List[Node]:
        """The prefixes that keys of a page share."""
        return [("CommonPrefixes", [("Prefix", self.encode(prefix))]) for prefix in page.prefixes]

    def has_delimiter(self) -> List[Node]:
        return [("Delimiter", self.encode(self.delimiter))] if self.delimiter else []


def contents_node(entry: Entry, encode: Encode, has_owner: bool) -> Node:
    version = entry.version
    members: List[Node] = [("Key", encode(version.key)), ("LastModified", stamp_of(version.time)),
                           ("ETag", quoted(version.etag)), ("Size", version.size), ("StorageClass", "STANDARD")]
    return "Contents", members + ([OWNER] if has_owner else [])


def list_keys(bucket: Bucket, request: Request, at: Optional[int]) -> bytes:
    """ListObjects, the first version of it: a page follows a name."""
    asked = Asked(request)
    marker = asked.given("marker")
    page = keys_page(bucket, asked.prefix, asked.delimiter, marker, asked.most, at)
    next_marker: List[Node] = [("NextMarker", asked.encode(page.last))] if page.is_cut and asked.delimiter else []
    return document("ListBucketResult", [
        ("Name", bucket.name), ("Prefix", asked.encode(asked.prefix)), ("Marker", asked.encode(marker)), *next_marker,
        asked.most_said, *asked.has_delimiter(), ("IsTruncated", page.is_cut), *asked.encoding,
        *[contents_node(it, asked.encode, True) for it in page.entries], *asked.shared(page)])


def list_keys_2(bucket: Bucket, request: Request, at: Optional[int]) -> bytes:
    """ListObjectsV2: a page follows a token."""
    asked = Asked(request)
    token, start = request.parameter("continuation-token"), asked.given("start-after")
    after = start if token is None else name_in(token)
    page = keys_page(bucket, asked.prefix, asked.delimiter, after, asked.most, at)
    said: List[Node] = [("ContinuationToken", token)] if token is not None else []
    said += [("NextContinuationToken", token_of(page.last))] if page.is_cut else []
    said += [("StartAfter", asked.encode(start))] if start else []
    has_owner = request.parameter("fetch-owner") == "true"
    return document("ListBucketResult", [
        ("Name", bucket.name), ("Prefix", asked.encode(asked.prefix)), *said, ("KeyCount", len(page)), asked.most_said,
        *asked.has_delimiter(), ("IsTruncated", page.is_cut), *asked.encoding,
        *[contents_node(it, asked.encode, has_owner) for it in page.entries], *asked.shared(page)])


def token_of(name: str) -> str:
    return base64.urlsafe_b64encode(name.encode()).decode()


def name_in(token: str) -> str:
    """The name that a token of an earlier page says; InvalidArgument where it says none."""
    try:
        return base64.b64decode(token.encode(), b"-_", validate=True).decode()
    except (binascii.Error, ValueError):
        raise S3Error("InvalidArgument", "The continuation token provided is incorrect") from None


def list_versions(bucket: Bucket, request: Request, at: Optional[int]) -> bytes:
    """ListObjectVersions."""
    asked = Asked(request)
    after = (asked.given("key-marker"), asked.given("version-id-marker"))
    if after[1] and not after[0]:
        raise S3Error("InvalidArgument", "A version-id marker cannot be specified without a key marker.")
    page = versions_page(bucket, asked.prefix, asked.delimiter, after, asked.most, at)
    said: List[Node] = [("KeyMarker", asked.encode(after[0])), ("VersionIdMarker", after[1])]
    if page.is_cut:
        said.append(("NextKeyMarker", asked.encode(page.last)))
        if page.entries and page.entries[-1].version.key == page.last:
            said.append(("NextVersionIdMarker", page.entries[-1].version.id))
    return document("ListVersionsResult", [
        ("Name", bucket.name), ("Prefix", asked.encode(asked.prefix)), *said, asked.most_said, *asked.has_delimiter(),
        ("IsTruncated", page.is_cut), *asked.encoding,
        *[version_node(it, asked.encode, at) for it in page.entries], *asked.shared(page)])


def version_node(entry: Entry, encode: Encode, at: Optional[int]) -> Node:
    version = entry.version
    shared: List[Node] = [("Key", encode(version.key)), ("VersionId", version.id), ("IsLatest", entry.is_latest(at)),
                          ("LastModified", stamp_of(version.time)), OWNER]
    if version.is_marker:
        return "DeleteMarker", shared
    return "Version", [*shared, ("ETag", quoted(version.etag)), ("Size", version.size), ("StorageClass", "STANDARD")]


def list_uploads(bucket: str, uploads: List[Upload], request: Request) -> bytes:
    """ListMultipartUploads: those with a prefix, those after a key and an upload of it. None are joined by a delimiter."""
    asked = Asked(request, "max-uploads")
    after: Tuple[str, str] = (asked.given("key-marker"), asked.given("upload-id-marker"))
    if asked.delimiter:
        raise S3Error("NotImplemented", "Lists of uploads have no delimiter here.")
    found = [it for it in uploads if it.key.startswith(asked.prefix)]
    if after[0]:
        place = next((i for i, it in enumerate(found) if (it.key, it.id) == after), None)
        found = [it for it in found if it.key > after[0]] if place is None else found[place + 1:]
    page, is_cut = found[:asked.most], len(found) > asked.most > 0
    said: List[Node] = [("NextKeyMarker", asked.encode(page[-1].key)), ("NextUploadIdMarker", page[-1].id)] if is_cut else []
    return document("ListMultipartUploadsResult", [
        ("Bucket", bucket), ("KeyMarker", asked.encode(after[0])), ("UploadIdMarker", after[1]), *said,
        ("Prefix", asked.encode(asked.prefix)), ("MaxUploads", asked.most), ("IsTruncated", is_cut), *asked.encoding,
        *[upload_node(it, asked.encode) for it in page]])


def upload_node(upload: Upload, encode: Encode) -> Node:
    return "Upload", [("Key", encode(upload.key)), ("UploadId", upload.id), ("Initiator", OWNER[1]), OWNER,
                      ("StorageClass", "STANDARD"), ("Initiated", stamp_of(upload.time))]


def list_parts(upload: Upload, request: Request) -> bytes:
    """ListParts."""
    asked = Asked(request, "max-parts")
    marker = asked.given("part-number-marker") or "0"
    if not marker.isascii() or not marker.isdigit():
        raise S3Error("InvalidArgument", "The part-number-marker is no number.")
    found: List[Part] = sorted((it for it in upload.parts.values() if it.number > int(marker[:10])), key=lambda it: it.number)
    page, is_cut = found[:asked.most], len(found) > asked.most > 0
    following: Optional[Node] = ("NextPartNumberMarker", page[-1].number) if is_cut else None
    return document("ListPartsResult", [
        ("Bucket", upload.bucket), ("Key", asked.encode(upload.key)), ("UploadId", upload.id), ("Initiator", OWNER[1]), OWNER,
        ("StorageClass", "STANDARD"), ("PartNumberMarker", int(marker[:10])), *([following] if following else []),
        ("MaxParts", asked.most), ("IsTruncated", is_cut), *asked.encoding, *[part_node(it) for it in page]])


def part_node(part: Part) -> Node:
    return "Part", [("PartNumber", part.number), ("LastModified", stamp_of(part.time)), ("ETag", quoted(part.etag)),
                    ("Size", part.size)]
