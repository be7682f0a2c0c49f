"""What answers have in common: times, digests in quotation marks, the owner, and headers that are kept with a version."""
from __future__ import annotations

import re
from datetime import datetime, timedelta, timezone
from email.utils import format_datetime, parsedate_to_datetime
from typing import Dict, Mapping, Optional

from ..moments import EPOCH
from ..store.index import Entry
from .errors import S3Error
from .limits import METADATA_BYTES
from .tags import TAGGING, tags_in, with_tags
from .xml import Node

OWNER: Node = ("Owner", [("ID", "s4"), ("DisplayName", "s4")])
KEPT = ("content-type", "cache-control", "content-disposition", "content-encoding", "content-language", "expires")
METADATA = "x-amz-meta-"
REFUSED = ("x-amz-server-side-encryption", "x-amz-website-redirect-location", "x-amz-grant-",
           "x-amz-write-offset-bytes")
ACLS = ("private", "bucket-owner-full-control")  # that say what is so anyway: the owner has all rights, and nobody else any
DEFAULT_TYPE = "binary/octet-stream"


def quoted(etag: str) -> str:
    return f'"{etag}"'


def time_at(moment: int) -> datetime:
    return EPOCH + timedelta(microseconds=moment)


def stamp_of(moment: int) -> str:
    """A time as XML has it."""
    return time_at(moment).isoformat(timespec="milliseconds").replace("+00:00", "Z")


def date_of(moment: int) -> str:
    """A time as headers have it."""
    return format_datetime(time_at(moment).replace(microsecond=0), usegmt=True)


def date_in(text: str) -> Optional[datetime]:
    """The time of a header, or None where it says none."""
    try:
        found = parsedate_to_datetime(text)
    except (TypeError, ValueError, IndexError, OverflowError):
        return None
    return found if found.tzinfo is not None else found.replace(tzinfo=timezone.utc)


def stamp_in(text: str) -> datetime:
    """The time of XML; MalformedXML where it is none."""
    try:
        found = datetime.fromisoformat(re.sub(r"(\.[0-9]{3})[0-9]*", r"\1", text.strip()).replace("Z", "+00:00"))
    except ValueError:
        raise S3Error("MalformedXML") from None
    return found if found.tzinfo is not None else found.replace(tzinfo=timezone.utc)


def headers_to_keep(headers: Mapping[str, str]) -> Dict[str, str]:
    """The headers of a request that are kept with the version; S3Error where it asks for more than a store can do."""
    for name in headers:
        if name.startswith(REFUSED):
            raise S3Error("NotImplemented", f"The header {name} is not implemented.")
    check_acl(headers)
    kept = {name: value for name, value in headers.items() if name in KEPT or name.startswith(METADATA)}
    kept = with_tags(kept, tags_in(headers.get(TAGGING, "")))
    encodings = [it.strip() for it in kept.pop("content-encoding", "").split(",")]
    encoding = ",".join(it for it in encodings if it and it != "aws-chunked")
    if encoding:
        kept["content-encoding"] = encoding
    if sum(len(name) - len(METADATA) + len(value) for name, value in kept.items() if name.startswith(METADATA)) > METADATA_BYTES:
        raise S3Error("MetadataTooLarge")
    return kept


def check_acl(headers: Mapping[str, str]) -> None:
    """AccessControlListNotSupported where rights are asked for that nobody has."""
    if headers.get("x-amz-acl", ACLS[0]) not in ACLS:
        raise S3Error("AccessControlListNotSupported")


def headers_of(entry: Entry, window: int) -> Dict[str, str]:
    """The headers of an answer that gives a version."""
    version = entry.version
    found = {"Content-Type": DEFAULT_TYPE, **{name.title(): value for name, value in version.headers.items() if name in KEPT}}
    found.update({name: value for name, value in version.headers.items() if name.startswith(METADATA)})
    if TAGGING in version.headers:
        found[f"{TAGGING}-count"] = str(len(tags_in(version.headers[TAGGING])))
    found.update({"ETag": quoted(version.etag), "Last-Modified": date_of(version.time), "Accept-Ranges": "bytes",
                  "x-amz-version-id": version.id, "x-amz-object-lock-mode": "COMPLIANCE",
                  "x-amz-object-lock-retain-until-date": stamp_of(version.time + window)})
    return found
