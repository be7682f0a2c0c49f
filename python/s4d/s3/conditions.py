"""Conditions of a request on a version, and ranges of its bytes."""
from __future__ import annotations

import re
from typing import Mapping, Optional, Tuple

from ..store.index import Entry
from .answers import date_in, quoted, time_at
from .errors import S3Error

RANGE = re.compile(r"bytes=([0-9]{0,15})-([0-9]{0,15})")


def names(given: str, etag: str) -> bool:
    """Whether a header names a digest, or any."""
    named = [re.sub("^W/", "", it.strip()).strip('"') for it in given.split(",")]
    return "*" in named or etag in named


def check_read(headers: Mapping[str, str], entry: Entry, prefix: str = "") -> None:
    """PreconditionFailed or NotModified where a version isn't what the request wants to read."""
    version, changed = entry.version, time_at(entry.version.time).replace(microsecond=0)
    match, none_match = headers.get(f"{prefix}if-match"), headers.get(f"{prefix}if-none-match")
    since, until = (date_in(headers.get(f"{prefix}if-{name}-since", "")) for name in ("modified", "unmodified"))
    if match is not None and not names(match, version.etag):
        raise S3Error("PreconditionFailed")
    if match is None and until is not None and changed > until:
        raise S3Error("PreconditionFailed")
    is_unchanged = none_match is None and since is not None and changed <= since
    if is_unchanged or (none_match is not None and names(none_match, version.etag)):
        if prefix:
            raise S3Error("PreconditionFailed")
        raise S3Error("NotModified", headers={"ETag": quoted(version.etag), "x-amz-version-id": version.id})


def check_write(headers: Mapping[str, str], before: Optional[Entry]) -> None:
    """PreconditionFailed where the version that would be replaced isn't what the request wants, NoSuchKey where none is there."""
    there = before if before is not None and not before.version.is_marker else None
    match, none_match = headers.get("if-match"), headers.get("if-none-match")
    if none_match is not None and there is not None and names(none_match, there.version.etag):
        raise S3Error("PreconditionFailed")
    if match is not None and there is None:
        raise S3Error("NoSuchKey")
    if match is not None and there is not None and not names(match, there.version.etag):
        raise S3Error("PreconditionFailed")


def range_of(given: Optional[str], size: int) -> Optional[Tuple[int, int]]:
    """The first and the last byte of the range that is asked for, or None where all are: of several ranges none is taken.
    InvalidRange where there is none of its bytes.
    """
    found = None if given is None else RANGE.fullmatch(given.strip())
    if found is None or not (found[1] or found[2]):
        return None
    if not found[1]:
        first, last = max(size - int(found[2]), 0), size - 1
    else:
        first, last = int(found[1]), min(int(found[2]) if found[2] else size - 1, size - 1)
        if found[2] and int(found[2]) < first:
            return None
    if first > last or first >= size:
        raise S3Error("InvalidRange", headers={"Content-Range": f"bytes */{size}"})
    return first, last
