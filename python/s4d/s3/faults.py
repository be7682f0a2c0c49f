"""By which of S3's errors a store's faults are answered."""
from __future__ import annotations

from typing import Dict, Type

from ..errors import Refused
from ..store.contents import Gone, StoreFull
from ..store.drives import DriveAway
from ..store.layout import BadHead, TooLong
from ..store.store import BucketThere, BucketUsed, NoBucket, Passed, TooManyBuckets
from ..store.uploads import NoPart, NoUpload, PartTooSmall, TooManyUploads, UploadTooLarge
from .errors import S3Error

FAULTS: Dict[Type[Exception], str] = {
    NoBucket: "NoSuchBucket", BucketThere: "BucketAlreadyOwnedByYou", BucketUsed: "BucketNotEmpty",
    TooManyBuckets: "TooManyBuckets", Passed: "InvalidArgument",
    DriveAway: "ServiceUnavailable", StoreFull: "InsufficientStorage", Gone: "NoSuchVersion", TooLong: "MetadataTooLarge",
    NoUpload: "NoSuchUpload", NoPart: "InvalidPart", PartTooSmall: "EntityTooSmall", TooManyUploads: "SlowDown",
    UploadTooLarge: "EntityTooLarge", BadHead: "InternalError", Refused: "InternalError",
}


def error_of(fault: Exception) -> S3Error:
    """The error that says a fault; those of this program itself are InternalError."""
    if isinstance(fault, S3Error):
        return fault
    return S3Error(next((code for kind, code in FAULTS.items() if isinstance(fault, kind)), "InternalError"))


def is_known(fault: Exception) -> bool:
    """Whether it is one that a store or a request has, and not one of this program itself."""
    return isinstance(fault, (S3Error, *FAULTS))
