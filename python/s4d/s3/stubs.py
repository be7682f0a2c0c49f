"""Answers of buckets that say what is so in any case: clients ask, and nothing of it can be had otherwise."""
from __future__ import annotations

from typing import Awaitable, Callable, Dict, List, Tuple

from ..store.store import Store
from .answers import check_acl
from .context import Context
from .errors import S3Error
from .http import Answer
from .xml import Node, document

Call = Callable[[Context], Awaitable[Answer]]

# What a bucket hasn't, and the error that says so.
MISSING = {"policy": "NoSuchBucketPolicy", "cors": "NoSuchCORSConfiguration", "tagging": "NoSuchTagSet",
           "website": "NoSuchWebsiteConfiguration", "replication": "ReplicationConfigurationNotFoundError",
           "encryption": "ServerSideEncryptionConfigurationNotFoundError"}
# What each bucket has: no rights but those of the file of keys, and none of the rest.
ALWAYS: Dict[str, Tuple[str, List[Node]]] = {
    "policyStatus": ("PolicyStatus", [("IsPublic", False)]),
    "publicAccessBlock": ("PublicAccessBlockConfiguration", [(name, True) for name in (
        "BlockPublicAcls", "IgnorePublicAcls", "BlockPublicPolicy", "RestrictPublicBuckets")]),
    "ownershipControls": ("OwnershipControls", [("Rule", [("ObjectOwnership", "BucketOwnerEnforced")])]),
    "requestPayment": ("RequestPaymentConfiguration", [("Payer", "BucketOwner")]),
    "logging": ("BucketLoggingStatus", []), "accelerate": ("AccelerateConfiguration", []),
    "notification": ("NotificationConfiguration", []),
}
DELETED = ("policy", "cors", "tagging", "website", "replication")  # deleting what isn't there is done


def calls_of(store: Store) -> Dict[Tuple[str, str], Call]:
    """The requests, each by its method and its part of the query."""

    def missing(code: str) -> Call:
        async def answer(context: Context) -> Answer:
            store.bucket(context.bucket, context.at)
            raise S3Error(code)

        return answer

    def always(name: str, members: List[Node]) -> Call:
        async def answer(context: Context) -> Answer:
            store.bucket(context.bucket, context.at)
            return Answer(body=document(name, members), headers={"Content-Type": "application/xml"})

        return answer

    async def deleted(context: Context) -> Answer:
        store.bucket(context.bucket)
        return Answer(204)

    async def set_acl(context: Context) -> Answer:
        store.bucket(context.bucket)
        await check_acl_request(context)
        return Answer()

    calls: Dict[Tuple[str, str], Call] = {("GET", part): missing(code) for part, code in MISSING.items()}
    calls.update({("GET", part): always(*said) for part, said in ALWAYS.items()})
    calls.update({("DELETE", part): deleted for part in DELETED})
    return {**calls, ("PUT", "acl"): set_acl}


async def check_acl_request(context: Context) -> None:
    """AccessControlListNotSupported where it asks for more than what is so anyway."""
    check_acl(context.request.headers)
    grants = any(name.startswith("x-amz-grant-") for name in context.request.headers)
    if grants or await context.xml() or "x-amz-acl" not in context.request.headers:
        raise S3Error("AccessControlListNotSupported")
