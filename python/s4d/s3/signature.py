"""Amazon's signature, version 4: whether a request is what the owner of a key has signed."""
from __future__ import annotations

import hashlib
import hmac
import re
from dataclasses import dataclass, field
from datetime import datetime, timedelta, timezone
from typing import Mapping, Tuple
from urllib.parse import quote

from .errors import S3Error
from .http import Request
from .keys import Key

ALGORITHM = "AWS4-HMAC-SHA256"
SKEW = timedelta(minutes=15)
LONGEST_EXPIRY = 604_800  # seconds that a presigned request may be good for
STAMP = "%Y%m%dT%H%M%SZ"
UNSIGNED = "UNSIGNED-PAYLOAD"
AT = "x-s4-at"  # the header that says at which moment all is read

HEADER = re.compile(r"AWS4-HMAC-SHA256 +Credential=([^, ]+), *SignedHeaders=([^, ]+), *Signature=([0-9a-f]{64})")
SPACES = re.compile("[ \t]+")
SCOPE = re.compile(r"([^/]+)/([0-9]{8})/([A-Za-z0-9-]{1,64})/s3/aws4_request")


@dataclass(frozen=True)
class Signed:
    """A signature that is good: whose it is, what it says of the body, and what signatures of the body's chunks go on from."""

    key: Key
    payload: str
    stamp: str
    scope: str
    signature: str
    signing_key: bytes = field(repr=False)

    def next_signature(self, kind: str, before: str, *digests: str) -> str:
        """The signature of a chunk or a trailer that follows another."""
        text = "\n".join([f"{ALGORITHM}-{kind}", self.stamp, self.scope, before, *digests])
        return hmac.new(self.signing_key, text.encode(), hashlib.sha256).hexdigest()


@dataclass(frozen=True)
class Claim:
    """What a request says of its signature."""

    credential: str
    headers: Tuple[str, ...]
    signature: str
    stamp: str
    payload: str


def verified(request: Request, keys: Mapping[str, Key], now: datetime) -> Signed:
    """Whose request it is; S3Error where it isn't signed as it should be, or not now."""
    is_presigned = "X-Amz-Algorithm" in request.names
    claim = presigned_claim(request, now) if is_presigned else header_claim(request, now)
    found = SCOPE.fullmatch(claim.credential)
    if found is None or found[2] != claim.stamp[:8]:
        code = "AuthorizationQueryParametersError" if is_presigned else "AuthorizationHeaderMalformed"
        raise S3Error(code, "The credential isn't KEY/DATE/REGION/s3/aws4_request, of the request's date.")
    key = keys.get(found[1])
    if key is None:
        raise S3Error("InvalidAccessKeyId")
    check_signed_headers(request, claim)
    signing_key = key_for(key.secret, found[2], found[3])
    scope = claim.credential.partition("/")[2]
    text = "\n".join([ALGORITHM, claim.stamp, scope, digest_of(canonical(request, claim))])
    wanted = hmac.new(signing_key, text.encode(), hashlib.sha256).hexdigest()
    if not hmac.compare_digest(wanted.encode(), claim.signature.encode()):
        raise S3Error("SignatureDoesNotMatch")
    return Signed(key, claim.payload, claim.stamp, scope, claim.signature, signing_key)


def header_claim(request: Request, now: datetime) -> Claim:
    """What the header says; AccessDenied where there is none."""
    given = request.headers.get("authorization")
    if given is None:
        raise S3Error("AccessDenied")
    found = HEADER.fullmatch(given)
    if found is None:
        raise S3Error("AuthorizationHeaderMalformed", f"The header isn't {ALGORITHM} Credential=.., SignedHeaders=.., Signature=..")
    stamp = request.headers.get("x-amz-date", "")
    if abs(time_of(stamp) - now) > SKEW:
        raise S3Error("RequestTimeTooSkewed")
    payload = request.headers.get("x-amz-content-sha256")
    if payload is None:
        raise S3Error("MissingSecurityHeader", "The header x-amz-content-sha256 is missing.")
    return Claim(found[1], tuple(found[2].split(";")), found[3], stamp, payload)


def presigned_claim(request: Request, now: datetime) -> Claim:
    """What the query says; AccessDenied where its time is over."""
    given = {name: request.parameter(f"X-Amz-{name}") or "" for name in ("Algorithm", "Credential", "Date", "Expires",
                                                                           "SignedHeaders", "Signature")}
    if given["Algorithm"] != ALGORITHM or not all(given.values()):
        raise S3Error("AuthorizationQueryParametersError")
    expires = given["Expires"]
    if not re.fullmatch(r"[0-9]{1,6}", expires) or not 1 <= int(expires) <= LONGEST_EXPIRY:
        raise S3Error("AuthorizationQueryParametersError", f"X-Amz-Expires is no number from 1 to {LONGEST_EXPIRY}.")
    begin = time_of(given["Date"])
    if now - begin > timedelta(seconds=int(expires)):
        raise S3Error("AccessDenied", "Request has expired")
    if begin - now > SKEW:
        raise S3Error("AccessDenied", "Request is not valid yet")
    payload = request.headers.get("x-amz-content-sha256", UNSIGNED)
    return Claim(given["Credential"], tuple(given["SignedHeaders"].split(";")), given["Signature"], given["Date"], payload)


def time_of(stamp: str) -> datetime:
    """The time of a stamp; AccessDenied where it is none."""
    try:
        return datetime.strptime(stamp, STAMP).replace(tzinfo=timezone.utc)
    except ValueError:
        raise S3Error("AccessDenied", "The request has no date in x-amz-date.") from None


def check_signed_headers(request: Request, claim: Claim) -> None:
    """AccessDenied where a header that says what is to be done isn't signed."""
    needed = {name for name in request.headers if name.startswith("x-amz-")} | {"host"}
    needed |= {name for name in ("content-md5", AT) if name in request.headers}
    if claim.payload == UNSIGNED:
        needed.discard("x-amz-content-sha256")
    missing = sorted(needed.difference(claim.headers))
    if missing:
        raise S3Error("AccessDenied", f"There were headers present in the request which were not signed: {', '.join(missing)}")


def canonical(request: Request, claim: Claim) -> bytes:
    """The bytes that are signed of a request: those of headers as they came, with one space for each row of them."""
    query = sorted((encoded(name), encoded(value)) for name, value in request.query if name != "X-Amz-Signature")
    headers = [f"{name}:{SPACES.sub(' ', request.headers.get(name, ''))}\n" for name in claim.headers]
    text = "\n".join([request.method, encoded(request.path, "/"), "&".join(f"{name}={value}" for name, value in query),
                      "".join(headers), ";".join(claim.headers), claim.payload])
    return text.encode("latin-1", "replace")  # a presigned query may name what is no header


def encoded(text: str, safe: str = "") -> str:
    return quote(text, safe=safe + "-_.~")


def key_for(secret: str, date: str, region: str) -> bytes:
    """The key that signs of a day, a region and this service."""
    key = f"AWS4{secret}".encode()
    for part in (date, region, "s3", "aws4_request"):
        key = hmac.new(key, part.encode(), hashlib.sha256).digest()
    return key


def digest_of(data: bytes) -> str:
    return hashlib.sha256(data).hexdigest()
