"""A request that is signed as it should be, and what it is about."""
from __future__ import annotations

from dataclasses import dataclass
from typing import Optional

from .errors import S3Error
from .http import Body, Request
from .limits import OBJECT_BYTES, XML_BYTES
from .payload import Payload
from .record import Record
from .signature import Signed


@dataclass
class Context:
    """The bucket and the key are empty where the request names none. `at` is the moment that is read, or None where that is now.
    `record` is for the log.
    """

    request: Request
    body: Body
    signed: Signed
    record: Record
    bucket: str
    key: str
    at: Optional[int] = None

    def payload(self) -> Payload:
        """The body, as the contents of an object. EntityTooLarge where it says so of itself."""
        if not self.body.is_chunked and "content-length" not in self.request.headers:
            raise S3Error("MissingContentLength")
        return Payload(self.request, self.body, self.signed, OBJECT_BYTES)

    async def xml(self) -> bytes:
        """The whole body; MaxMessageLengthExceeded where it is too much."""
        if self.body.length is not None and self.body.length > XML_BYTES:
            raise S3Error("MaxMessageLengthExceeded")
        return b"".join([data async for data in Payload(self.request, self.body, self.signed, XML_BYTES).data()])

    def version(self) -> Optional[str]:
        """The version that is asked for; None where it is the current one."""
        found = self.request.parameter("versionId")
        if found == "":
            raise S3Error("InvalidArgument", "Version id cannot be the empty string")
        return found
