"""What the access log says of a request. Members have the names that they have in a bridge's log where they mean the same."""
from __future__ import annotations

import secrets
import time
from typing import Any, Dict, List, NamedTuple, Optional

from ..access_log import AccessLog
from ..store.drives import DriveAway
from ..store.index import Change, Entry
from .http import Request
from .limits import LOGGED_PATH

ROLE = "client"  # of each session that a store has with its drives
SHARED = ("id", "peer", "key", "method")  # what lines of one request have in common


class Changed(NamedTuple):
    """A change that a request has made of what is at a path, and the version that came of it."""

    path: str
    version: Optional[str]
    change: Change


class Record:
    """What is known of a request, from its head to its answer."""

    def __init__(self, request: Request, peer: str) -> None:
        self._began, self.id, self._address = time.monotonic(), secrets.token_hex(8), peer
        self._said: Dict[str, Any] = {"id": self.id, "peer": {"address": peer}, "method": request.method,
                                      "path": request.path[:LOGGED_PATH]}
        self._changes: List[Changed] = []

    @property
    def is_signed(self) -> bool:
        """Whether it is known who asked."""
        return "key" in self._said

    @property
    def error(self) -> Optional[str]:
        """The code of the error by which it is answered."""
        return self._said.get("error")

    def sign(self, access: str) -> None:
        """Takes the access key of who asked."""
        self.say(key=access, peer={"address": self._address, "name": access})

    def say(self, **members: Any) -> None:
        self._said.update(members)

    def made(self, entry: Entry) -> None:
        """Takes a version that the request has made."""
        self.changed(entry.version.bucket, entry.version.key, entry.change, entry.version.id)

    def changed(self, bucket: str, key: str, change: Optional[Change], version: Optional[str] = None) -> None:
        """Takes a change that the request has made. None is one whose reply was lost, and that was found done later."""
        if change is not None:
            self._changes.append(Changed(f"/{bucket}/{key}"[:LOGGED_PATH] if key else f"/{bucket}", version, change))

    def away(self, fault: DriveAway) -> None:
        """Takes that a drive didn't answer, which may have done what it was asked for."""
        self.say(drive=fault.number, lost=fault.was_asked or None)

    def seconds(self) -> float:
        return time.monotonic() - self._began

    def write(self, log: AccessLog, **members: Any) -> None:
        """Writes a line for the request, with its change, and one before it for each change of another path, as of a multi-delete."""
        own: Dict[str, Any] = {}
        for it in self._changes:
            said = {"version": it.version, "role": ROLE, **it.change._asdict()}
            if it.path == self._said["path"] and not own:
                own = said
            else:
                shared = {name: self._said[name] for name in SHARED if name in self._said}
                log.write(event="change", **shared, path=it.path, **said)
        log.write(event="request", **{**self._said, **own}, **members, seconds=round(self.seconds(), 6))
