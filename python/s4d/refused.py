"""Lines of the access log on what peers were refused, of which each peer has few, whatever it asks."""
from __future__ import annotations

import asyncio
from collections import Counter
from typing import Any, Dict, NamedTuple, Optional
from typing import Counter as Counted

from .access_log import AccessLog

QUIET_SECONDS = 1.0  # after a line in which what else its peer is refused is only counted
MOST_SOURCES = 64  # that have lines of their own in that time: refusals of others are counted together


class Source(NamedTuple):
    """Whose refusals are counted together: those of one event, of a peer of a role, which is none of a connection that is no client yet."""

    event: str
    role: Optional[str]
    who: Optional[str]  # None: of all that have no line of their own

    def peer(self) -> Optional[Dict[str, Any]]:
        """The peer, as a line says it."""
        if self.who is None:
            return None
        kind, _, name = self.who.partition(" ")
        return {kind: int(name) if kind == "uid" else name}


class Refusals:
    """The first refusal of a peer has its line; those of the second that follows have one together, with how many of each there were. Where
    more peers are refused at once than have such lines, as by ever new addresses, the rest have theirs together, without a peer.
    """

    def __init__(self, log: AccessLog) -> None:
        self._log = log
        self._counted: Dict[Source, Counted[str]] = {}  # of those that had a line in the last second

    def note(self, event: str, role: Optional[str], who: str, why: str, line: Dict[str, Any]) -> None:
        """Takes a refusal, and the line that it would have by itself."""
        source = Source(event, role, who)
        if source not in self._counted and len(self._counted) >= MOST_SOURCES:
            source = Source(event, role, None)
        counted = self._counted.get(source)
        if counted is not None:
            counted[why] += 1
            return
        self._log.write(**line)
        self._begin(source)

    def _begin(self, source: Source) -> None:
        self._counted[source] = Counter()
        asyncio.get_running_loop().call_later(QUIET_SECONDS, self._say, source)

    def _say(self, source: Source) -> None:
        """Writes how many there were in the second that is over, and begins another where there were any."""
        counted = self._counted.pop(source, None)
        if counted:
            self._write(source, counted)
            self._begin(source)

    def _write(self, source: Source, counted: Counted[str]) -> None:
        self._log.write(event=source.event, role=source.role, peer=source.peer(), more=dict(sorted(counted.items())))

    def close(self) -> None:
        """Writes what isn't said yet."""
        for source, counted in self._counted.items():
            if counted:
                self._write(source, counted)
        self._counted.clear()
