"""The session by which a restore asks: many requests at once, and which of the accepted changes are its own."""
from __future__ import annotations

import time
from typing import List, Optional, Sequence, Set, Tuple, TypeVar, Union

from .. import wire
from ..drive import Drive
from ..errors import NotAdmin, Refused
from ..history import TIMES, floor_below
from ..pipeline import Reply
from ..wire import READ_BYTES, Attributes, AuditRow, Created, Request
from .ledger import Ledger
from .plans import Change, Content

T = TypeVar("T")

AT_ONCE = 512  # requests that are sent together, at most

Version = Union[Content, Refused]


class Fault(Exception):
    """Why nothing can be restored, or nothing more."""


class Asker:
    """Asks an administrator's session. The ledger has what was accepted, up to the audit that was read, and what this one changed."""

    def __init__(self, drive: Drive) -> None:
        self.drive, self.ledger = drive, Ledger()
        self.own: Set[int] = set()  # the moments of its changes
        self._clock, self._since = 0, time.monotonic_ns()

    @property
    def clock(self) -> int:
        """The last moment that is known; where moments are times, with what has passed since."""
        passed = (time.monotonic_ns() - self._since) // 1_000
        return self._clock + (passed if self._clock >= TIMES else 0)

    def see(self, moment: int) -> None:
        """The clock is at a moment, or later."""
        if moment > self._clock:
            self._clock, self._since = moment, time.monotonic_ns()

    def floor(self) -> int:
        """The earliest moment that can be read."""
        return self.drive._search(floor_below(self.clock))

    def read_audit(self) -> None:
        """Reads what was accepted up to now. Fault where the session may not."""
        try:
            for row in self.drive.audit():
                self.ledger.add(row)
                self.see(row.moment)
        except NotAdmin:
            raise Fault("the session has a client's role; connect to the administrators' socket") from None

    def others_since(self, moment: int) -> List[AuditRow]:
        """What others changed after a moment."""
        return [row for row in self.drive.audit(moment + 1) if row.moment not in self.own]

    def all(self, requests: Sequence[Request[T]]) -> List[Reply[T]]:
        """The replies to requests that are sent together, in their order."""
        replies: List[Reply[T]] = []
        for start in range(0, len(requests), AT_ONCE):
            batch = self.drive.pipeline()
            replies += [batch.add(request) for request in requests[start:start + AT_ONCE]]
            batch.run()
        return replies

    def change(self, changes: Sequence[Change]) -> List[Tuple[int, Optional[Refused]]]:
        """The object of each change, and by what it was refused, where it was."""
        answers: List[Tuple[int, Optional[Refused]]] = []
        for (_, row), reply in zip(changes, self.all([it.request for it in changes])):
            refusal = reply.refusal()
            if refusal is None:
                row = self._accepted(row, reply.result())
            answers.append((row.object, refusal))
        return answers

    def _accepted(self, row: AuditRow, answer: Union[int, Created]) -> AuditRow:
        moment = answer.moment if isinstance(answer, Created) else answer
        row = row._replace(moment=moment, object=answer.object if isinstance(answer, Created) else row.object)
        self.own.add(moment)
        self.see(moment)
        self.ledger.add(row)
        return row

    def versions(self, wanted: Sequence[Tuple[int, Optional[int]]]) -> List[Version]:
        """What each object holds at a moment, or now where none is given."""
        heads = [it.refusal() or it.result() for it in self.all([wire.attributes(object, at) for object, at in wanted])]
        reads = [(place, wire.read(object, offset, READ_BYTES, at))
                 for place, ((object, at), head) in enumerate(zip(wanted, heads)) if isinstance(head, Attributes)
                 for offset in range(0, head.size, READ_BYTES)]
        pieces: List[List[bytes]] = [[] for _ in wanted]
        versions: List[Version] = [it if isinstance(it, Refused) else Content(b"", it.attribute) for it in heads]
        for (place, _), reply in zip(reads, self.all([request for _, request in reads])):
            refusal = reply.refusal()
            if refusal is None:
                pieces[place].append(reply.result())
            else:
                versions[place] = refusal
        return [it if isinstance(it, Refused) else it._replace(data=b"".join(data)) for it, data in zip(versions, pieces)]
