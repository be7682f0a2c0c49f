"""Objects that were made since, and hold just what one that is gone held: they are its stand-ins, and nothing is to be done.

So a restore that goes on where another one ended neither deletes what that made anew nor makes it again.
"""
from __future__ import annotations

import hashlib
from typing import Dict, List, Optional, Sequence, Tuple

from .. import wire
from ..errors import Refused
from .asking import Asker, Version

READ_AT_ONCE = 64  # objects that are read together, so that few are in memory

Head = Tuple[int, bytes]  # size and attribute


class StandIns:
    """Looks for stand-ins among objects that are there, each at most once."""

    def __init__(self, asker: Asker, made: Sequence[int]) -> None:
        self._asker = asker
        self._made: Dict[Head, List[int]] = {}
        for object, head in self._heads([(it, None) for it in made]):
            self._made.setdefault(head, []).append(object)

    def of(self, gone: Sequence[int], at: int) -> Dict[int, int]:
        """The stand-ins of objects as they were at a moment, by their numbers. Of several the one that was made last, and for the last of
        several objects that held the same: as a restore makes them.
        """
        wanted = [(object, head) for object, head in reversed(self._heads([(it, at) for it in gone])) if head in self._made]
        known: Dict[Tuple[Head, bytes], List[int]] = {}
        for head in {head for _, head in wanted}:
            made = self._made[head]
            for object, digest in zip(made, self._digests([(it, None) for it in made])):
                if digest is not None:
                    known.setdefault((head, digest), []).append(object)
        found: Dict[int, int] = {}
        for (object, head), digest in zip(wanted, self._digests([(object, at) for object, _ in wanted])):
            candidates = [] if digest is None else known.get((head, digest), [])
            if candidates:
                found[object] = candidates.pop()
        return found

    def _heads(self, wanted: Sequence[Tuple[int, Optional[int]]]) -> List[Tuple[int, Head]]:
        """Size and attribute of those that can be read."""
        heads = []
        for (object, _), reply in zip(wanted, self._asker.all([wire.attributes(object, at) for object, at in wanted])):
            if reply.refusal() is None:
                heads.append((object, (reply.result().size, reply.result().attribute)))
        return heads

    def _digests(self, wanted: Sequence[Tuple[int, Optional[int]]]) -> List[Optional[bytes]]:
        """A digest of what each object holds at a moment, or now; none where it can't be read."""
        digests: List[Optional[bytes]] = []
        for start in range(0, len(wanted), READ_AT_ONCE):
            digests += [digest_of(it) for it in self._asker.versions(wanted[start:start + READ_AT_ONCE])]
        return digests


def digest_of(version: Version) -> Optional[bytes]:
    """A digest of what an object holds; none where it can't be read."""
    return None if isinstance(version, Refused) else hashlib.sha256(version.data).digest()
