"""What an audit says of objects since a moment, and which moments are hidden."""
from __future__ import annotations

from bisect import bisect_right
from dataclasses import dataclass, field
from typing import Dict, Iterable, List, Optional, Tuple

from ..wire import AuditKind, AuditRow

MOST_RUNS = 65_536  # runs of hidden moments of all lists
NEAR_RUNS = MOST_RUNS - 4_096  # from here on it is said how many are left
CHANGES = (AuditKind.CREATE, AuditKind.DELETE, AuditKind.WRITE, AuditKind.TRUNCATE, AuditKind.SET_ATTRIBUTE)
FLUSHES = (AuditKind.FLUSH, AuditKind.FLUSH_OBJECT)


class Runs:
    """The runs of hidden moments, by object; object 0 has those of all. Neighbours are one run, as the drive has them."""

    def __init__(self) -> None:
        self._lists: Dict[int, List[Tuple[int, int]]] = {}
        self.count = 0

    def add(self, object: int, first: int, last: int) -> None:
        """Takes what a flush hid."""
        runs = self._lists.setdefault(object, [])
        low = bisect_right(runs, (first,))
        if low and runs[low - 1][1] >= first - 1:
            low -= 1
        high = low
        while high < len(runs) and runs[high][0] <= last + 1:
            first, last, high = min(first, runs[high][0]), max(last, runs[high][1]), high + 1
        self.count += 1 - (high - low)
        runs[low:high] = [(first, last)]

    def forget_below(self, floor: int) -> None:
        """Drops the runs that have aged, as the drive does."""
        kept = {object: [run for run in runs if run[1] >= floor] for object, runs in self._lists.items()}
        self._lists = {object: runs for object, runs in kept.items() if runs}
        self.count = sum(map(len, self._lists.values()))

    def hides(self, object: int, first: int, last: int) -> bool:
        """Whether all these moments of the object are hidden, by one run."""
        for runs in (self._lists.get(object, []), self._lists.get(0, [])):
            low = bisect_right(runs, (first, last)) - 1
            if any(run[0] <= first and last <= run[1] for run in runs[max(low, 0):low + 2]):
                return True
        return False


@dataclass
class Life:
    """What the audit says of an object: when it was made and deleted, where it has that, and when its versions begin."""

    made: Optional[int] = None
    deleted: Optional[int] = None
    begun: List[int] = field(default_factory=list)
    written: int = 0  # bytes, in all


class Ledger:
    """The rows of an audit."""

    def __init__(self, rows: Iterable[AuditRow] = ()) -> None:
        self.lives: Dict[int, Life] = {}
        self.runs = Runs()
        self.first: Optional[int] = None
        self.last: Optional[int] = None
        self.window: Optional[int] = None  # that was set last
        for row in rows:
            self.add(row)

    def add(self, row: AuditRow) -> None:
        """Takes a row that follows the others."""
        self.first, self.last = row.moment if self.first is None else self.first, row.moment
        if row.kind in CHANGES:
            self._change(row)
        elif row.kind in FLUSHES:
            self.runs.add(row.object, row.first, row.second)
        else:
            self.window = row.first

    def _change(self, row: AuditRow) -> None:
        life = self.lives.setdefault(row.object, Life())
        life.begun.append(row.moment)
        if row.kind is AuditKind.CREATE:
            life.made = row.moment
        elif row.kind is AuditKind.DELETE:
            life.deleted = row.moment
        elif row.kind is AuditKind.WRITE:
            life.written += row.second

    def changed_since(self, moment: int) -> List[int]:
        """The objects that were changed after a moment, ascending."""
        return sorted(object for object, life in self.lives.items() if life.begun[-1] > moment)

    def made_from(self, moment: int) -> List[int]:
        """The objects that were made at a moment or later, ascending."""
        return sorted(object for object, life in self.lives.items() if life.made is not None and life.made >= moment)

    def lowest_made(self) -> Optional[int]:
        """The first number that the audit saw given: those below it were given before."""
        return min((object for object, life in self.lives.items() if life.made is not None), default=None)

    def newest_hidable(self, object: int, moment: int) -> Optional[Tuple[int, int]]:
        """The moments of the newest version of an object that isn't hidden, but for the present one; it begins after a moment. None
        where there is no such version.
        """
        begun = self.lives[object].begun
        for place in range(len(begun) - 2, -1, -1):
            first, last = begun[place], begun[place + 1] - 1
            if first <= moment:
                break
            if not self.runs.hides(object, first, last):
                return first, last
        return None
