"""Makes the objects of a drive that is served what they were at a moment, by requests of an administrator's session."""
from __future__ import annotations

import time
from collections import deque
from dataclasses import dataclass, field
from typing import Callable, Dict, List, Optional, Sequence, Tuple

from .. import wire
from ..errors import Busy, ChainFull, Expired, Flushed, NoMemory, NoObject, NoSpace, Refused
from ..rows import Info
from ..wire import AuditKind
from .asking import Asker, Fault, Version
from .plans import Change, Content, changes_between, create, delete
from .reach import Widening, Window, check_audit, check_moment, is_any_left
from .room import Room
from .saying import Sayer
from .standins import StandIns
from .words import text_of

GROUP = 64  # objects that are changed together, at most
DELETED = 512  # objects that are deleted together, at most
ROUNDS = 8  # in which those are tried again for which there was no room, while others give some
TRIES = 6  # of what may pass by itself, as an object that another session changes meanwhile
TRY_SECONDS = 0.02  # by which the first of them waits; each next one waits twice as long

FAILURES = {"NoSpace": "no room for its blocks", "NoMemory": "memory was refused", "Flushed": "its moment is hidden"}


@dataclass(frozen=True)
class Wanted:
    """What is to be restored: all that was changed since a moment, or these objects, and those that were made from a moment on."""

    at: int
    objects: Sequence[int] = ()
    created_since: Optional[int] = None
    dry_run: bool = False
    flush: bool = False
    to_nothing: bool = False

    @property
    def is_whole(self) -> bool:
        return not self.objects and self.created_since is None


@dataclass
class Job:
    """An object to be made what it was, and the number under which it is compared; none where it has to be made anew."""

    object: int
    target: Optional[int]
    tries: int = 0
    is_changed: bool = False

    @property
    def number(self) -> int:
        """The object of which a refusal speaks."""
        return self.object if self.target is None else self.target


@dataclass
class Jobs:
    """What has to be done."""

    deleted: List[Job] = field(default_factory=list)
    changed: List[Job] = field(default_factory=list)
    there: Dict[int, int] = field(default_factory=dict)  # stand-ins, by what they stand for

    @property
    def count(self) -> int:
        return len(self.deleted) + len(self.changed)


@dataclass
class Done:
    """How many objects were changed, deleted, made anew, and not restored; requests that hid moments, and objects that others
    changed since the start.
    """

    changed: int = 0
    deleted: int = 0
    remade: int = 0
    failed: int = 0
    hidden: int = 0
    others: int = 0
    changes: int = 0
    widened: Optional[Widening] = None
    is_short: bool = False  # of room, or a journal was full


Outcome = Tuple[Job, Optional[Refused]]


class Restore:
    """Restores what is wanted. Each step depends on what the drive says then, so a restore that was interrupted goes on where it was."""

    def __init__(self, asker: Asker, wanted: Wanted, sayer: Sayer, facts: Optional[Info] = None) -> None:
        self._asker, self._wanted, self._sayer, self._facts = asker, wanted, sayer, facts
        self._named = frozenset(wanted.objects)
        self._room = Room(asker, sayer, wanted.at, wanted.flush)
        self._window: Optional[Window] = None
        self._done, self._finished, self._count = Done(), 0, 0

    def run(self) -> Done:
        """Does it, and prints what was done. Fault where nothing can be restored, or nothing more."""
        asker, wanted = self._asker, self._wanted
        check_moment(asker, wanted.at)
        asker.read_audit()
        start = asker.ledger.last if asker.ledger.last is not None else asker.clock
        since = wanted.at if wanted.created_since is None else min(wanted.at, wanted.created_since)
        check_audit(asker, since, self._facts)
        jobs = self._jobs()
        self._check_left(jobs)
        self._window = Window(asker, wanted.at, self._facts)
        self._room.warn()
        for object, number in sorted(jobs.there.items()):
            self._sayer.of(object, f"is there as {number}")
        if wanted.dry_run:
            self._preview(jobs)
        else:
            self._perform(jobs)
            self._say_others(start)
        self._done.hidden, self._done.changes, self._done.widened = self._room.hidden, len(asker.own), self._window.widened
        return self._done

    def _jobs(self) -> Jobs:
        """What has to be done, as the audit says it."""
        asker, wanted = self._asker, self._wanted
        lives, at = asker.ledger.lives, wanted.at
        chosen = [it for it in asker.ledger.changed_since(at) if self._is_chosen(it)]
        self._check_named()
        jobs, gone = Jobs(), []
        for object in chosen:
            life = lives[object]
            is_newer = life.made is not None and life.made > at
            if not is_newer:
                self._room.offer_versions([object])
            if not is_newer and life.deleted is not None:
                gone.append(object)
            elif not is_newer:
                jobs.changed.append(Job(object, object))
            elif life.deleted is None:
                jobs.deleted.append(Job(object, object))
            else:
                self._room.offer(object)
        jobs.there = self._stand_ins(gone)
        taken = set(jobs.there.values())
        jobs.deleted = [job for job in jobs.deleted if job.object not in taken]
        jobs.changed.sort(key=lambda job: lives[job.object].begun[-1])  # as the drive wrote what is hidden then, where room is short
        jobs.changed += [Job(object, None) for object in gone if object not in jobs.there]
        return jobs

    def _is_chosen(self, object: int) -> bool:
        wanted = self._wanted
        made = self._asker.ledger.lives[object].made
        is_new = wanted.created_since is not None and made is not None and made >= wanted.created_since
        return wanted.is_whole or object in self._named or is_new

    def _check_named(self) -> None:
        """Fault where an object that is named was never there, as far as can be read."""
        at = self._wanted.at
        unknown = [it for it in self._wanted.objects if it not in self._asker.ledger.lives]
        then = self._asker.all([wire.attributes(object, at) for object in unknown])
        now = self._asker.all([wire.attributes(object, None) for object in unknown])
        for object, was, is_ in zip(unknown, then, now):
            if isinstance(was.refusal(), NoObject) and isinstance(is_.refusal(), NoObject):
                raise Fault(f"there is no object {object}, nor was there one at {text_of(at)}")

    def _stand_ins(self, gone: Sequence[int]) -> Dict[int, int]:
        """Objects that were made since and hold what those held that are gone, by the numbers of these."""
        if not gone:
            return {}
        lives = self._asker.ledger.lives
        made = [it for it in self._asker.ledger.made_from(self._wanted.at + 1) if lives[it].deleted is None]
        return StandIns(self._asker, made).of(gone, self._wanted.at)

    def _check_left(self, jobs: Jobs) -> None:
        """Fault where no object would be left, and some are there."""
        if self._wanted.to_nothing or not jobs.deleted or jobs.changed or jobs.there:
            return
        lives, deleted = self._asker.ledger.lives, {job.object for job in jobs.deleted}
        if any(life.deleted is None and object not in deleted for object, life in lives.items()):
            return
        if not is_any_left(self._asker, self._asker.ledger, self._asker.ledger.lowest_made() or 1):
            raise Fault("no object would be left; --to-nothing deletes them all")

    def _preview(self, jobs: Jobs) -> None:
        """Prints what would be done."""
        size = self._window.near_size() if self._window is not None else None
        if size is not None:
            self._sayer.line(f"window {size} would be widened, since the moment is near the floor")
        self._count = jobs.count
        for job in jobs.deleted:
            self._finish(job, "deleted")
        for start in range(0, len(jobs.changed), GROUP):
            group = jobs.changed[start:start + GROUP]
            for job, then, now in self._compared(group):
                if isinstance(then, Flushed):
                    self._give_up(job, FAILURES["Flushed"])
                elif isinstance(then, Content) and not isinstance(now, Content):
                    self._finish(job, "made anew")
                elif isinstance(then, Content) and isinstance(now, Content) and changes_between(job.object, then, now):
                    self._finish(job, "changed")
                else:
                    self._finish(job, None)

    def _perform(self, jobs: Jobs) -> None:
        """What was made since goes first, so that there is more room for the others."""
        self._count = jobs.count
        short = self._work(jobs.deleted, DELETED, self._delete)
        short = self._work(jobs.changed, GROUP, self._change) + self._work(short, DELETED, self._delete)
        self._done.is_short = self._done.is_short or bool(short)
        for job in short:
            self._give_up(job, FAILURES["NoSpace"])

    def _work(self, jobs: List[Job], most: int, do: Callable[[List[Job]], List[Outcome]]) -> List[Job]:
        """Does what is to be done to objects: those for which there is no room. They are tried again while others have had some, since these
        may give more.
        """
        for _ in range(ROUNDS):
            count, jobs = len(jobs), self._round(jobs, most, do)
            if len(jobs) in (0, count):
                break
        return jobs

    def _round(self, jobs: List[Job], most: int, do: Callable[[List[Job]], List[Outcome]]) -> List[Job]:
        """Tries each object, in groups; room is made wherever it is short: those for which there is none."""
        waiting, size, lacking = deque(jobs), most, []
        while waiting:
            self._keep_in_reach()
            group = [waiting.popleft() for _ in range(min(size, len(waiting)))]
            left = [(job, refusal) for job, refusal in do(group) if refusal is not None]
            if len(left) < len(group):
                self._room.progressed()
            short = [job for job, refusal in left if isinstance(refusal, NoSpace)]
            others = [(job, refusal) for job, refusal in left if not isinstance(refusal, NoSpace)]
            again = [job for job, refusal in others if self._tries_again(job, refusal)]
            if any(isinstance(refusal, (Busy, NoMemory)) for _, refusal in others):
                time.sleep(TRY_SECONDS * 2**max(job.tries for job, _ in others))
            size = min(2 * size, most)
            if short and self._room.make():
                size = max(len(group) - len(short), 1)
            elif short:  # one by one, since a smaller one may have room
                lacking.append(short.pop(0))
                size = 1
            waiting.extendleft(reversed(short))
            waiting.extendleft(reversed(again))
            self._show()
        return lacking

    def _tries_again(self, job: Job, refusal: Refused) -> bool:
        """Whether what was refused may be accepted the next time; else it is said why not."""
        if isinstance(refusal, Expired):
            raise Fault(f"moment {text_of(self._wanted.at)} has expired meanwhile")
        if isinstance(refusal, ChainFull):
            why = self._room.make_in_journal(job.number)
            self._done.is_short = self._done.is_short or why is not None
        elif isinstance(refusal, (Busy, NoMemory, NoObject)) and job.tries < TRIES:
            job.tries, why = job.tries + 1, None
        else:
            why = FAILURES.get(type(refusal).__name__, type(refusal).__name__)
        if why is not None:
            self._give_up(job, why)
        return why is None

    def _delete(self, group: List[Job]) -> List[Outcome]:
        """Deletes objects that were made since."""
        outcomes: List[Outcome] = []
        for job, (_, refusal) in zip(group, self._asker.change([delete(job.object) for job in group])):
            if refusal is None:
                self._finish(job, "deleted")
                self._room.offer(job.object)
            elif isinstance(refusal, NoObject):
                self._finish(job, None)  # another session has deleted it meanwhile
                refusal = None
            outcomes.append((job, refusal))
        return outcomes

    def _compared(self, group: Sequence[Job]) -> List[Tuple[Job, Version, Optional[Version]]]:
        """What each object was, and what there is under the number under which it is compared."""
        then: List[Tuple[int, Optional[int]]] = [(job.object, self._wanted.at) for job in group]
        versions = self._asker.versions(then + [(job.target, None) for job in group if job.target is not None])
        now = iter(versions[len(group):])
        return [(job, was, next(now) if job.target is not None else None) for job, was in zip(group, versions)]

    def _change(self, group: List[Job]) -> List[Outcome]:
        """Makes objects what they were, under their numbers, or anew."""
        outcomes: Dict[int, Optional[Refused]] = {}
        compared: List[Tuple[Job, Content, Content]] = []
        missing: List[Tuple[Job, Content]] = []
        for job, then, now in self._compared(group):
            if isinstance(then, Refused):
                outcomes[job.object] = then
            elif isinstance(now, Content):
                compared.append((job, then, now))
            elif now is None or isinstance(now, NoObject):
                missing.append((job, then))
            else:
                outcomes[job.object] = now
        compared += self._remade(missing, outcomes)
        self._ask_changes(compared, outcomes)
        self._room.offer_versions(job.object for job, _, _ in compared if job.is_changed and job.target == job.object)
        for job, _, _ in compared:
            if outcomes.get(job.object) is None:
                self._finish(job, self._word_of(job))
        return [(job, outcomes.get(job.object)) for job in group]

    def _remade(self, missing: List[Tuple[Job, Content]], outcomes: Dict[int, Optional[Refused]]) -> List[Tuple[Job, Content, Content]]:
        """Makes empty objects for those that aren't there."""
        made = []
        for (job, then), (number, refusal) in zip(missing, self._asker.change([create(then.attribute) for _, then in missing])):
            if refusal is None:
                job.target, job.is_changed = number, True
                made.append((job, then, Content(b"", then.attribute)))
            outcomes[job.object] = refusal
        return made

    def _ask_changes(self, compared: List[Tuple[Job, Content, Content]], outcomes: Dict[int, Optional[Refused]]) -> None:
        """Asks for all that objects differ in; of each the first refusal counts."""
        asked: List[Tuple[Job, Change]] = []
        for job, then, now in compared:
            asked += [(job, change) for change in changes_between(job.number, then, now)]
        for (job, _), (_, refusal) in zip(asked, self._asker.change([change for _, change in asked])):
            job.is_changed = job.is_changed or refusal is None
            if outcomes.get(job.object) is None:
                outcomes[job.object] = refusal

    @staticmethod
    def _word_of(job: Job) -> Optional[str]:
        if job.target != job.object:
            return f"made anew as {job.target}"
        return "changed" if job.is_changed else None

    def _finish(self, job: Job, what: Optional[str]) -> None:
        """An object is what it was; where something was done to it that is said."""
        self._finished += 1
        if what is None:
            return
        self._sayer.of(job.object, what)
        done = self._done
        done.changed, done.deleted = done.changed + (what == "changed"), done.deleted + (what == "deleted")
        done.remade += what.startswith("made anew")

    def _give_up(self, job: Job, why: str) -> None:
        """An object isn't restored. Of what was made anew for it nothing stays, since that is a part at most."""
        if job.target is not None and job.target != job.object:
            _, refusal = self._asker.change([delete(job.target)])[0]
            if refusal is None:
                self._room.offer(job.target)
        self._finished += 1
        self._done.failed += 1
        self._sayer.of(job.object, f"not restored ({why})")

    def _keep_in_reach(self) -> None:
        widened = self._window.keep() if self._window is not None else None
        if widened is not None:
            self._sayer.line(f"window {widened.before} widened to {widened.after}; SetWindow {widened.before} puts it back")

    def _show(self) -> None:
        failed, hidden = self._done.failed, self._room.hidden
        self._sayer.progress(f"{self._finished:,} of {self._count:,} objects, {failed:,} not restored, {hidden:,} spans of moments hidden")

    def _say_others(self, start: int) -> None:
        """Prints which objects others changed since the start."""
        last: Dict[int, Tuple[AuditKind, int]] = {}
        for row in self._asker.others_since(start):
            last[row.object] = row.kind, row.moment
        for object, (kind, moment) in sorted(last.items()):
            what = "deleted" if kind is AuditKind.DELETE else "changed"
            if object == 0:
                self._sayer.say(f"another session has hidden moments or set the window meanwhile, last at {text_of(moment)}")
            else:
                self._sayer.of(object, f"{what} by others meanwhile, last at {text_of(moment)}")
                self._done.others += 1
