"""What one peer may use of a bridge, and in which order peers' requests are passed on.

A peer is whoever the system or a certificate says that a client is: a user's number, or a common name. One event loop has all of this, so
nothing is locked, and who waits is woken when its time has come: nobody looks again and again.
"""
from __future__ import annotations

import asyncio
import contextlib
import re
from collections import deque
from typing import Deque, Dict, List, NamedTuple, Optional, Tuple

BURST_SECONDS = 60.0  # worth of tokens that a bucket holds
MOST_PEERS = 256  # that are remembered, beside those that are here: else memory and pages would grow with who ever came
REQUESTS_A_TURN = 2  # of a peer that are passed on before those of the others, where they have some
ASKING_SECONDS = 0.2  # after its last request in which a peer still counts as one that asks
STALLED_SECONDS = 0.5  # without a reply, after which a peer's requests wait for its own replies no more
OTHERS = "others"  # in the place of a peer: all that aren't remembered any more

PART = re.compile(r"(sessions)=([1-9][0-9]{0,4})|(changes)=([1-9][0-9]{0,8})/(s|min)|(bytes)=([1-9][0-9]{0,8})(KiB|MiB)?/(s|min)")
TIMES = {"": 1, "KiB": 1_024, "MiB": 1_048_576}
SECONDS = {"s": 1, "min": 60}


class Share(NamedTuple):
    """What each peer of a role has: sessions at once, changes a second, and bytes of these a second. None isn't bounded; of sessions it is
    three quarters of the role's.
    """

    sessions: Optional[int] = None
    changes: Optional[float] = None
    bytes: Optional[float] = None

    def sessions_of(self, seats: int) -> int:
        """How many of a role's seats one peer may have: never all by default, unless there is only one."""
        return self.sessions if self.sessions is not None else max(1, seats * 3 // 4)


def share_of(text: str) -> Share:
    """The share that a text says; ValueError where it says none."""
    found: Dict[str, float] = {}
    for part in text.split(","):
        match = PART.fullmatch(part)
        if match is None:
            raise ValueError(f"{part!r} is no sessions=N, changes=N/s or bytes=N/min, as sessions=12,changes=50/s,bytes=1MiB/min")
        words = [word for word in match.groups("") if word]
        name, count = words[0], int(words[1])
        if name in found:
            raise ValueError(f"{name} is given twice")
        if name != "sessions":
            found[name] = count * TIMES[words[2] if len(words) > 3 else ""] / SECONDS[words[-1]]
        else:
            found[name] = count
    sessions = found.get("sessions")
    return Share(None if sessions is None else int(sessions), found.get("changes"), found.get("bytes"))


class Bucket:
    """Tokens, which come at a rate. What is more than a full bucket is taken from a full one, which then owes it."""

    def __init__(self, rate: float, now: float) -> None:
        self._rate, self._most = rate, rate * BURST_SECONDS
        self._level, self._at = self._most, now

    def seconds_until(self, count: float, now: float) -> float:
        """How long it is until that many may be taken: 0 where they may be now."""
        self._level = min(self._most, self._level + (now - self._at) * self._rate)
        self._at = now
        return max(0.0, (min(count, self._most) - self._level) / self._rate)

    def take(self, count: float) -> None:
        self._level -= count


class Overdue(Exception):
    """A request waited longer than it may, and isn't passed on."""


class Waiting(NamedTuple):
    """A change that waits: its bytes, and the future that says when it may be passed on."""

    size: int
    place: asyncio.Future[None]


class Used(NamedTuple):
    """What a peer has used and waited for, as a page says it."""

    role: str
    peer: str
    sessions: int = 0
    changes: int = 0
    bytes: int = 0
    waited: float = 0.0


class Account:
    """What a peer of a role has used, its buckets, and its requests that wait. `clients` counts its connections."""

    def __init__(self, role: str, who: str, share: Optional[Share]) -> None:
        self.role, self.who, self.clients, self.sessions = role, who, 0, 0
        self.turn, self.passed = 0, 0  # the turn in which requests were last passed on, and how many
        self.unanswered, self.asked_at = 0, 0.0  # requests that were passed on and have no reply, and when it last asked
        self.queue: Deque[asyncio.Future[None]] = deque()  # of requests that wait for a later turn
        self.stalled: Optional[asyncio.TimerHandle] = None  # ends that wait where no reply comes
        self._changes, self._bytes, self._waited = 0, 0, 0.0
        self._loop = asyncio.get_running_loop()
        now, rates = self._loop.time(), share or Share()
        self._bucket_of_changes = None if rates.changes is None else Bucket(rates.changes, now)
        self._bucket_of_bytes = None if rates.bytes is None else Bucket(rates.bytes, now)
        self._waiting: Deque[Waiting] = deque()
        self._timer: Optional[asyncio.TimerHandle] = None

    def used(self) -> Used:
        """What it has used so far."""
        return Used(self.role, self.who, self.sessions, self._changes, self._bytes, self._waited)

    async def pay(self, size: int, seconds: float) -> None:
        """Takes the tokens of a change, in the order in which these came. Overdue where they aren't there in that time."""
        if not self._waiting and self._take(size):
            return
        began = self._loop.time()
        waiting = Waiting(size, self._loop.create_future())
        self._waiting.append(waiting)
        end = self._loop.call_later(seconds, give_up, waiting.place)
        self._pass_on()
        try:
            await waiting.place
        finally:
            end.cancel()
            self._waited += self._loop.time() - began
            with contextlib.suppress(ValueError):  # it has its tokens
                self._waiting.remove(waiting)
                self._pass_on()

    def _buckets(self, size: int) -> List[Tuple[Bucket, int]]:
        both = (self._bucket_of_changes, 1), (self._bucket_of_bytes, size)
        return [(bucket, count) for bucket, count in both if bucket is not None]

    def _seconds_until(self, size: int) -> float:
        now = self._loop.time()
        return max((bucket.seconds_until(count, now) for bucket, count in self._buckets(size)), default=0.0)

    def _take(self, size: int) -> bool:
        """Takes the tokens of a change where they are there."""
        if self._seconds_until(size) > 1e-6:  # less is what numbers lose
            return False
        for bucket, count in self._buckets(size):
            bucket.take(count)
        self._changes += 1
        self._bytes += size
        return True

    def _pass_on(self) -> None:
        """Lets go whoever waits and has its tokens now, and sees to it that this is done again for the next."""
        if self._timer is not None:
            self._timer.cancel()
            self._timer = None
        while self._waiting:
            first = self._waiting[0]
            if not first.place.done() and not self._take(first.size):
                self._timer = self._loop.call_later(self._seconds_until(first.size), self._pass_on)
                return
            self._waiting.popleft()
            if not first.place.done():
                first.place.set_result(None)


def give_up(place: asyncio.Future[None]) -> None:
    if not place.done():
        place.set_exception(Overdue())


class Pace:
    """The accounts of a bridge's peers, and whose turn it is. Administrators take turns with others, and never wait for tokens."""

    def __init__(self, share: Share, seconds: float) -> None:
        self.share, self._seconds = share, seconds
        self._accounts: Dict[Tuple[str, str], Account] = {}  # who came last is the last
        self._forgotten: Dict[str, Used] = {}  # of each role, what those used that aren't remembered
        self._present: Dict[Account, None] = {}  # those with a session
        self._turn, self._is_turning = 1, False
        self._queued: Dict[Account, None] = {}  # those with requests that wait for a later turn

    def enter(self, role: str, who: str, has_share: bool) -> Account:
        """The account of a client that has come, which is its peer's."""
        account = self._accounts.pop((role, who), None) or Account(role, who, self.share if has_share else None)
        self._accounts[role, who] = account
        account.clients += 1
        if len(self._accounts) > MOST_PEERS:
            self._forget_one()
        return account

    def leave(self, account: Account) -> None:
        """One of its clients has gone."""
        account.clients -= 1

    def _forget_one(self) -> None:
        """Forgets the peer that hasn't come for longest and has no client here."""
        oldest = next((it for it in self._accounts.values() if not it.clients), None)
        if oldest is None:
            return
        del self._accounts[oldest.role, oldest.who]
        others, used = self._forgotten.get(oldest.role, Used(oldest.role, OTHERS)), oldest.used()
        self._forgotten[oldest.role] = others._replace(
            changes=others.changes + used.changes, bytes=others.bytes + used.bytes, waited=others.waited + used.waited)

    def begin(self, account: Account) -> None:
        """It has a session more."""
        self._present[account] = None
        account.sessions += 1

    def end(self, account: Account) -> None:
        """It has a session less."""
        account.sessions -= 1
        if not account.sessions:
            del self._present[account]

    def used(self) -> List[Used]:
        """What each peer has used, and what those have that aren't remembered."""
        return [it.used() for it in self._accounts.values()] + list(self._forgotten.values())

    async def pass_on(self, account: Account, is_change: bool, size: int) -> None:
        """Waits until a request may be passed on, and counts it until it is `answered`. Overdue where its peer has no tokens for it in
        time.
        """
        if is_change:
            await account.pay(size, self._seconds)
        account.asked_at = asyncio.get_running_loop().time()
        if len(self._present) > 1 and (account.queue or not self._may_pass(account)):
            place: asyncio.Future[None] = asyncio.get_running_loop().create_future()
            account.queue.append(place)
            self._queued[account] = None
            self._begin_turn_later()
            try:
                await place
            except asyncio.CancelledError:
                if not place.cancelled():  # it was let go while its session ended
                    self.answered(account)
                raise
        else:
            account.passed += 1
            account.unanswered += 1

    def answered(self, account: Account) -> None:
        """A request that was passed on has its reply, or never will."""
        account.unanswered -= 1
        if account.stalled is not None:
            account.stalled.cancel()
            account.stalled = None
        if account.queue:
            self._begin_turn_later()

    def _may_pass(self, account: Account) -> bool:
        """Whether this turn isn't over for a peer, and it has room among the requests that aren't answered."""
        if account.turn != self._turn:
            account.turn, account.passed = self._turn, 0
        return account.passed < REQUESTS_A_TURN and self._has_room(account)

    def _has_room(self, account: Account) -> bool:
        """While others ask, a peer has one unanswered request more than the least of them has sessions. So who opens many sessions has
        little more of the service than who opens one.
        """
        now = asyncio.get_running_loop().time()
        asking = [it for it in self._present if it is not account and (it.unanswered or now - it.asked_at < ASKING_SECONDS)]
        return account.unanswered <= min((it.sessions for it in asking), default=account.unanswered)

    def _begin_turn_later(self) -> None:
        """The loop does meanwhile what others have to do."""
        if not self._is_turning:
            self._is_turning = True
            asyncio.get_running_loop().call_soon(self._begin_turn)

    def _begin_turn(self) -> None:
        """Each peer's next requests may be passed on. Another turn follows where one has more than a turn's."""
        self._is_turning = False
        self._turn += 1
        for account in list(self._queued):
            while account.queue and self._may_pass(account):
                account.passed += self._let_go(account)
            if not account.queue:
                del self._queued[account]
            elif account.passed >= REQUESTS_A_TURN:
                self._begin_turn_later()
            elif account.stalled is None:
                account.stalled = asyncio.get_running_loop().call_later(STALLED_SECONDS, self._let_all_go, account)

    @staticmethod
    def _let_go(account: Account) -> bool:
        """Lets the first request of a queue go, unless its session has ended meanwhile."""
        place = account.queue.popleft()
        if place.done():
            return False
        place.set_result(None)
        account.unanswered += 1
        return True

    def _let_all_go(self, account: Account) -> None:
        """Its replies don't come, perhaps since one of its clients doesn't take them: the others of its sessions go on."""
        account.stalled = None
        while account.queue:
            self._let_go(account)
        self._queued.pop(account, None)
