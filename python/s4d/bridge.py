"""A bridge from sockets to the doors of a service:  python3 -m s4d.bridge --doors DIR --unix client=client.sock ..

It listens on Unix sockets, whose paths say the role, and for TLS, where a client's certificate says it. For each client
it makes the two pipes of a session in the folder DIR/ROLE, and passes whole requests and replies. It knows the lengths
of frames, and what they say for its log alone: the service judges them.

It says `ready` once all sockets listen and the service reads at each door: a client that comes then gets a session. Who
comes before is turned away. The line is on standard output, or an event of the access log where that is there.

Each peer, which is a user's number or a common name, has a share of sessions, of changes and of their bytes; administrators
have no share. Who is over it waits, and nobody else.

SIGTERM and SIGINT end it: who waits is turned away, requests that were passed on are answered. SIGHUP opens the log,
the certificates and the file of roles anew; sessions of who has lost the role, or the authority of the certificate, take
no further request; shares stay as they are. Status 0: a signal ended it; 1: something couldn't be had; 2: the call is wrong.
"""
from __future__ import annotations

import asyncio
import contextlib
import os
import signal
import socket
import sys
import time
from typing import Any, Dict, List, Optional, Sequence

from . import relay
from .access_log import AccessLog, say
from .doors import Door, Seats, TurnedAway
from .frames import Asked, Said
from .leaving import Leaving
from .listeners import Listener, Peer, TlsListener, UnixListener
from .metrics import Counts, Family, of_bridge, of_peers
from .open_files import allow_open_files
from .pace import Account, Pace
from .refused import Refusals
from .relay import Client, Relay, who_of
from .settings import Settings, settings_of
from .status import DriveNumbers, StatusServer

ADMIN = "admin"  # the role that has no share
SEATS = {ADMIN: 4}  # sessions at once, as many as the service has workers for
OTHER_SEATS = 16
MOST_DISMISSED = 256  # clients that were turned away, and whose requests are still taken for a moment
TICK_SECONDS = 0.5  # between looks for sessions that are idle, or that the service doesn't open
READY_SECONDS = 0.05  # between looks for the service, until it is there for the first time
LATE_SECONDS = 5.0  # after which it is said that it isn't there


class Bridge:
    """The doors, the sockets, and the sessions between them."""

    def __init__(self, settings: Settings) -> None:
        self._settings = settings
        self._log = AccessLog(settings.log, most_bytes=settings.log_bytes)
        self._refusals, self._pace = Refusals(self._log), Pace(settings.share, settings.wait)
        self._doors: Dict[str, Door] = {}
        self._counts: Dict[str, Counts] = {}
        self._listeners: List[Listener] = []
        self._tls: Optional[TlsListener] = None
        self._relays: Dict[Relay, str] = {}
        self._strangers: Counts = Counts()  # who had no role yet
        self._status: Optional[StatusServer] = None
        self._is_stopping, self._dismissed, self._leaving = False, 0, Leaving()

    async def start(self) -> None:
        """Takes doors and sockets. OSError or ValueError where one can't be had."""
        settings = self._settings
        for role, path, mode in settings.unix:
            self._take_door(role)
            self._listeners.append(UnixListener(role, path, mode, self._serve, self._turn_away))
        if settings.tls is not None:
            self._tls = TlsListener(settings.tls, settings.handshake, self._take_door, self._serve, self._turn_away)
            self._listeners.append(self._tls)
        if settings.port is not None:
            drive = DriveNumbers(settings.image, settings.s4) if settings.image is not None else None
            self._status = StatusServer(settings.port, self._faults, self._families, drive)
            await self._status.start()
        for listener in self._listeners:
            listener.start()

    def _take_door(self, role: str) -> None:
        if role in self._doors:
            return
        settings = self._settings
        count = settings.seats.get(role, SEATS.get(role, OTHER_SEATS))
        most_of_one = count if role == ADMIN else settings.share.sessions_of(count)
        seats = Seats(count, settings.queue, settings.wait, most_of_one)
        door = Door(role, os.path.join(settings.doors, role), seats)
        door.take()
        self._doors[role], self._counts[role] = door, Counts()

    async def run(self, ended: asyncio.Event) -> None:
        """Serves until it is to end."""
        while not ended.is_set():
            try:
                await asyncio.wait_for(ended.wait(), TICK_SECONDS)
            except asyncio.TimeoutError:
                self._look_after_sessions()

    def _look_after_sessions(self) -> None:
        """Ends sessions that the service doesn't open, and idle ones where somebody waits who may have the seat."""
        for role, door in self._doors.items():
            door.seats.drop_gone()
            sessions = [it for it, its_role in self._relays.items() if its_role == role]
            wait = self._settings.wait if door.has_service() else 0.0
            unopened = [it for it in sessions if it.is_unopened(wait)]
            for session in unopened:
                session.end(relay.NOT_OPENED)
            if door.seats.waiting:
                idle = [it for it in sessions if it not in unopened and it.is_idle(self._settings.idle)]
                idle.sort(key=lambda it: it.moved)
                for session, is_worth_it in zip(idle, door.seats.worth_ending(it.client.who for it in idle)):
                    if is_worth_it:
                        session.end(relay.IDLE)

    async def _serve(self, client: Client) -> None:
        """All that becomes of a client. Nothing that goes wrong with one reaches another."""
        door, who = self._doors[client.role], client.who
        account = self._pace.enter(client.role, who, client.role != ADMIN)
        try:
            await door.seats.take(who, client.fault)
            try:
                end = await self._relay(client, door, account)
            finally:
                door.seats.leave(who)
            if end == relay.OVER_SHARE:
                await self._dismiss(client)
        except TurnedAway as turned:
            self._turn_away(client.role, client.peer, turned)
            await self._dismiss(client)
        except Exception as error:  # a fault of this program: the other sessions go on
            say(f"a session failed: {error!r}")
        finally:
            client.close()
            self._pace.leave(account)
        await self._leaving.wait(client)

    async def _dismiss(self, client: Client) -> None:
        client.dismiss()
        if self._dismissed < MOST_DISMISSED:
            self._dismissed += 1
            try:
                await client.drop_requests()
            finally:
                self._dismissed -= 1

    async def _relay(self, client: Client, door: Door, account: Account) -> str:
        """Its session, and how that ended."""
        if self._is_stopping:
            raise TurnedAway("stopping")
        if client.lost is not None:
            raise TurnedAway(client.lost)
        name = door.new_name()
        pipes = door.ask_for(name)
        counts = self._counts[client.role]
        shared: Dict[str, Any] = {"session": name, "role": client.role, "peer": client.peer}
        requests = unanswered = 0

        def report(asked: Asked, said: Optional[Said], seconds: float) -> None:
            nonlocal requests, unanswered
            requests += 1
            if unanswered:  # else it was too long to be passed on
                unanswered -= 1
                self._pace.answered(account)
            self._count(counts, asked, said, seconds)
            self._log_request(client, shared, asked, said, seconds)

        async def pass_on(asked: Asked, size: int) -> None:
            nonlocal unanswered
            await self._pace.pass_on(account, asked.is_change, size)
            unanswered += 1

        session = Relay(client, pipes, report, self._log.settle, pass_on, lambda: account.unanswered)
        self._relays[session] = client.role
        self._pace.begin(account)
        counts.sessions += 1
        end = relay.STOPPED
        try:
            end = await session.run()
        finally:
            counts.sessions -= 1
            self._pace.end(account)
            counts.ended[end] += 1
            del self._relays[session]
            self._log.write(event="session", **shared, end=end, requests=requests,
                            seconds=round(time.monotonic() - session.began, 6))
        return end

    def _log_request(self, client: Client, shared: Dict[str, Any], asked: Asked, said: Optional[Said], seconds: float) -> None:
        became: Said = {"lost": True} if said is None else said
        line: Dict[str, Any] = {"event": "request", **shared, "request": asked.kind, **asked.named, **became, "seconds": round(seconds, 6)}
        if "refusal" in became:
            self._refusals.note("refused", client.role, client.who, str(became["refusal"]), line)
        else:
            self._log.write(**line)

    @staticmethod
    def _count(counts: Counts, asked: Asked, said: Optional[Said], seconds: float) -> None:
        counts.requests[asked.kind] += 1
        if said is None:
            counts.lost[asked.kind] += 1
            return
        counts.seconds.add(seconds)
        if "refusal" in said:
            counts.refusals[str(said["refusal"])] += 1

    def _turn_away(self, role: Optional[str], peer: Peer, turned: TurnedAway) -> None:
        counts = self._strangers if role is None else self._counts[role]
        counts.turned_away[turned.why] += 1
        line = {"event": "turned away", "role": role, "peer": peer, "why": turned.why, "fault": turned.fault}
        self._refusals.note("turned away", role, who_of(peer), turned.why, line)

    def _faults(self) -> List[str]:
        """What keeps clients from being served."""
        stopping = ["stopping"] if self._is_stopping else []
        return stopping + [f"{role}: no service" for role, door in self._doors.items() if not door.has_service()]

    def _families(self) -> List[Family]:
        waiting = {role: door.seats.waiting for role, door in self._doors.items()}
        counts = {**self._counts, **({"none": self._strangers} if self._tls is not None else {})}
        return of_bridge(counts, waiting, self._log.lost) + of_peers(self._pace.used())

    async def announce(self) -> None:
        """Waits until the service reads at each door, and says so, once."""
        began, is_said = time.monotonic(), False
        while faults := self._faults():
            if not is_said and time.monotonic() - began >= LATE_SECONDS:
                is_said = True
                say(f"{', '.join(faults)}: who comes is turned away until there is one")
            await asyncio.sleep(READY_SECONDS)
        if self._settings.log is None:  # then standard output is the log
            self._log.write(event="ready")
        elif sys.stdout is not None:
            with contextlib.suppress(OSError):  # nobody reads it
                print("ready", flush=True)
        if self._settings.ready is not None:
            say_ready(self._settings.ready)

    def reload(self) -> None:
        """Opens the log anew, and takes certificates and roles anew. What can't be had stays as it was."""
        try:
            self._log.reopen()
        except OSError as error:
            say(f"{fault_of(error)}: the log stays as it was")
        if self._tls is None:
            return
        try:
            self._end_sessions(self._tls.reload())
        except (OSError, ValueError) as error:
            say(f"{fault_of(error)}: certificates and roles stay as they were")

    def _end_sessions(self, clients: Sequence[Client]) -> None:
        """Ends those of clients who have lost their role or certificate, once the requests that were passed on are answered,
        or time is over. Who waits for one is turned away.
        """
        for door in self._doors.values():
            door.seats.drop_gone()
        loop = asyncio.get_running_loop()
        for session in self._relays:
            why = session.client.lost
            if session.client in clients and why is not None:
                session.stop(why)
                loop.call_later(self._settings.grace, session.end, why)

    async def stop(self) -> None:
        """Accepts no more, turns away who waits, and ends sessions once they have their replies, or time is over."""
        self._is_stopping = True
        for door in self._doors.values():
            door.seats.turn_away("stopping")
        for session in list(self._relays):
            session.stop()
        if self._listeners:
            await asyncio.wait([asyncio.ensure_future(it.close(self._settings.grace)) for it in self._listeners])
        self.close()

    def close(self) -> None:
        """Lets go of all."""
        if self._status is not None:
            self._status.close()
        for door in self._doors.values():
            door.close()
        self._refusals.close()
        self._log.close()


def fault_of(error: Exception) -> str:
    """A line that says what couldn't be had, and why."""
    if isinstance(error, OSError) and error.filename is not None:
        return f"{error.filename}: {error.strerror}"
    return str(error)


def say_ready(number: int) -> None:
    """Writes the line to a descriptor, and closes it."""
    try:
        with open(number, "wb", 0) as file:
            file.write(b"ready\n")
    except OSError as error:
        say(f"descriptor {number}: {error.strerror}")


def notify_systemd(state: str) -> None:
    """Says the state to systemd, where it has started the program and asked for it."""
    address = os.environ.get("NOTIFY_SOCKET")
    if address:
        with socket.socket(socket.AF_UNIX, socket.SOCK_DGRAM) as link:
            try:
                link.sendto(state.encode(), "\0" + address[1:] if address[0] == "@" else address)
            except OSError as error:
                say(f"systemd can't be notified: {error.strerror}")


async def serve(settings: Settings) -> int:
    """Serves until a signal ends it: the status."""
    try:
        bridge = Bridge(settings)
    except OSError as error:
        say(fault_of(error))
        return 1
    ended, loop = asyncio.Event(), asyncio.get_running_loop()
    for number in (signal.SIGTERM, signal.SIGINT):
        loop.add_signal_handler(number, ended.set)
    loop.add_signal_handler(signal.SIGHUP, bridge.reload)
    try:
        await bridge.start()
    except (OSError, ValueError) as error:
        say(fault_of(error))
        await bridge.stop()
        return 1
    notify_systemd("READY=1")  # also where no service is there yet: who comes then is turned away
    announcing = asyncio.ensure_future(bridge.announce())
    await bridge.run(ended)
    notify_systemd("STOPPING=1")
    announcing.cancel()
    await bridge.stop()
    return 0


def main(words: Optional[Sequence[str]] = None) -> int:
    """The program: its status."""
    settings = settings_of(sys.argv[1:] if words is None else words)
    allow_open_files()
    return asyncio.run(serve(settings))


if __name__ == "__main__":
    sys.exit(main())
