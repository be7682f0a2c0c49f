"""The sockets at which a bridge's clients come: Unix sockets, each for one role, and TLS, where a certificate has a role."""
from __future__ import annotations

import asyncio
import contextlib
import errno
import os
import re
import socket
import ssl
import stat
import struct
from typing import Any, Awaitable, Callable, Dict, List, NamedTuple, Optional, Set, Tuple

from .access_log import say
from .doors import TurnedAway
from .handshakes import HANDSHAKES, Handshakes
from .relay import Client
from .tls_server import TlsWriter, tls_streams
from .trust import Certificate, Tls, Trust, common_name, trust_of
from .wire import BODY_BYTES

PAUSE_SECONDS = 0.2  # after a connection that couldn't be accepted, as where no descriptor is free
BACKLOG = 128

Peer = Dict[str, Any]
Serve = Callable[[Client], Awaitable[None]]
Judge = Callable[[Client], None]  # TurnedAway where who came is no client
TurnAway = Callable[[Optional[str], Peer, TurnedAway], None]  # a role where one is known, who it was, and why


def listen_unix(path: str, mode: int) -> socket.socket:
    """A Unix socket of this mode. What a killed program left at the path is removed; OSError where more is there."""
    listener = socket.socket(socket.AF_UNIX)
    try:
        remove_dead_socket(path)
        listener.bind(path)  # nobody can connect before it listens
        os.chmod(path, mode)
        listener.listen(BACKLOG)
        listener.setblocking(False)
    except OSError as error:
        listener.close()
        raise OSError(error.errno, error.strerror or str(error), path) from None
    return listener


def remove_dead_socket(path: str) -> None:
    """Removes a socket at which nobody listens any more. OSError where something else is there."""
    try:
        if not stat.S_ISSOCK(os.lstat(path).st_mode):
            raise OSError(errno.EEXIST, "what is there is no socket", path)
    except FileNotFoundError:
        return
    with socket.socket(socket.AF_UNIX) as probe:
        try:
            probe.settimeout(1)
            probe.connect(path)
        except ConnectionRefusedError:
            os.unlink(path)
        else:
            raise OSError(errno.EADDRINUSE, "another program listens there", path)


def listen_tcp(host: str, port: int) -> socket.socket:
    """A listening socket; OSError, which names the address, where there is none to be had."""
    try:
        found = socket.getaddrinfo(host, port, type=socket.SOCK_STREAM, flags=socket.AI_PASSIVE)
        listener = socket.create_server(found[0][4][:2], family=found[0][0], backlog=BACKLOG)
    except OSError as error:
        is_of_system = error.errno is not None and error.errno > 0  # a name that isn't found has a number of its own
        why = os.strerror(error.errno or 0) if is_of_system else error.strerror or str(error)
        raise OSError(error.errno, why, f"{host}:{port}") from None
    listener.setblocking(False)
    return listener


async def plain_streams(link: socket.socket) -> Tuple[asyncio.StreamReader, asyncio.StreamWriter]:
    """The streams of a connected socket."""
    reader, loop = asyncio.StreamReader(limit=BODY_BYTES), asyncio.get_running_loop()
    protocol = asyncio.StreamReaderProtocol(reader)
    transport, _ = await loop.connect_accepted_socket(lambda: protocol, link)
    return reader, asyncio.StreamWriter(transport, protocol, reader, loop)


class Listener:
    """Accepts connections until it is closed, and hands on each that becomes a client."""

    def __init__(self, link: socket.socket, serve: Serve, turn_away: TurnAway) -> None:
        self._link, self._serve, self._turn_away = link, serve, turn_away
        self._accepting: Optional[asyncio.Future[None]] = None
        self._greeting: Set[asyncio.Future[None]] = set()  # of connections that aren't clients yet
        self._serving: Dict[asyncio.Future[None], Client] = {}

    def start(self) -> None:
        """Accepts from now on."""
        self._accepting = asyncio.ensure_future(self._accept())

    async def _accept(self) -> None:
        loop, said = asyncio.get_running_loop(), ""
        while True:
            try:
                link, address = await loop.sock_accept(self._link)
            except OSError as error:
                line = f"no connection could be accepted: {error.strerror or error}"
                if line != said:  # once, not at each try
                    say(line)
                said = line
                await asyncio.sleep(PAUSE_SECONDS)
                continue
            said = ""
            task = asyncio.ensure_future(self._greet(link, address))
            self._greeting.add(task)
            task.add_done_callback(self._greeting.discard)
            await asyncio.sleep(0)  # else nothing else is done while connections come faster than they are accepted

    async def _greet(self, link: socket.socket, address: Any) -> None:
        try:
            client = await self._client(link, address)
        except TurnedAway:
            return
        except OSError:
            link.close()
            return
        task = asyncio.ensure_future(self._serve(client))
        self._serving[task] = client
        task.add_done_callback(self._serving.pop)

    async def _client(self, link: socket.socket, address: Any) -> Client:
        """The client of a connection. TurnedAway, which was said already, where it is none: then the connection is closed.

        OSError where the socket gives nothing, and is still to be closed. Else it is its transport's, and nobody closes it
        but by that: its number could be another connection's while the loop still watches it for this one.
        """
        raise NotImplementedError

    async def accept_no_more(self) -> None:
        """Who isn't a client yet becomes none any more."""
        await cancelled({*self._greeting, *([self._accepting] if self._accepting else [])})
        self._link.close()

    async def close(self, seconds: float) -> None:
        """Accepts no more, and waits for the clients' sessions; what takes longer is cancelled."""
        await self.accept_no_more()
        if self._serving:
            await asyncio.wait(set(self._serving), timeout=seconds)
        await cancelled(set(self._serving))


async def cancelled(tasks: Set[asyncio.Future[None]]) -> None:
    """Ends tasks, and waits until they have ended."""
    for task in tasks:
        task.cancel()
    if tasks:
        await asyncio.wait(tasks)


class UnixListener(Listener):
    """A Unix socket whose clients have one role. The log has each one's process and user, as the system knows them."""

    CREDENTIALS = struct.Struct("3i")

    def __init__(self, role: str, path: str, mode: int, serve: Serve, turn_away: TurnAway) -> None:
        super().__init__(listen_unix(path, mode), serve, turn_away)
        self._role, self._path, self._made = role, path, os.stat(path)

    async def _client(self, link: socket.socket, address: Any) -> Client:
        credentials = link.getsockopt(socket.SOL_SOCKET, socket.SO_PEERCRED, self.CREDENTIALS.size)
        pid, uid, gid = self.CREDENTIALS.unpack(credentials)
        return Client(self._role, {"pid": pid, "uid": uid, "gid": gid}, *await plain_streams(link))

    async def close(self, seconds: float) -> None:
        with contextlib.suppress(OSError):
            found = os.stat(self._path)
            if (found.st_dev, found.st_ino) == (self._made.st_dev, self._made.st_ino):
                os.unlink(self._path)
        await super().close(seconds)


class HandshakeListener(Listener):
    """A port for TLS. A handshake may take as many `seconds`, and has its turn. Readers of clients have a `limit`."""

    def __init__(self, link: socket.socket, seconds: float, serve: Serve, turn_away: TurnAway, limit: int = BODY_BYTES) -> None:
        super().__init__(link, serve, turn_away)
        self._handshakes, self._limit = Handshakes(seconds), limit
        self._refused = 0  # connections to which it is still said why

    async def _greeted(self, link: socket.socket, address: Tuple[Any, ...], context: ssl.SSLContext, judge: Judge) -> Client:
        """The client, after its handshake, and once it was judged. TurnedAway, which was said already, where it is none."""
        peer: Peer = {"address": f"{address[0]}:{address[1]}"}
        client: Optional[Client] = None
        try:
            async with self._handshakes.turn(link, str(address[0])) as seconds:
                reader, writer = await tls_streams(link, context, self._limit)
                client = Client("", peer, reader, writer)
                client.certificate = await certificate_of(writer, seconds)
                judge(client)
            return client
        except TurnedAway as turned:
            await self._refuse(link, client)
            self._turn_away(None, peer, turned)
            raise
        except asyncio.CancelledError:
            self._drop(link, client)
            raise

    async def _refuse(self, link: socket.socket, client: Optional[Client]) -> None:
        """Closes a connection, where TLS has begun once the other side knows why."""
        self._refused += 1
        try:
            if client is not None and self._refused <= HANDSHAKES:
                client.close()
                await client.drop_requests()
        finally:
            self._refused -= 1
            self._drop(link, client)

    @staticmethod
    def _drop(link: socket.socket, client: Optional[Client]) -> None:
        """Closes a connection at once."""
        if client is not None:
            client.abort()
        else:
            link.close()


class TlsListener(HandshakeListener):
    """The same, where the common name of a client's certificate says its role."""

    def __init__(self, tls: Tls, seconds: float, take_door: Callable[[str], None], serve: Serve, turn_away: TurnAway) -> None:
        self._tls, self._take_door = tls, take_door
        self._trust = self._read()
        super().__init__(listen_tcp(tls.host, tls.port), seconds, serve, turn_away)

    def _read(self) -> Trust:
        """Certificates and roles, of which each has its door. OSError or ValueError where something can't be had."""
        trust = trust_of(self._tls)
        for role in sorted(set(trust.roles.values())):
            self._take_door(role)
        return trust

    def reload(self) -> List[Client]:
        """Takes certificates and roles anew, and notes of each client what it has lost thereby: these clients.

        At OSError or ValueError all stay as they were.
        """
        earlier, self._trust = self._trust, self._read()
        for client in self._serving.values():
            client.lost = client.lost or self._trust.loss(client.role, client.certificate, earlier)
        return [client for client in self._serving.values() if client.lost]

    async def _client(self, link: socket.socket, address: Tuple[Any, ...]) -> Client:
        trust = self._trust
        return await self._greeted(link, address, trust.context, lambda client: self._judge(client, trust))

    def _judge(self, client: Client, trust: Trust) -> None:
        """Gives a client its role by its certificate, which a trust took that may be an earlier one now, and the name in it to
        the log. TurnedAway where it has no role.
        """
        client.peer["name"] = common_name(client.certificate)
        role = self._trust.role_of(client.certificate)
        if role is None:
            client.dismiss()
            raise TurnedAway("no role")
        lost = self._trust.loss(role, client.certificate, trust)
        if lost is not None:
            client.dismiss()
            raise TurnedAway(lost)
        client.role = role


async def certificate_of(writer: TlsWriter, seconds: float) -> Certificate:
    """The client's certificate, after its handshake; TurnedAway where there is none."""
    try:
        return await writer.handshake(seconds) or {}
    except OSError as error:
        reason = getattr(error, "reason", None) or error.strerror or str(error)
        raise TurnedAway("no tls", reason) from None
