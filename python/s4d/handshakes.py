"""The connections that come for TLS and aren't clients yet: how many there are, in all and of one address."""
from __future__ import annotations

import asyncio
import contextlib
import ipaddress
import socket
from collections import Counter
from typing import AsyncIterator, Dict

from .doors import TurnedAway

HANDSHAKES = 256  # connections of which it isn't known yet whether they are clients; most of them may say nothing
HANDSHAKES_OF_ONE = 4  # of one address, that are performed at once
HANDSHAKE_SECONDS = 5.0  # that one has, from the connection on


class Place:
    """A connection that isn't a client yet. Its turn is over the future: a result begins its handshake, an error ends it."""

    def __init__(self, origin: str) -> None:
        self.origin, self.has_said = origin, False
        self.turn: asyncio.Future[None] = asyncio.get_running_loop().create_future()

    def give_up(self, why: str, fault: str) -> None:
        """Ends it before its handshake has begun."""
        if not self.turn.done():
            self.turn.set_exception(TurnedAway(why, fault))


class Handshakes:
    """Who says nothing takes no turn from others; who says something has one, in the order in which they came."""

    def __init__(self, seconds: float = HANDSHAKE_SECONDS) -> None:
        self._seconds = seconds
        self._places: Dict[Place, None] = {}  # in the order in which they came

    @contextlib.asynccontextmanager
    async def turn(self, link: socket.socket, host: str) -> AsyncIterator[float]:
        """The block begins once the connection has said something and has its turn; it is given the seconds that are left.

        TurnedAway where that doesn't come in time, or others came meanwhile and this one had to go.
        """
        loop, place = asyncio.get_running_loop(), Place(origin_of(host))
        end = loop.time() + self._seconds
        self._enter(place)
        try:
            await self._come_to_turn(place, link, end)
            yield end - loop.time()
        finally:
            self._places.pop(place, None)
            self._begin_next()

    async def _come_to_turn(self, place: Place, link: socket.socket, end: float) -> None:
        loop = asyncio.get_running_loop()
        timer = loop.call_at(end, place.give_up, "no tls", "its handshake took too long")
        loop.add_reader(link.fileno(), self._hear, place, link.fileno())
        try:
            await place.turn
        finally:
            timer.cancel()
            loop.remove_reader(link.fileno())

    def _hear(self, place: Place, number: int) -> None:
        """It has said something, or has ended."""
        asyncio.get_running_loop().remove_reader(number)
        place.has_said = True
        self._begin_next()

    def _enter(self, place: Place) -> None:
        if len(self._places) >= HANDSHAKES:
            self._make_room()
        self._places[place] = None

    def _make_room(self) -> None:
        """Ends the oldest that has said nothing, else the oldest that waits for its turn, of the address that has most of
        these. TurnedAway, for who came, where there is none.
        """
        waiting = [it for it in self._places if not it.turn.done()]
        candidates = [it for it in waiting if not it.has_said] or waiting
        if not candidates:
            raise TurnedAway("too many handshakes")
        count = Counter(it.origin for it in candidates)
        oldest = max(candidates, key=lambda it: count[it.origin])  # the first of those with most
        del self._places[oldest]
        oldest.give_up("too many handshakes", "said nothing" if not oldest.has_said else "waited for its turn")

    def _begin_next(self) -> None:
        """Begins what may begin."""
        performed = Counter(it.origin for it in self._places if it.turn.done())
        for place in self._places:
            if place.has_said and not place.turn.done() and performed[place.origin] < HANDSHAKES_OF_ONE:
                performed[place.origin] += 1
                place.turn.set_result(None)


def origin_of(host: str) -> str:
    """Whose connections count together: those of an address, and of IPv6 those of a network, of which one side has all."""
    address = ipaddress.ip_address(host.partition("%")[0])
    return host if address.version == 4 else address.exploded[:19]
