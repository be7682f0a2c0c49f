"""Who may perform a handshake: the turns of connections that aren't clients yet."""
import asyncio
import contextlib
import socket
import unittest
from unittest import mock

from s4d import handshakes
from s4d.doors import TurnedAway
from s4d.handshakes import Handshakes, origin_of

from .bridged import PATIENCE


class Comers:
    """Connections that come, and what became of each: `begun`, or why it was turned away."""

    def __init__(self, seconds=PATIENCE):
        self.handshakes, self.became, self.links, self.leaving, self.tasks = Handshakes(seconds), {}, {}, {}, []

    async def come(self, name, host="10.0.0.1", says=b"x"):
        ours, theirs = socket.socketpair()
        ours.setblocking(False)
        self.links[name], self.leaving[name] = (ours, theirs), asyncio.Event()
        if says:
            theirs.sendall(says)
        self.tasks.append(asyncio.ensure_future(self._greet(name, ours, host)))
        await self.settle()

    async def _greet(self, name, link, host):
        try:
            async with self.handshakes.turn(link, host):
                self.became[name] = "begun"
                await self.leaving[name].wait()
        except TurnedAway as turned:
            self.became[name] = turned.why

    async def leave(self, name):
        self.leaving[name].set()
        await self.settle()

    async def settle(self):
        for _ in range(10):  # rounds of the loop, of which each step takes one or two
            await asyncio.sleep(0)

    async def end(self):
        for task in self.tasks:
            task.cancel()
        await asyncio.gather(*self.tasks, return_exceptions=True)
        for pair in self.links.values():
            for link in pair:
                link.close()


def with_comers(trial, **how):
    async def run():
        comers = Comers(**how)
        try:
            await trial(comers)
        finally:
            await comers.end()

    asyncio.run(run())


class Turns(unittest.TestCase):
    def test_an_address_has_four_at_once(self):
        async def trial(it):
            for number in range(6):
                await it.come(number)
            self.assertEqual(set(it.became), {0, 1, 2, 3})
            await it.come("other", "10.0.0.2")
            self.assertEqual(it.became["other"], "begun")
            await it.leave(2)
            self.assertEqual(set(it.became), {0, 1, 2, 3, 4, "other"})
            await it.leave(0)
            self.assertEqual(it.became[5], "begun")

        with_comers(trial)

    def test_who_says_nothing_takes_no_turn(self):
        async def trial(it):
            for number in range(8):
                await it.come(number, says=b"")
            await it.come("later")
            self.assertEqual(it.became, {"later": "begun"})
            it.links[5][1].sendall(b"x")
            it.links[6][1].close()  # its handshake then finds the end
            await it.settle()
            self.assertEqual(it.became, {"later": "begun", 5: "begun", 6: "begun"})

        with_comers(trial)

    def test_the_oldest_that_says_nothing_goes(self):
        async def trial(it):
            await it.come("begun")
            for number in range(5):
                await it.come(number, "10.0.0.2" if number == 1 else "10.0.0.1", b"")
            with mock.patch.object(handshakes, "HANDSHAKES", 6):
                await it.come("late", "10.0.0.3")
                await it.come("later", "10.0.0.3")
            self.assertEqual(it.became, {"begun": "begun", "late": "begun", "later": "begun",
                                         0: "too many handshakes", 2: "too many handshakes"})

        with_comers(trial)

    def test_of_an_address_that_has_most(self):
        """Connections that begin a handshake and don't go on keep nobody of another address out."""
        async def trial(it):
            await it.come("quiet", "10.0.0.9", b"")
            await it.come("first", "10.0.0.9")
            for number in range(20):
                await it.come(number)
            with mock.patch.object(handshakes, "HANDSHAKES", 22):
                for number in range(3):
                    await it.come(f"late {number}", f"10.0.1.{number}")
                    self.assertEqual(it.became[f"late {number}"], "begun")
            self.assertEqual({name for name, what in it.became.items() if what != "begun"}, {"quiet", 4, 5})

        with_comers(trial)

    def test_no_room_at_all(self):
        async def trial(it):
            await it.come("one", "10.0.0.1")
            await it.come("two", "10.0.0.2")
            with mock.patch.object(handshakes, "HANDSHAKES", 2):
                await it.come("three", "10.0.0.3")
            self.assertEqual(it.became, {"one": "begun", "two": "begun", "three": "too many handshakes"})

        with_comers(trial)

    def test_a_time(self):
        async def trial(it):
            await it.come("silent", says=b"")
            with contextlib.suppress(asyncio.CancelledError):
                await asyncio.wait(it.tasks, timeout=PATIENCE)
            self.assertEqual(it.became, {"silent": "no tls"})

        with_comers(trial, seconds=0.05)

    def test_origins(self):
        for host, origin in (("127.0.0.1", "127.0.0.1"), ("2001:db8:1:2:3::4", "2001:0db8:0001:0002"), ("fe80::1%eth0", "fe80:0000:0000:0000")):
            self.assertEqual(origin_of(host), origin)


if __name__ == "__main__":
    unittest.main()
