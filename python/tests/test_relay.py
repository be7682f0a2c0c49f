"""How many requests of a session are passed on before replies come."""
import asyncio
import tracemalloc
import unittest
from unittest import mock

from s4d import frames, relay, wire
from s4d.relay import ALWAYS_ASKED, MOST_ASKED, Client, Relay

from .standin import frame

REQUEST, REPLY = wire.truncate(1, 0).frame(), frame(b"\x01" + bytes(8))


class Pipes:
    """Notes what is passed on, and replies when it is said."""

    def __init__(self):
        self.passed, self.replies = 0, asyncio.Queue()

    async def write(self, data):
        self.passed += data == REQUEST

    async def read(self):
        return await self.replies.get()

    def reply(self, count):
        self.replies.put_nowait(REPLY * count)

    def end_requests(self):
        pass

    close = end_requests


async def nothing(*_):
    pass


class Session:
    """A session of a client that sends without waiting. `others` are unanswered requests of its peer's other sessions."""

    def __init__(self, others=0):
        self.pipes, self.others, self.unanswered = Pipes(), others, 0
        reader, writer = asyncio.StreamReader(), mock.MagicMock(drain=nothing)
        reader.feed_data(REQUEST * 5_000)
        self.relay = Relay(Client("client", {"uid": 7}, reader, writer), self.pipes, self.report, nothing, self.pass_on,
                           lambda: self.others + self.unanswered)
        self.task = asyncio.ensure_future(self.relay.run())

    async def pass_on(self, asked, _):
        self.unanswered += asked.is_change

    def report(self, *_):
        self.unanswered -= 1

    async def passed(self):
        """How many were passed on, once it waits."""
        last = -1
        while self.pipes.passed != last:
            last = self.pipes.passed
            for _ in range(20):
                await asyncio.sleep(0)
        return last

    async def end(self):
        self.relay.end(relay.STOPPED)
        await self.task


class Bounds(unittest.TestCase):
    def with_session(self, trial, *how):
        async def run():
            it = Session(*how)
            try:
                await trial(it)
            finally:
                await it.end()
            self.assertEqual(it.unanswered, 0)

        asyncio.run(run())

    def test_a_session_alone(self):
        async def trial(it):
            self.assertEqual(await it.passed(), MOST_ASKED)
            it.pipes.reply(10)
            self.assertEqual(await it.passed(), MOST_ASKED + 10)
            it.pipes.reply(MOST_ASKED)
            self.assertEqual(await it.passed(), 2 * MOST_ASKED + 10)

        self.with_session(trial)

    def test_a_session_beside_others_of_its_peer(self):
        """However many these have, it has some; and more once they have fewer, at its next reply."""
        async def trial(it):
            self.assertEqual(await it.passed(), ALWAYS_ASKED)
            it.pipes.reply(3)
            self.assertEqual(await it.passed(), ALWAYS_ASKED + 3)
            it.others = 100
            it.pipes.reply(1)
            self.assertEqual(await it.passed(), MOST_ASKED - 100 + 4)

        self.with_session(trial, 2 * MOST_ASKED)

    def test_what_they_take(self):
        """A session's requests are in memory by what the log says of them: less than a MiB."""
        body = wire.flush_object(2**63, 2**62, 2**63).body
        tracemalloc.start()
        try:
            kept = [frames.asked(body, float(place)) for place in range(MOST_ASKED)]
            self.assertLess(tracemalloc.get_traced_memory()[0], 2**20)
        finally:
            tracemalloc.stop()
        self.assertEqual(set(kept[0].named), {"object", "first", "last"})


if __name__ == "__main__":
    unittest.main()
