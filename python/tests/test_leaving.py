"""Connections whose sessions are over."""
import asyncio
import unittest

from s4d.leaving import MOST_LEAVING, Leaving


class Client:
    """A client that goes once it is cut off."""

    def __init__(self, who):
        self.who, self.gone = who, asyncio.Event()

    def abort(self):
        self.gone.set()

    async def closed(self):
        await self.gone.wait()


class Bounds(unittest.TestCase):
    def test_those_that_do_not_go(self):
        """They end, the oldest first, of the peer that has most; others stay."""
        async def trial():
            leaving = Leaving()
            clients = [Client("uid 8")] + [Client("uid 7") for _ in range(2 * MOST_LEAVING)] + [Client("uid 9")]
            tasks = [asyncio.ensure_future(leaving.wait(client)) for client in clients]
            for _ in range(5):
                await asyncio.sleep(0)
            self.assertEqual([task.done() for task in tasks], [False] + [True] * (MOST_LEAVING + 2) + [False] * (MOST_LEAVING - 1))
            for client in clients:
                client.abort()
            await asyncio.gather(*tasks)
            fresh = [Client("uid 7") for _ in range(MOST_LEAVING)]  # what has gone isn't counted
            tasks = [asyncio.ensure_future(leaving.wait(client)) for client in fresh]
            await asyncio.sleep(0)
            self.assertFalse(any(client.gone.is_set() for client in fresh))
            for client in fresh:
                client.abort()
            await asyncio.gather(*tasks)

        asyncio.run(trial())


if __name__ == "__main__":
    unittest.main()
