"""The connections whose sessions are over, and that aren't closed yet: a client of TLS ends its side, too."""
from __future__ import annotations

from collections import Counter
from typing import Dict

from .relay import Client

MOST_LEAVING = 128  # connections: where more are left the oldest ends, of the peer that has most of them


class Leaving:
    """Waits for clients to go, so that the end of a bridge doesn't reset a connection with replies on their way. None keeps its descriptor
    for long, and no peer many.
    """

    def __init__(self) -> None:
        self._clients: Dict[Client, None] = {}  # in the order in which they came

    async def wait(self, client: Client) -> None:
        """Waits until a client's connection is closed."""
        self._clients[client] = None
        if len(self._clients) > MOST_LEAVING:
            self._end_one()
        try:
            await client.closed()
        finally:
            self._clients.pop(client, None)

    def _end_one(self) -> None:
        count = Counter(it.who for it in self._clients)
        oldest = max(self._clients, key=lambda it: count[it.who])  # the first of those with most
        del self._clients[oldest]
        oldest.abort()
