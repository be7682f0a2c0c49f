"""Places for requests, and who has the next one: each asker has its turn, however many requests of others wait."""
from __future__ import annotations

import asyncio
import contextlib
from collections import deque
from contextvars import ContextVar
from typing import AsyncIterator, Deque, Dict

# For whom the running task asks: an access key, or nobody where the store asks for itself. Tasks that it begins ask for the same.
ASKER: ContextVar[str] = ContextVar("asker", default="")


class Shares:
    """So many places. Where none is free those of an asker that wait have their order, and the askers take turns."""

    def __init__(self, count: int) -> None:
        self._free = count
        self._waiting: Dict[str, Deque[asyncio.Future[None]]] = {}  # in the order of the askers' turns; none while a place is free

    @contextlib.asynccontextmanager
    async def place(self) -> AsyncIterator[None]:
        """A place, for as long as the block goes on."""
        await self._take(ASKER.get())
        try:
            yield
        finally:
            self._leave()

    async def _take(self, asker: str) -> None:
        if self._free:
            self._free -= 1
            return
        turn: asyncio.Future[None] = asyncio.get_running_loop().create_future()
        self._waiting.setdefault(asker, deque()).append(turn)
        try:
            await turn
        except asyncio.CancelledError:
            if not turn.cancelled():
                self._leave()  # it was handed on while the wait was being cancelled
            else:
                self._drop(asker, turn)
            raise

    def _drop(self, asker: str, turn: asyncio.Future[None]) -> None:
        """Takes out who doesn't wait any more."""
        waiting = self._waiting.get(asker, deque())
        with contextlib.suppress(ValueError):  # it was passed over already
            waiting.remove(turn)
        if not waiting:
            self._waiting.pop(asker, None)

    def _leave(self) -> None:
        """Hands the place to who has the next turn, or back."""
        while self._waiting:
            asker, waiting = next(iter(self._waiting.items()))
            del self._waiting[asker]
            turn = waiting.popleft()
            if waiting:
                self._waiting[asker] = waiting  # its next turn comes after those of the others
            if not turn.done():
                turn.set_result(None)
                return
        self._free += 1
