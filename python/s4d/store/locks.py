"""A lock for each name that somebody wants to hold."""
from __future__ import annotations

import asyncio
import contextlib
from typing import AsyncIterator, Dict, Hashable


class Turns(asyncio.Lock):
    """A lock, and how many hold it or wait for it."""

    def __init__(self) -> None:
        super().__init__()
        self.users = 0


class Locks:
    """They take room only while somebody wants them."""

    def __init__(self) -> None:
        self._locks: Dict[Hashable, Turns] = {}

    def is_wanted(self, name: Hashable) -> bool:
        """Whether somebody holds the name's lock, or waits for it."""
        return name in self._locks

    @contextlib.asynccontextmanager
    async def hold(self, name: Hashable) -> AsyncIterator[None]:
        """The block begins once nobody else holds the name's lock, first come, first served."""
        turns = self._locks.setdefault(name, Turns())
        turns.users += 1
        try:
            async with turns:
                yield
        finally:
            turns.users -= 1
            if not turns.users:
                del self._locks[name]
