"""When a refused request is asked again."""
from __future__ import annotations

from dataclasses import dataclass
from typing import Iterator, Tuple, Type

from .errors import Busy, NoSpace, Refused


@dataclass(frozen=True)
class Retry:
    """Asks again after Busy and NoSpace, which can pass: a reader leaves, or the cleaner frees a frame.

    A request is asked up to `times` times more, after `wait` seconds at first and `factor` times as long each time.
    Each time moves the drive's clock by its tick. A request without a reply isn't asked again: it may have been done.
    """

    times: int = 6
    wait: float = 0.01
    factor: float = 2.0
    refusals: Tuple[Type[Refused], ...] = (Busy, NoSpace)

    def waits(self) -> Iterator[float]:
        """The seconds before each further time."""
        wait = self.wait
        for _ in range(self.times):
            yield wait
            wait *= self.factor


NEVER = Retry(times=0)
