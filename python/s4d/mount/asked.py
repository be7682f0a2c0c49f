"""The moments that the names of folders ask for."""
from __future__ import annotations

from typing import NamedTuple, Optional

from ..moments import EPOCH, MICROSECOND, machine_time
from ..restore.words import AGE, SECONDS, word_in

NOW_SECONDS = 0.5  # for which `now` isn't made again
AGE_SECONDS = 1.0  # for which an age is counted from the same time, at the least; else a hundredth of it
PAST_SECONDS = 60.0  # for which a moment isn't made again: until then it is seen that it has expired, is hidden, or the image is another


class Asked(NamedTuple):
    """What a folder is to have: its name as it is listed, the time or the number or the age in seconds, none of them for
    `now`, and for how many seconds what was made of it serves.
    """

    name: bytes
    moment: Optional[int]
    age: Optional[int]
    seconds: float

    @property
    def is_time(self) -> bool:
        return not self.name.isdigit()

    def at(self) -> Optional[str]:
        """What `s4` is asked for; ValueError where an age lies before 1970."""
        moment = self.moment if self.age is None else machine_time() - self.age * 1_000_000
        if moment is None:
            return None
        if moment < 0:
            raise ValueError(f"{self.name.decode()} ago lies before 1970")
        return time_text(moment) if self.is_time else str(moment)


NOW = Asked(b"now", None, None, NOW_SECONDS)


def asked_by(name: bytes) -> Optional[Asked]:
    """What a name asks for; None where it is no moment."""
    if name == NOW.name:
        return NOW
    try:
        text = name.decode("ascii")
        age = AGE.fullmatch(text)
        if age is not None:
            count, unit = int(age[1]), age[2]
            seconds = count * SECONDS[unit]
            lasts = min(max(seconds / 100, AGE_SECONDS), PAST_SECONDS)
            return Asked(b"%d%s" % (count, unit.encode()), None, seconds, lasts)
        word = word_in(text, 0)
        named = time_text(word.moment) if word.is_time else str(word.moment)
        return Asked(named.encode(), word.moment, None, PAST_SECONDS)
    except (ValueError, OverflowError):
        return None


def time_text(moment: int) -> str:
    """A moment as a time in UTC, without a fraction of a second where that is none."""
    return f"{EPOCH + moment * MICROSECOND:%Y-%m-%dT%H:%M:%S.%f}".rstrip("0").rstrip(".") + "Z"
