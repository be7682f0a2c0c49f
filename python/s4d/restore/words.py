"""Moments as `s4` takes and prints them: numbers, times and ages."""
from __future__ import annotations

import re
from datetime import datetime, timedelta
from typing import NamedTuple

from ..history import TIMES
from ..moments import EPOCH, MICROSECOND, moment_of
from ..wire import LAST

NUMBER = re.compile(r"[0-9]{1,20}")
TIME = re.compile(r"([0-9]{4}-[0-9]{2}-[0-9]{2})[Tt ]([0-9]{2}:[0-9]{2}:[0-9]{2})(?:[.,]([0-9]{1,9}))?([Zz]|[+-][0-9]{2}:[0-9]{2})")
AGE = re.compile(r"([0-9]{1,20})([smhdw])")
SECONDS = {"s": 1, "m": 60, "h": 3_600, "d": 86_400, "w": 604_800}


class Word(NamedTuple):
    """What a text says of a moment: its number, and whether that is a time, in microseconds since 1970."""

    moment: int
    is_time: bool


def word_in(text: str, now: int) -> Word:
    """The moment that a text says where it is `now`; ValueError where it says none."""
    number, age, time = NUMBER.fullmatch(text), AGE.fullmatch(text), TIME.fullmatch(text)
    moment = -1
    if number is not None:
        moment = int(text)
    elif age is not None:
        moment = now - int(age[1]) * SECONDS[age[2]] * 1_000_000
    elif time is not None:
        moment = microsecond_of(*time.groups(default=""))
    if not 0 <= moment <= LAST:
        raise ValueError(f"{text} is no moment; give a number, a time as 2026-11-27T13:18:02Z, or an age as 90s, 15m, 2h, 3d or 1w")
    return Word(moment, number is None)


def microsecond_of(day: str, time: str, fraction: str, offset: str) -> int:
    """The microseconds from 1970 to a time; below zero where it is none, or earlier."""
    try:
        second = datetime.fromisoformat(f"{day}T{time}{offset if offset not in 'Zz' else '+00:00'}")
        return moment_of(second) + int(fraction[:6].ljust(6, "0"))
    except (ValueError, OverflowError):
        return -1


def text_of(moment: int) -> str:
    """A moment as a date in UTC, where it can be one, else as its number."""
    if moment < TIMES:
        return str(moment)
    try:
        return f"{EPOCH + moment * MICROSECOND:%Y-%m-%dT%H:%M:%S.%fZ}"
    except OverflowError:
        return str(moment)


def span_text(first: int, last: int) -> str:
    """The moments of a span."""
    return f"{text_of(first)}-{text_of(last)}"


def duration_text(microseconds: int) -> str:
    """A duration in words."""
    return str(timedelta(seconds=microseconds // 1_000_000))
