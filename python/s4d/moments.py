"""Moments as sessions take them: numbers, times and ages."""
from __future__ import annotations

import time
from datetime import datetime, timedelta, timezone
from typing import Optional, Union

When = Union[int, datetime, timedelta]

EPOCH = datetime(1970, 1, 1, tzinfo=timezone.utc)
MICROSECOND = timedelta(microseconds=1)


def machine_time() -> int:
    """This machine's time, in microseconds since 1970."""
    return time.time_ns() // 1_000


def moment_of(when: When) -> int:
    """The number of a moment: that itself, or the microseconds from 1970 to a time, or to an age before this machine's time.

    ValueError for a time without an offset from UTC, for an age below zero, and for what lies before 1970.
    """
    if isinstance(when, datetime):
        moment = (with_offset(when) - EPOCH) // MICROSECOND
    elif isinstance(when, timedelta):
        moment = machine_time() - checked_age(when) // MICROSECOND
    else:
        return when
    if moment < 0:
        raise ValueError(f"{when} lies before 1970")
    return moment


def moment_or_none(when: Optional[When]) -> Optional[int]:
    """The same, where there is one."""
    return None if when is None else moment_of(when)


def with_offset(time: datetime) -> datetime:
    """The time; ValueError where it has no offset from UTC."""
    if time.utcoffset() is None:
        raise ValueError(f"{time} has no offset from UTC")
    return time


def checked_age(age: timedelta) -> timedelta:
    """The age; ValueError where it is below zero."""
    if age < timedelta():
        raise ValueError(f"{age} is no age: it is below zero")
    return age
