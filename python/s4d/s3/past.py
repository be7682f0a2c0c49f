"""A moment of the past, at which a request is answered as it would have been then."""
from __future__ import annotations

import re
from datetime import datetime, timezone
from typing import Optional

from ..moments import machine_time, moment_of
from ..store.settings import microseconds
from .answers import stamp_of
from .errors import S3Error

NUMBER = re.compile(r"[0-9]{1,19}")
TIME = re.compile(r"([0-9]{4}-[0-9]{2}-[0-9]{2}T[0-9]{2}:[0-9]{2}:[0-9]{2})(?:\.([0-9]{1,6}))?(Z|[+-][0-9]{2}:[0-9]{2})")
AGE = re.compile(r"[0-9]{1,9}[smhdw]")


def moment_in(text: str) -> int:
    """The moment that a text says: a number of microseconds since 1970, a time with its offset from UTC, or an age as `2h`.
    ValueError where it says none.
    """
    if NUMBER.fullmatch(text):
        return int(text)
    if AGE.fullmatch(text):
        return max(machine_time() - microseconds(text), 0)
    found = TIME.fullmatch(text)
    if found is None:
        raise ValueError(f"{text[:40]!r} is no moment: give a number, a time as 2026-11-27T13:18:02Z, or an age as 2h")
    time = datetime.fromisoformat(found[1] + (found[3] if found[3] != "Z" else "+00:00"))
    return moment_of(time.astimezone(timezone.utc)) + int((found[2] or "").ljust(6, "0"))


def moment_asked(text: str, window: int) -> int:
    """The moment; InvalidArgument where it is none, or can't be read: it lies ahead, or before the window."""
    try:
        moment = moment_in(text)
    except (ValueError, OverflowError) as error:
        raise S3Error("InvalidArgument", str(error)) from None
    fault = fault_of(moment, window)
    if fault is not None:
        raise S3Error("InvalidArgument", fault)
    return moment


def fault_of(moment: int, window: int) -> Optional[str]:
    """Why a moment can't be read, or None where it can."""
    now = machine_time()
    if moment > now:
        return f"The moment {moment} lies ahead: it is {now} now, {stamp_of(now)}."
    if moment < now - window:
        return f"The moment {moment} lies before the window, which begins at {now - window}, {stamp_of(now - window)}."
    return None
