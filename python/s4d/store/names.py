"""What may be the name of a bucket, and a key."""
from __future__ import annotations

import re

KEY_BYTES = 1_024  # of a key, in UTF-8

BUCKET = re.compile(r"[a-z0-9](?:[a-z0-9.-]{1,61})[a-z0-9]")
ADDRESS = re.compile(r"[0-9]+\.[0-9]+\.[0-9]+\.[0-9]+")


def is_bucket_name(name: str) -> bool:
    """Whether it has 3 to 63 lower-case letters, digits, dots and hyphens, with a letter or a digit at both ends and at each
    dot's sides, and looks like no address.
    """
    is_joined = not any(pair in name for pair in ("..", ".-", "-."))
    return BUCKET.fullmatch(name) is not None and is_joined and ADDRESS.fullmatch(name) is None


def is_key(key: str) -> bool:
    """Whether it has 1 to 1,024 bytes in UTF-8."""
    try:
        return 1 <= len(key.encode()) <= KEY_BYTES
    except UnicodeEncodeError:  # half of a pair, which is no character
        return False
