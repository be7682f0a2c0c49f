"""Who may ask: a file of access keys, each with its secret, its rights and its buckets."""
from __future__ import annotations

import re
from dataclasses import dataclass, field
from typing import Dict, FrozenSet, List, Optional

from ..store.names import is_bucket_name

ACCESS = re.compile(r"[A-Za-z0-9_.-]{3,128}")
LEAST_SECRET = 16  # characters
ALL = "*"


@dataclass(frozen=True)
class Key:
    """An access key. Without buckets it may ask for all of them."""

    access: str
    secret: str = field(repr=False)
    may_write: bool
    buckets: Optional[FrozenSet[str]]

    def may(self, bucket: Optional[str], writes: bool) -> bool:
        """Whether it may ask this of a bucket, or of what is in none."""
        has_bucket = self.buckets is None or bucket in self.buckets
        return has_bucket and (self.may_write or not writes)

    def sees(self, bucket: str) -> bool:
        """Whether it may know of a bucket."""
        return self.buckets is None or bucket in self.buckets


def keys_in(path: str) -> Dict[str, Key]:
    """The keys of a file by their names. OSError where it can't be read; ValueError, with the line, where one is none.

    A line is an access key, a secret, `read` or `write`, and `*` or buckets with commas between. Empty lines, and those that begin
    with `#`, are passed over.
    """
    keys: Dict[str, Key] = {}
    with open(path, encoding="utf-8", errors="replace") as file:
        for number, line in enumerate(file, 1):
            words = line.split()
            if not words or words[0].startswith("#"):
                continue
            try:
                key = key_of(words)
                if key.access in keys:
                    raise ValueError(f"{key.access} is named twice")
            except ValueError as error:
                raise ValueError(f"{path}:{number}: {error}") from None
            keys[key.access] = key
    if not keys:
        raise ValueError(f"{path} has no key")
    return keys


def key_of(words: List[str]) -> Key:
    """The key that a line's words say; ValueError where they say none. A secret is in no message."""
    if len(words) != 4:
        raise ValueError("give an access key, a secret, read or write, and buckets")
    access, secret, rights, named = words
    if not ACCESS.fullmatch(access):
        raise ValueError("an access key has 3 to 128 letters, digits, dots, hyphens and underscores")
    if len(secret) < LEAST_SECRET:
        raise ValueError(f"the secret has less than {LEAST_SECRET} characters")
    if rights not in ("read", "write"):
        raise ValueError("the third word is neither read nor write")
    buckets = None if named == ALL else frozenset(named.split(","))
    wrong = sorted(it for it in buckets or () if not is_bucket_name(it))
    if wrong:
        raise ValueError(f"{wrong[0]!r} is no bucket's name")
    return Key(access, secret, rights == "write", buckets)
