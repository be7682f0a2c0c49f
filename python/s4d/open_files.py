"""How many files a program may have open."""
from __future__ import annotations

import resource

OPEN_FILES = 4_096  # that a bridge has with all its connections, and a store with 64 drives and all their sessions, with room


def allow_open_files() -> None:
    """Lets this program have as many files open as it may need, or as it may have."""
    soft, hard = resource.getrlimit(resource.RLIMIT_NOFILE)
    wanted = OPEN_FILES if hard == resource.RLIM_INFINITY else min(OPEN_FILES, hard)
    if soft != resource.RLIM_INFINITY and soft < wanted:
        resource.setrlimit(resource.RLIMIT_NOFILE, (wanted, hard))
