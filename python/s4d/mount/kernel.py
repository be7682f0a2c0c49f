"""A view as FUSE asks for it, by the module `fusepy`, which PyPI names `fuse`."""
from __future__ import annotations

import ctypes
import errno
import importlib
import os
import stat
from typing import Any, Callable, Dict, List, NoReturn, Optional

from .snapshots import Entry, Kind
from .view import View, failure

BYTES = "latin-1"  # the module hands over paths as texts: of this encoding each byte is a character
PATH_SECONDS = 0.25  # for which the kernel doesn't ask again what a path is: else each file takes twice the time
MODES = {Kind.FOLDER: stat.S_IFDIR | 0o555, Kind.FILE: stat.S_IFREG | 0o444, Kind.LINK: stat.S_IFLNK | 0o777}
HOW_TO_HAVE_IT = "it needs Debian's python3-fusepy and fuse3, or `pip install fusepy`, libfuse.so.2 and fusermount"


class NoFuse(Exception):
    """There is no FUSE to be had, or it didn't mount: why."""


def fuse_module() -> Any:
    """The module, which has no types. Debian's python3-fuse is another one of that name."""
    for name in ("fusepy", "fuse"):
        try:
            found = importlib.import_module(name)
        except ImportError:
            continue
        except OSError as error:
            raise NoFuse(f"{error}; {HOW_TO_HAVE_IT}") from None
        if hasattr(found, "FUSE"):
            return found
    raise NoFuse(f"there is no module fusepy; {HOW_TO_HAVE_IT}")


def is_ending(module: Any) -> bool:
    """Whether the mount is to end, as a signal says, in a thread that answers FUSE."""
    context = module._libfuse.fuse_get_context()
    return bool(module._libfuse.fuse_exited(ctypes.c_void_p(context.contents.fuse)))


class Requests:
    """What the module calls, by the names of FUSE. All that changes something is refused, as it is by the kernel."""

    use_ns = True  # times are in nanoseconds

    def __init__(self, view: View, ready: Callable[[], None]) -> None:
        self._view, self._ready = view, ready
        self._owner = {"st_uid": os.getuid(), "st_gid": os.getgid()}

    def __call__(self, name: str, *given: Any) -> Any:
        return getattr(self, name)(*given)

    def init(self, path: str) -> None:
        self._ready()

    def getattr(self, path: str, handle: Optional[int] = None) -> Dict[str, int]:
        entry = self._view.entry(path.encode(BYTES)) if handle is None else self._view.opened(handle)
        return {**self._owner, **status_of(entry)}

    def readdir(self, path: str, handle: int) -> List[str]:
        return [".", "..", *(name.decode(BYTES) for name in self._view.in_folder(path.encode(BYTES)))]

    def readlink(self, path: str) -> str:
        return self._view.target(path.encode(BYTES)).decode(BYTES)

    def open(self, path: str, flags: int) -> int:
        if flags & os.O_ACCMODE != os.O_RDONLY:
            raise failure(errno.EROFS)
        return self._view.open(path.encode(BYTES))

    def read(self, path: str, size: int, offset: int, handle: int) -> bytes:
        return self._view.read(handle, size, offset)

    def release(self, path: str, handle: int) -> None:
        self._view.close(handle)

    def refuse(self, *given: Any) -> NoReturn:
        raise failure(errno.EROFS)

    chmod = chown = create = link = mkdir = mknod = removexattr = refuse
    rename = rmdir = setxattr = symlink = truncate = unlink = utimens = write = refuse


def status_of(entry: Entry) -> Dict[str, int]:
    """What the kernel is given. One link of a folder, where others have two, says that its folders aren't counted in that."""
    return {"st_mode": MODES[entry.kind], "st_nlink": 1, "st_size": entry.size,
            "st_blocks": -(-entry.size // 512), "st_atime": entry.time, "st_mtime": entry.time, "st_ctime": entry.time}


def mount(module: Any, view: View, folder: str, ready: Callable[[], None]) -> None:
    """Shows a view in a folder until it is unmounted, or SIGTERM or SIGINT comes. NoFuse where that can't be.

    The kernel keeps no bytes, so that a file that is open keeps its own, and only for a short time what a path is.
    """
    try:
        module.FUSE(Requests(view, ready), os.fsencode(folder).decode(BYTES), encoding=BYTES, foreground=True, ro=True,
                    nosuid=True, nodev=True, direct_io=True, default_permissions=True, attr_timeout=PATH_SECONDS,
                    entry_timeout=PATH_SECONDS, fsname="s4d", subtype="s4d")
    except RuntimeError as error:
        raise NoFuse(f"{folder}: it couldn't be mounted there ({error}); the line above says why") from None
