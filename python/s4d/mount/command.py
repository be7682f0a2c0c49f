"""The command line of `s4d.mount`."""
from __future__ import annotations

import argparse
import contextlib
import os
import sys
from typing import NoReturn, Optional, Sequence

from ..errors import Error
from ..image import Image
from ..open_files import allow_open_files
from .kernel import NoFuse, fuse_module, is_ending, mount
from .view import View, why_of

EXPORT_SECONDS = 120.0  # that `s4` has for a moment


class Parser(argparse.ArgumentParser):
    """A parser that says a fault in one line."""

    def error(self, message: str) -> NoReturn:
        say(f"{message}; --help lists the options")
        sys.exit(2)


def say(line: str) -> None:
    """Writes a line on standard error."""
    with contextlib.suppress(OSError, ValueError):
        print(f"s4d.mount: {line}", file=sys.stderr, flush=True)


def parser() -> Parser:
    made = Parser(prog="python3 -m s4d.mount", allow_abbrev=False,
                  description="Shows an image's past as files, which nobody can change: DIR/now, and any moment as DIR/2026-11-27T13:18:02Z, "
                              "DIR/2h or a number. It runs until it is ended by Ctrl-C or SIGTERM, or by `fusermount -u DIR`.")
    made.add_argument("image", metavar="IMAGE", help="the file of a drive, which may be served meanwhile")
    made.add_argument("folder", metavar="DIR", help="an empty folder")
    made.add_argument("--s4", metavar="PROGRAM", default="s4", help="the program that reads the image (s4)")
    return made


def main(words: Optional[Sequence[str]] = None) -> int:
    """Runs the command: its status."""
    found = parser().parse_args(words)
    folder = os.path.abspath(found.folder)
    image = Image(os.path.abspath(found.image), s4=found.s4, timeout=EXPORT_SECONDS)
    try:
        module = fuse_module()
        if os.listdir(folder):
            raise NoFuse(f"{found.folder}: the folder isn't empty")
        image.info()
    except (NoFuse, Error, OSError) as error:
        say(why_of(error))
        return 1
    except KeyboardInterrupt:
        return 1
    allow_open_files()
    view = View(image, say, lambda: is_ending(module))

    def ready() -> None:
        with contextlib.suppress(OSError, ValueError):  # where nobody reads it
            print(f"{found.image} is mounted at {found.folder}", flush=True)
    try:
        mount(module, view, folder, ready)
        return 0
    except NoFuse as error:
        say(str(error))
        return 1
    finally:
        view.end()
