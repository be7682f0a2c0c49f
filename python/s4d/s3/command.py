"""The gateway under a name of its own. It serves a store, whose drives it starts or finds, as `serve` of `s4d.store` does."""
from __future__ import annotations

import argparse
import os
from typing import Optional, Sequence

from ..store.command import Parser, add_serving, run

FILE = "store.json"  # that says of a folder that it is a store


def folder_of(text: str) -> str:
    """The folder of a store's file."""
    folder, name = os.path.split(text)
    if name != FILE:
        raise argparse.ArgumentTypeError(f"{text!r} is no {FILE}")
    return folder or os.curdir


def parser() -> Parser:
    """The options."""
    made = Parser(prog="python3 -m s4d.s3", allow_abbrev=False, description="An S3 gateway over the drives of a store.")
    made.set_defaults(command="serve")
    which = made.add_mutually_exclusive_group(required=True)
    which.add_argument("folder", metavar="DIR", nargs="?", help="the store's folder")
    which.add_argument("--store", metavar="FILE", type=folder_of, help=f"or the file {FILE} in it")
    add_serving(made)
    return made


def main(words: Optional[Sequence[str]] = None) -> int:
    """The program: its status."""
    options = parser()
    found = options.parse_args(words)
    found.folder = found.folder if found.store is None else found.store
    return run(options, found)
