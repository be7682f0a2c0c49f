"""What a restore says: a line for each object on standard output, as `s4 restore` prints it, and the rest on standard error."""
from __future__ import annotations

import contextlib
import sys
import time
from typing import TextIO

NAME = "s4d.restore"
PROGRESS_SECONDS = 0.2  # between two states of the progress


class Sayer:
    """Where standard error is a terminal its last line shows how far the restore has come."""

    def __init__(self, out: TextIO, errors: TextIO) -> None:
        self._out, self._errors, self._shows = out, errors, errors.isatty()
        self._shown, self._at = 0, 0.0

    def line(self, text: str) -> None:
        """Prints a line of the result."""
        self._clear()
        self._out.write(f"{text}\n")

    def of(self, object: int, what: str) -> None:
        """Prints what was done to an object."""
        self.line(f"{object:10}  {what}")

    def say(self, text: str) -> None:
        """Prints a line beside the result."""
        with contextlib.suppress(BrokenPipeError):
            self._out.flush()
        self._clear()
        self._errors.write(f"{NAME}: {text}\n")
        self._errors.flush()

    def progress(self, text: str, is_due: bool = False) -> None:
        """Shows how far it has come, where that is seen."""
        now = time.monotonic()
        if not self._shows or not is_due and now < self._at + PROGRESS_SECONDS:
            return
        self._out.flush()
        self._errors.write(f"\r{text.ljust(self._shown)}")
        self._errors.flush()
        self._shown, self._at = len(text), now

    def end(self) -> None:
        """Nothing more is shown."""
        self._clear()
        self._out.flush()
        self._errors.flush()

    def _clear(self) -> None:
        if self._shown:
            self._errors.write(f"\r{' ' * self._shown}\r")
            self._errors.flush()
            self._shown = 0


def standard() -> Sayer:
    return Sayer(sys.stdout, sys.stderr)
