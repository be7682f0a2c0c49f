"""The built programs that tests run, where there are any."""
import os
import pathlib
import unittest

TOP = pathlib.Path(__file__).resolve().parents[2]


def program(variable, name):
    """The program's path, and what skips a test where it isn't built."""
    path = os.environ.get(variable) or str(TOP / f"crates/{name}/out/{name}")
    why = f"no built {name} at {path}: build it as CONTRIBUTING.md says, or name one as {variable}"
    return path, unittest.skipUnless(os.access(path, os.X_OK), why)


PROGRAM, needs_program = program("S4D", "s4d")
S4, needs_s4 = program("S4", "s4")
S4SERVE, needs_s4serve = program("S4SERVE", "s4serve")
