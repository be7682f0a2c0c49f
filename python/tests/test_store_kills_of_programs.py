"""Kills of a store's gateway and services amid all kinds of changes, over the drive's programs, where they are built.

STORE_KILLS in the environment is how many kills there are; `bench/store_kills.py` has more.
"""
import unittest

from s4d.store import Programs

from .built import PROGRAM, S4, S4SERVE, needs_program, needs_s4, needs_s4serve
from .store_kills import Killing


@needs_program
@needs_s4
@needs_s4serve
class Kills(Killing):
    def test_programs(self):
        """Few of these are of services, which wait ten seconds at their next start."""
        self.kill(6, ("gateway", "moves", "both", "gateway", "moves", "service"), lambda _: Programs(PROGRAM, S4, S4SERVE))


if __name__ == "__main__":
    unittest.main()
