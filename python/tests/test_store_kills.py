"""Kills of a store's gateway and services amid all kinds of changes, over a stand-in.

STORE_KILLS in the environment is how many kills there are; `bench/store_kills.py` has more.
"""
import unittest

from s4d.store import Programs

from .bridged import needs_openssl
from .store_kills import BRIDGE, KINDS, Killing
from .store_standin import programs


class Kills(Killing):
    def test_stand_ins(self):
        self.kill(16, KINDS, lambda folder: Programs(**programs(folder)))

    @needs_openssl
    def test_a_drive_elsewhere(self):
        """After each kill of the gateway the next start waits ten seconds."""
        self.kill(3, (BRIDGE, BRIDGE, "gateway"), lambda folder: Programs(**programs(folder)))


if __name__ == "__main__":
    unittest.main()
