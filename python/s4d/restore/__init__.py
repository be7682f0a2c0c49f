"""A way back without stopping a service: its objects are made what they were at a moment, by an administrator's session.

    python3 -m s4d.restore --connect unix:admin.sock --at 2h --dry-run
    python3 -m s4d.restore --connect unix:admin.sock --at 2h

The audit says which objects changed since; each gets the fewest and smallest requests, what was made since is deleted, and what was
deleted is made anew. Clients go on meanwhile, and what they change is reported. Status 0: all is restored; 1: something isn't, or
failed; 2: the call is wrong.
"""
from .asking import Asker, Fault
from .restoring import Done, Restore, Wanted
from .saying import Sayer

__all__ = ["Asker", "Done", "Fault", "Restore", "Sayer", "Wanted"]
