"""Restores a drive that is served:  python3 -m s4d.restore --connect unix:admin.sock --at 2h .."""
import sys

from .command import main

sys.exit(main())
