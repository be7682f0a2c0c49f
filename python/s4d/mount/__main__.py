"""Shows a drive's past as files:  python3 -m s4d.mount IMAGE DIR"""
import sys

from .command import main

sys.exit(main())
