"""Serves a store to programs that speak S3:  python3 -m s4d.s3 DIR --listen .., as  python3 -m s4d.store serve DIR  does."""
import sys

from .command import main

sys.exit(main())
