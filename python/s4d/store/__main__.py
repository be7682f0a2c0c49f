"""Makes and serves a store:  python3 -m s4d.store init DIR --drives 16 ..;  python3 -m s4d.store serve DIR --listen .."""
import sys

from .command import main

sys.exit(main())
