"""A store over many drives: buckets, keys and versions, each drive served by an `s4serve` of its own.

    python3 -m s4d.store init DIR --drives 16 --frames 1024 --keep 30d
    python3 -m s4d.store serve DIR --listen 127.0.0.1:9000

`OpenStore` starts the drives of a folder, and gives the `Store` over them.
"""
from .opening import OpenStore
from .settings import Programs, Settings, StoreFault, make_store
from .store import Store

__all__ = ["OpenStore", "Programs", "Settings", "Store", "StoreFault", "make_store"]
