"""The addresses of sockets, as texts."""
from __future__ import annotations

from typing import NamedTuple


class Address(NamedTuple):
    """Where a socket is: `unix` with a path, or `tcp` or `tls` with a host and a port."""

    kind: str
    path: str = ""
    host: str = ""
    port: int = 0


def address_of(text: str) -> Address:
    """The address of `unix:PATH`, `tls:HOST:PORT`, `HOST:PORT`, or a path with a `/`; ValueError where it is none."""
    if text.startswith("unix:") or "/" in text:
        path = text[len("unix:"):] if text.startswith("unix:") else text
        if not path:
            raise ValueError(f"{text!r} has no path")
        return Address("unix", path=path)
    kind, rest = ("tls", text[len("tls:"):]) if text.startswith("tls:") else ("tcp", text)
    host, _, port = rest.rpartition(":")
    if not host or not port.isdigit():
        raise ValueError(f"{text!r} is none of unix:PATH, tls:HOST:PORT, HOST:PORT and a path with a /")
    return Address(kind, host=host.strip("[]"), port=int(port))
