"""What serves an open store to clients: a gateway for now, one for each moment that is named, and the status."""
from __future__ import annotations

import asyncio
import contextlib
import gc
import ssl
from collections import Counter
from dataclasses import dataclass
from typing import Counter as Counted
from typing import Iterator, List, NamedTuple, Optional, Sequence

from ..access_log import AccessLog
from ..metrics import Family, Sample
from ..s3.answers import stamp_of
from ..s3.counts import Counts
from ..s3.gateway import Gateway
from ..s3.keys import keys_in
from ..s3.limits import OBJECT_BYTES
from ..s3.past import fault_of
from ..s3.server import Server
from .opening import OpenStore
from .rebalance import Rebalance
from .service import say
from .settings import StoreFault, image_path
from .status import StoreStatus
from .store import Store
from .uploads import Uploads

GRACE = 30.0  # seconds that requests may take to end at SIGTERM


class Past(NamedTuple):
    """A moment, and where clients come that read all as it was then."""

    moment: int
    host: str
    port: int


@dataclass(frozen=True)
class Wanted:
    """What the command line says of it."""

    host: str
    port: int
    keys: str
    cert: Optional[str] = None
    key: Optional[str] = None
    local: Optional[int] = None
    past: Sequence[Past] = ()
    rebalance: bool = False


class Serving:
    """Serves from `start` to `close`."""

    def __init__(self, opened: OpenStore, wanted: Wanted, log: Optional[AccessLog], s4: str) -> None:
        self._opened, self._wanted, self._log, self._s4 = opened, wanted, log, s4
        self._counts = Counts()
        self._gateways: List[Gateway] = []
        self._servers: List[Server] = []
        self._status: Optional[StoreStatus] = None
        self._tls: Optional[ssl.SSLContext] = None
        self._tasks: List[asyncio.Future[None]] = []  # that go on until the end

    async def start(self) -> List[str]:
        """Starts the drives, and then the gateways: the lines that say where clients come. StoreFault, OSError or ValueError where
        something can't be had.
        """
        wanted = self._wanted
        keys, self._tls = keys_in(wanted.keys), tls_of(wanted)
        with making_many_objects():
            store, window = await self._opened.start(), self._opened.settings.window
        uploads = Uploads(store, OBJECT_BYTES, self._opened.uploads, self._opened.away)
        self._tasks.append(asyncio.ensure_future(uploads.look_after()))
        for host, port, at in [*((it.host, it.port, it.moment) for it in wanted.past), (wanted.host, wanted.port, None)]:
            fault = None if at is None else fault_of(at, window)
            if fault is not None:
                raise StoreFault(f"--at: {fault}")
            self._gateways.append(Gateway(store, keys, window, self._log, at, self._counts, uploads))
            self._servers.append(Server(self._gateways[-1], host, port, self._tls))
        for server in self._servers:
            await server.start()
        if wanted.local is not None:
            await self._start_status(wanted.local)
        if wanted.rebalance:
            self._tasks.append(asyncio.ensure_future(moved(store)))
        return self._lines()

    async def _start_status(self, port: int) -> None:
        drives, store = self._opened.drives, self._opened.store
        assert store is not None
        images = {drive.number: image_path(self._opened.folder, drive.number) for drive in drives if not drive.is_remote}
        self._status = StoreStatus(port, drives, images, self._s4, store.index, self._families)
        await self._status.start()

    def _lines(self) -> List[str]:
        kind = "http" if self._tls is None else "https"
        hosts = [*((f"at {stamp_of(it.moment)}", it.host) for it in self._wanted.past), ("ready", self._wanted.host)]
        return [f"{said}: {kind}://{host}:{server.port}" for (said, host), server in zip(hosts, self._servers)]

    def reload(self) -> None:
        """Opens the log anew, and reads keys and certificate again. What can't be had stays as it was, and that is said."""
        for what, work in (("log", self._reopen), ("file of keys", self._read_keys), ("certificate", self._read_certificate)):
            try:
                work()
            except (StoreFault, OSError, ValueError) as error:
                say(f"the {what} stays as it was: {error}")

    def _reopen(self) -> None:
        if self._log is not None:
            self._log.reopen()

    def _read_keys(self) -> None:
        keys = keys_in(self._wanted.keys)
        for gateway in self._gateways:
            gateway.keys = keys

    def _read_certificate(self) -> None:
        if self._tls is not None:
            load_certificate(self._tls, self._wanted)

    def _families(self) -> List[Family]:
        """What is counted of requests, connections and the log."""
        connections = sum(server.connections for server in self._servers)
        lost = [] if self._log is None else [Sample("", {}, self._log.lost)]
        turned: Counted[str] = Counter()
        for server in self._servers:
            turned.update(server.turned_away)
        return [*self._counts.families(), Family("s4_store_connections", "gauge", "Connections.", [Sample("", {}, connections)]),
                Family("s4_store_turned_away_total", "counter", "Connections of which no TLS came about.",
                       [Sample("", {"why": why}, count) for why, count in sorted(turned.items())]),
                Family("s4_store_log_lines_lost_total", "counter", "Lines of the access log that couldn't be written.", lost)]

    async def close(self) -> None:
        """Accepts no more, and waits for the requests that are worked on."""
        if self._status is not None:
            self._status.close()
        for task in self._tasks:
            task.cancel()
        if self._tasks:
            await asyncio.wait(set(self._tasks))
        await asyncio.gather(*[server.close(GRACE) for server in self._servers])


@contextlib.contextmanager
def making_many_objects() -> Iterator[None]:
    """Python looks at all objects again and again where many are made, for cycles that nothing needs. The index has none: it is made
    without that, in two thirds of the time, and left out of later looks, for which requests would wait.
    """
    gc.disable()
    try:
        yield
    finally:
        gc.freeze()
        gc.enable()


async def moved(store: Store) -> None:
    """Moves what there is to move, and says what that was."""
    rebalance = Rebalance(store)
    for line in (await rebalance.run()).lines(rebalance.loads):
        say(line)


def tls_of(wanted: Wanted) -> Optional[ssl.SSLContext]:
    """The context of the certificate that is given, if one is; StoreFault where it can't be had."""
    if wanted.cert is None:
        return None
    context = ssl.SSLContext(ssl.PROTOCOL_TLS_SERVER)
    context.minimum_version = ssl.TLSVersion.TLSv1_2
    load_certificate(context, wanted)
    return context


def load_certificate(context: ssl.SSLContext, wanted: Wanted) -> None:
    """Gives new connections the certificate of the files; StoreFault where they have none."""
    assert wanted.cert is not None
    try:
        context.load_cert_chain(wanted.cert, wanted.key)
    except (OSError, ValueError) as error:  # which name no file
        raise StoreFault(f"{wanted.cert} and {wanted.key} are no certificate with its key: {error}") from error
