"""Requests that are sent together."""
from __future__ import annotations

import contextlib
import threading
from types import TracebackType
from typing import Any, Generic, Iterator, List, Optional, Type, TypeVar, Union

from . import wire
from .connection import Connection
from .errors import BadReply, Disconnected, NotAsked, Refused, ReplyLost
from .moments import When
from .wire import READ_BYTES, Attributes, Created, Request

T = TypeVar("T")


class Reply(Generic[T]):
    """The reply to a request of a pipeline, once that was sent."""

    def __init__(self, request: Request[T]) -> None:
        self._request = request
        self._answer: Union[T, Refused, None] = None
        self.is_sent = False

    @property
    def done(self) -> bool:
        """Whether the reply has come."""
        return self._answer is not None

    def send(self, connection: Connection) -> None:
        """Sends the request alone."""
        with naming(self._request):
            connection.send_alone(self._request.frame())

    def take(self, connection: Connection) -> None:
        """Receives the reply, whose turn it is."""
        with naming(self._request):
            body = connection.receive()
        try:
            self._answer = self._request.answer(body)
        except BadReply as error:
            raise connection.bad(str(error)) from None

    def refusal(self) -> Optional[Refused]:
        """The refusal, or None where the request was accepted."""
        answer = self._received()
        return answer if isinstance(answer, Refused) else None

    def result(self) -> T:
        """What the drive's method of the same name gives; the refusal is raised."""
        answer = self._received()
        if isinstance(answer, Refused):
            raise answer
        return answer

    def _received(self) -> Union[T, Refused]:
        if self._answer is None:
            if not self.is_sent:
                raise Disconnected("the request was not sent")
            with naming(self._request):
                raise ReplyLost("no reply came, though the request may have been done")
        return self._answer


@contextlib.contextmanager
def naming(request: Request[Any]) -> Iterator[None]:
    """A reply that is lost inside is that to this request."""
    try:
        yield
    except ReplyLost as lost:
        lost.request, lost.object, lost.at = request.name, request.object, request.at
        raise


class Pipeline:
    """Collects requests. The end of a `with` block, or `run`, sends them.

    Each method asks what the method of the same name asks of a `Drive`, and gives a `Reply`. Each is one request, so a read
    without a length gives at most `READ_BYTES`.

    Replies are read while requests are written, so that neither side waits for the other for ever, however many there are.
    Nothing is asked again after a refusal: later requests have been sent by then.
    """

    def __init__(self, connection: Connection) -> None:
        self._connection = connection
        self._frames: List[bytes] = []
        self._replies: List[Reply[Any]] = []

    def __enter__(self) -> Pipeline:
        return self

    def __exit__(self, kind: Optional[Type[BaseException]], error: Optional[BaseException],
                 trace: Optional[TracebackType]) -> None:
        if kind is None:
            self.run()

    def __len__(self) -> int:
        return len(self._replies)

    def run(self) -> List[Reply[Any]]:
        """Sends what was collected and gives all replies, refusals among them."""
        self._connection.check()
        frames, replies = b"".join(self._frames), self._replies
        self._frames, self._replies = [], []
        for reply in replies:
            reply.is_sent = True
        failed: List[Disconnected] = []

        def send() -> None:
            try:
                self._connection.send(frames)
            except Disconnected as error:
                failed.append(error)

        sender = threading.Thread(target=send, daemon=True)
        sender.start()
        try:
            for reply in replies:
                reply.take(self._connection)
        except NotAsked:
            for reply in replies:
                reply.is_sent = False  # to no drive
            raise
        sender.join()
        if failed:
            raise failed[0]
        return replies

    def add(self, request: Request[T]) -> Reply[T]:
        """Takes a request, as the methods below make them."""
        reply = Reply(request)
        self._frames.append(request.frame())
        self._replies.append(reply)
        return reply

    def create(self, attribute: bytes = b"") -> Reply[Created]:
        return self.add(wire.create(attribute))

    def delete(self, object: int) -> Reply[int]:
        return self.add(wire.delete(object))

    def read(self, object: int, offset: int = 0, length: int = READ_BYTES, at: Optional[When] = None) -> Reply[bytes]:
        return self.add(wire.read(object, offset, length, at))

    def write(self, object: int, offset: int, data: bytes) -> Reply[int]:
        return self.add(wire.write(object, offset, data))

    def append(self, object: int, data: bytes) -> Reply[int]:
        return self.add(wire.append(object, data))

    def truncate(self, object: int, size: int) -> Reply[int]:
        return self.add(wire.truncate(object, size))

    def attributes(self, object: int, at: Optional[When] = None) -> Reply[Attributes]:
        return self.add(wire.attributes(object, at))

    def set_attribute(self, object: int, attribute: bytes) -> Reply[int]:
        return self.add(wire.set_attribute(object, attribute))

    def set_window(self, moments: int) -> Reply[int]:
        return self.add(wire.set_window(moments))

    def flush(self, first: When, last: When) -> Reply[int]:
        return self.add(wire.flush(first, last))

    def flush_object(self, object: int, first: When, last: When) -> Reply[int]:
        return self.add(wire.flush_object(object, first, last))
