"""Sessions over sockets: addresses, TLS, replies that are lost, and those for the tasks of an event loop."""
import asyncio
import contextlib
import pathlib
import socket
import ssl
import tempfile
import threading
import time
import unittest

import s4d
from s4d import Created, wire
from s4d.addresses import Address, address_of
from s4d.moments import machine_time

from .bridged import PATIENCE, Certificates, needs_openssl
from .plain_drive import PlainDrive
from .standin import frame


class Server:
    """Serves a plain drive to each connection, by a thread of its own. `asked` has the requests that came.

    Where `most` isn't None each connection gets as many replies; then `end` says what becomes of it: `close` or `silence`.
    """

    def __init__(self, listener, context=None, most=None, end="close"):
        self.listener, self.context, self.most, self.end = listener, context, most, end
        self.drive, self.lock, self.asked, self.links = PlainDrive(), threading.Lock(), [], []
        threading.Thread(target=self.accept, daemon=True).start()

    def accept(self):
        with contextlib.suppress(OSError):
            while True:
                link, _ = self.listener.accept()
                self.links.append(link)
                threading.Thread(target=self.serve, args=(link,), daemon=True).start()

    def serve(self, link):
        with contextlib.suppress(OSError, EOFError):
            if self.context is not None:
                link = self.context.wrap_socket(link, server_side=True)
            count = 0
            while True:
                body = self.taken(link, int.from_bytes(self.taken(link, 4), "big"))
                self.asked.append(body)
                if count == self.most:
                    break
                count += 1
                with self.lock:
                    reply = self.drive.answer("admin", body)
                link.sendall(frame(reply))
            if self.end == "silence":
                return
        with contextlib.suppress(OSError):
            link.shutdown(socket.SHUT_RDWR)
        link.close()

    @staticmethod
    def taken(link, count):
        found = b""
        while len(found) < count:
            more = link.recv(count - len(found))
            if not more:
                raise EOFError
            found += more
        return found


class Served(unittest.TestCase):
    def setUp(self):
        folder = tempfile.TemporaryDirectory()
        self.addCleanup(folder.cleanup)
        self.folder = pathlib.Path(folder.name)
        self.listener = socket.socket(socket.AF_UNIX)
        self.addCleanup(self.listener.close)
        self.listener.bind(f"{self.folder}/s4d")
        self.listener.listen()
        self.address = f"unix:{self.folder}/s4d"

    def server(self, **how):
        self.service = Server(self.listener, **how)
        self.addCleanup(self.end)
        return self.service

    def end(self):
        for link in self.service.links:
            link.close()


class Addresses(unittest.TestCase):
    def test_addresses(self):
        for text, address in (("unix:s4d", Address("unix", "s4d")), ("unix:/run/a:1", Address("unix", "/run/a:1")),
                              ("/run/s4d", Address("unix", "/run/s4d")), ("tls:host:1", Address("tls", "", "host", 1)),
                              ("tls:[::1]:22", Address("tls", "", "::1", 22)), ("host:1", Address("tcp", "", "host", 1))):
            with self.subTest(text):
                self.assertEqual(address_of(text), address)
        for text in ("unix:", "tls:host", "tls::1", "host", "host:", ":1"):
            with self.subTest(text), self.assertRaises(ValueError):
                address_of(text)

    def test_nobody_is_there(self):
        with tempfile.TemporaryDirectory() as folder, self.assertRaises(FileNotFoundError):
            s4d.Drive.connect(f"unix:{folder}/s4d")


class LostReplies(Served):
    def check_lost(self, caught, why="(the stream ended|the reply could not be read|the request could not be sent)"):
        self.assertRegex(str(caught.exception), rf"^append of object 1: {why}")
        self.assertEqual((caught.exception.request, caught.exception.object, caught.exception.at), ("append", 1, None))

    def test_an_end_before_the_reply(self):
        server = self.server(most=1)
        with s4d.Drive.connect(self.address, PATIENCE, retry=s4d.Retry()) as it:
            it.create()
            with self.assertRaises(s4d.ReplyLost) as caught:
                it.append(1, b"x")
            self.check_lost(caught, "the stream ended before the reply")
            with self.assertRaises(s4d.Disconnected) as caught:
                it.append(1, b"x")
            self.assertNotIsInstance(caught.exception, s4d.ReplyLost)  # nothing was sent
        self.assertEqual(len(server.asked), 2)

    def test_a_timeout(self):
        server = self.server(most=1, end="silence")
        with s4d.Drive.connect(self.address, 0.3) as it:
            with contextlib.suppress(s4d.ReplyLost):  # on a very slow machine
                it.create()
            with self.assertRaises(s4d.Disconnected):
                it.append(1, b"x")
        self.assertLessEqual(len(server.asked), 2)

    def test_a_pipeline(self):
        self.server(most=2)
        with s4d.Drive.connect(self.address, PATIENCE) as it:
            batch = it.pipeline()
            replies = [batch.create(), batch.append(1, b"x"), batch.append(1, b"y"), batch.append(1, b"z")]
            with self.assertRaises(s4d.ReplyLost) as caught:
                batch.run()
            self.check_lost(caught)
            self.assertEqual((replies[0].result(), replies[1].result()), (Created(1, 1), 2))
            for reply in replies[2:]:
                with self.assertRaises(s4d.ReplyLost):
                    reply.result()
            later = batch.append(1, b"x")
            with self.assertRaises(s4d.Disconnected) as caught:
                batch.run()
            self.assertNotIsInstance(caught.exception, s4d.ReplyLost)
            with self.assertRaises(s4d.Disconnected) as caught:
                later.result()
            self.assertNotIsInstance(caught.exception, s4d.ReplyLost)


class Together(Served):
    """A large write, whose pieces are asked before the first of them is answered."""

    def serve(self, count, replies, more=()):
        """Takes as many requests before it answers any, and then one for each reply of `more`; what came is in `asked`."""
        self.asked = []

        def run():
            link, _ = self.listener.accept()
            with link, contextlib.suppress(EOFError):
                self.take(link, count)
                link.sendall(b"".join(map(frame, replies)))
                for reply in more:
                    self.take(link, 1)
                    link.sendall(frame(reply))
                self.take(link, 1)

        thread = threading.Thread(target=run, daemon=True)
        thread.start()
        self.addCleanup(thread.join, PATIENCE)
        return thread

    def take(self, link, count):
        for _ in range(count):
            self.asked.append(Server.taken(link, int.from_bytes(Server.taken(link, 4), "big")))

    def write(self, data, is_async, **how):
        async def session():
            async with await s4d.AsyncDrive.connect(self.address, PATIENCE, **how) as it:
                return await it.write_pieces(1, 5, data)

        if is_async:
            return asyncio.run(session())
        with s4d.Drive.connect(self.address, PATIENCE, **how) as it:
            return it.write_pieces(1, 5, data)

    @staticmethod
    def changed(moment):
        return b"\1" + moment.to_bytes(8, "big")

    def test_pieces_are_asked_together_and_in_order(self):
        data = bytes(range(256)) * 350
        for is_async in (False, True):
            with self.subTest(is_async=is_async):
                thread = self.serve(4, [self.changed(moment) for moment in (4, 5, 6, 9)])
                self.assertEqual(self.write(data, is_async), [4, 5, 6, 9])
                thread.join(PATIENCE)
                self.assertEqual(self.asked, [wire.write(1, 5 + at, data[at:at + 24_576]).body for at in range(0, len(data), 24_576)])

    def test_no_more_than_eight_at_once(self):
        for is_async in (False, True):
            with self.subTest(is_async=is_async):
                thread = self.serve(8, [self.changed(1), *[b"\0\6"] * 7])
                with self.assertRaisesRegex(s4d.TooLarge, "write of object 1"):
                    self.write(bytes(10 * 24_576), is_async)
                thread.join(PATIENCE)
                self.assertEqual(len(self.asked), 8)

    def test_a_piece_that_is_refused(self):
        """The first refusal is raised. One that passes is asked again, where that is wanted."""
        data, full = bytes(3 * 24_576), [self.changed(1), b"\0\x09", b"\0\6"]
        for is_async in (False, True):
            with self.subTest(is_async=is_async):
                self.serve(3, full)
                with self.assertRaises(s4d.NoSpace):
                    self.write(data, is_async)
                thread = self.serve(3, [self.changed(1), b"\0\x09", self.changed(2)], [b"\0\x0e", self.changed(3)])
                self.assertEqual(self.write(data, is_async, retry=s4d.Retry(wait=0)), [1, 3, 2])
                thread.join(PATIENCE)
                self.assertEqual(self.asked[3:], [self.asked[1]] * 2)
                self.serve(3, [self.changed(1), b"\0\x09", self.changed(2)], [b"\0\x09"])
                with self.assertRaises(s4d.NoSpace):
                    self.write(data, is_async, retry=s4d.Retry(times=1, wait=0))


    def test_a_refusal_before_a_loss(self):
        """What failed first is raised."""
        for is_async in (False, True):
            for replies, kind in (([self.changed(1), b"\0\x09"], s4d.NoSpace), ([self.changed(1)], s4d.ReplyLost)):
                with self.subTest(is_async=is_async, kind=kind.__name__):
                    thread = threading.Thread(target=self.answer_and_end, args=(3, replies))
                    thread.start()
                    with self.assertRaises(kind):
                        self.write(bytes(3 * 24_576), is_async)
                    thread.join(PATIENCE)

    def answer_and_end(self, count, replies):
        self.asked = []
        link, _ = self.listener.accept()
        with link:
            self.take(link, count)
            link.sendall(b"".join(map(frame, replies)))


class Tasks(Served):
    """AsyncDrive."""

    def run_with(self, use, timeout=PATIENCE, **how):
        async def session():
            async with await s4d.AsyncDrive.connect(self.address, timeout, **how) as it:
                await use(it)

        asyncio.run(session())

    def test_each_request(self):
        self.server()

        async def use(it):
            self.assertEqual((await it.create(b"note"), await it.write(1, 2, b"abc"), await it.append(1, b"de")), (Created(1, 1), 2, 3))
            self.assertEqual((await it.truncate(1, 4), await it.set_attribute(1, b"x")), (4, 5))
            self.assertEqual((await it.read(1), await it.read(1, 1, 2), await it.at(3).read(1)), (b"\0\0ab", b"\0a", b"\0\0abcde"))
            self.assertEqual((await it.attributes(1), await it.at(1).attributes(1)),
                             (s4d.Attributes(4, 1, 5, b"x"), s4d.Attributes(0, 1, 1, b"note")))
            self.assertEqual((await it.flush(2, 2), await it.flush_object(1, 3, 3), await it.set_window(50)), (6, 7, 8))
            with self.assertRaisesRegex(s4d.Flushed, "read of object 1 at moment 2"):
                await it.at(2).read(1)
            self.assertEqual(await it.delete(1), 9)
            self.assertEqual([row.moment async for row in it.audit(5)], [5, 6, 7, 8, 9])

        self.run_with(use)

    def test_large_objects_and_pages(self):
        self.server()
        whole = bytes(range(256)) * 300

        async def use(it):
            await it.create()
            self.assertEqual(await it.write_pieces(1, 0, whole), [2, 3, 4, 5])
            self.assertEqual((await it.read(1), await it.read(1, 5), await it.at(2).read(1)), (whole, whole[5:], whole[:24_576]))
            await asyncio.gather(*(it.append(1, b"x") for _ in range(600)))
            self.assertEqual([row.moment async for row in it.audit()], list(range(1, 606)))

        self.run_with(use)

    def check_history(self, number, wanted):
        """Both kinds of sessions find these spans."""

        async def use(it):
            self.assertEqual(await it.history(number), wanted)

        self.run_with(use)
        with s4d.Drive.connect(self.address, PATIENCE) as it:
            self.assertEqual(it.history(number), wanted)

    def test_histories_in_which_moments_are_times(self):
        """An hour and more is between changes, and some of it is hidden."""
        drive, hour = self.server().drive, 3_600_000_000
        drive.window = 100 * hour
        moments = []
        with s4d.Drive.connect(self.address, PATIENCE) as it:
            for number, change in enumerate((lambda: it.create(b"a").moment, lambda: it.append(1, b"one"), lambda: it.append(1, b"two"),
                                             lambda: it.create().moment, lambda: it.truncate(1, 4), lambda: it.delete(1)), 1):
                drive.clock = 10**15 + number * hour
                moments.append(change())
            made, one, two, other, cut, gone = moments
            drive.clock += 3 * hour
            last = it.flush_object(1, two + 5, cut - 1)
            live = [s4d.Span(s4d.Kind.LIVE, made, one - 1, 0, b"a"), s4d.Span(s4d.Kind.LIVE, one, two - 1, 3, b"a"),
                    s4d.Span(s4d.Kind.LIVE, two, two + 4, 6, b"a"), s4d.Span(s4d.Kind.HIDDEN, two + 5, cut - 1),
                    s4d.Span(s4d.Kind.LIVE, cut, gone - 1, 4, b"a")]
            self.check_history(1, [*live, s4d.Span(s4d.Kind.GONE, gone, last)])
            self.check_history(2, [s4d.Span(s4d.Kind.LIVE, other, last)])
            self.check_history(7, [])
            last = it.flush(gone - 2, gone + 3)
            live[-1] = live[-1]._replace(last=gone - 3)
            ended = [s4d.Span(s4d.Kind.HIDDEN, gone - 2, gone + 3), s4d.Span(s4d.Kind.GONE, gone + 4, last)]
            self.check_history(1, live + ended)
            drive.floor = one + 9
            live[0] = s4d.Span(s4d.Kind.EXPIRED, made, one - 1)
            self.check_history(1, live + ended)

    def test_a_version_takes_a_request(self):
        """Whether moments are numbers, times at which the clock stands still, or times with which it goes on."""
        server = self.server()
        for clock, goes_on, most in ((0, 0, 4), (10**15, 0, 4), (10**15, 10**18, 5), (0, 1_000, 24), (10**15, 3_600_000_000, 60)):
            with self.subTest(clock=clock, goes_on=goes_on):
                drive = server.drive = PlainDrive(10**18)
                drive.clock = clock
                with s4d.Drive.connect(self.address, PATIENCE) as it:
                    moments = [it.create().moment, it.append(1, b"x"), it.append(1, b"y")]
                    drive.clock += goes_on
                    server.asked.clear()
                    spans = it.history(1)
                self.assertEqual([span.first for span in spans], moments)
                self.assertEqual([span.last for span in spans[:2]], [moments[1] - 1, moments[2] - 1])
                self.assertLessEqual(len(server.asked), most)
                self.assertEqual(spans[-1].last == drive.clock, goes_on < 10**18)
                self.assertLessEqual(moments[2], spans[-1].last)
                self.assertLessEqual(spans[-1].last, drive.clock)

    def test_what_was_deleted_after_this_machines_time(self):
        """As where the clock of the drive's machine is ahead."""
        drive = self.server().drive
        drive.clock, drive.window = machine_time() - 10**6, 10**18
        with s4d.Drive.connect(self.address, PATIENCE) as it:
            made = it.create().moment
            drive.clock += 10**10
            gone = it.delete(1)
            self.assertEqual(it.history(1), [s4d.Span(s4d.Kind.LIVE, made, gone - 1), s4d.Span(s4d.Kind.GONE, gone, gone)])

    def test_many_tasks(self):
        self.server()

        async def life(it, number):
            made = (await it.create(b"%d" % number)).object
            for count in range(1, 4):
                await it.append(made, b"%d" % number)
                self.assertEqual(await it.read(made), b"%d" % number * count)
            with self.assertRaises(s4d.NoObject):
                await it.read(10_000 + number)

        async def use(it):
            await asyncio.gather(*(life(it, number) for number in range(50)))

        self.run_with(use)

    def test_a_task_that_is_cancelled(self):
        server = self.server()

        async def use(it):
            await it.create()
            with server.lock:
                task = asyncio.ensure_future(it.append(1, b"x"))
                await asyncio.sleep(0.05)
                task.cancel()
                with self.assertRaises(asyncio.CancelledError):
                    await task
            self.assertEqual(await it.read(1), b"x")  # the next reply is its own

        self.run_with(use)

    def test_replies_that_are_lost(self):
        server = self.server(most=1)

        async def use(it):
            await it.create()
            found = await asyncio.gather(*(it.append(1, b"x") for _ in range(3)), return_exceptions=True)
            self.assertEqual([type(error) for error in found], [s4d.ReplyLost] * 3)
            self.assertRegex(str(found[0]), "^append of object 1: (the stream ended|the reply could not be read|the request could not be)")
            with self.assertRaisesRegex(s4d.Disconnected, "the session has ended") as caught:
                await it.append(1, b"x")
            self.assertNotIsInstance(caught.exception, s4d.ReplyLost)

        self.run_with(use, retry=s4d.Retry())
        self.assertLessEqual(len(server.asked), 4)

    def test_a_timeout(self):
        self.server(most=0, end="silence")

        async def use(it):
            found = await asyncio.gather(it.create(), it.create(), return_exceptions=True)
            for error in found:
                self.assertRegex(str(error), "^create: timed out after 0.3 seconds$")
                self.assertIsInstance(error, s4d.ReplyLost)

        start = time.monotonic()
        self.run_with(use, 0.3)
        self.assertLess(time.monotonic() - start, PATIENCE)

    def test_a_session_that_is_closed(self):
        self.server(most=0, end="silence")

        async def use(it):
            task = asyncio.ensure_future(it.create())
            await asyncio.sleep(0.05)
            await it.close()
            with self.assertRaisesRegex(s4d.ReplyLost, "create: the session was closed"):
                await task

        self.run_with(use)

    def test_what_passes_is_asked_again(self):
        asked = wire.delete(1).frame()

        async def answer(link):
            for reply in (b"\0\x0e", b"\0\x09", b"\1" + bytes(7) + b"\5"):
                self.assertEqual(await asyncio.get_running_loop().sock_recv(link, 1_000), asked)
                link.sendall(frame(reply))

        async def session():
            ours, theirs = socket.socketpair()
            with ours, theirs:
                theirs.setblocking(False)
                reader, writer = await asyncio.open_unix_connection(sock=ours)
                answering = asyncio.ensure_future(answer(theirs))
                async with s4d.AsyncDrive(reader, writer, retry=s4d.Retry(wait=0)) as it:
                    self.assertEqual(await it.delete(1), 5)
                await answering

        asyncio.run(session())

    def test_what_is_no_reply(self):
        async def session(bytes_sent):
            ours, theirs = socket.socketpair()
            with ours, theirs:
                reader, writer = await asyncio.open_unix_connection(sock=ours)
                it = s4d.AsyncDrive(reader, writer, PATIENCE)
                task = asyncio.ensure_future(it.delete(1))
                await asyncio.sleep(0)
                theirs.sendall(bytes_sent)
                with self.assertRaises((s4d.ReplyLost, s4d.BadReply)):
                    await task
                with self.assertRaises(s4d.Disconnected):
                    await it.delete(1)
                await it.close()

        for wrong in (b"\0\0\0\0", b"\0\0\x60\2\3", frame(b"\0\x10"), frame(b"\5"), b"\xff\xff\xff\xff"):
            with self.subTest(wrong):
                asyncio.run(session(wrong))


@needs_openssl
class Encrypted(unittest.TestCase):
    @classmethod
    def setUpClass(cls):
        folder = tempfile.TemporaryDirectory()
        cls.addClassCleanup(folder.cleanup)
        certificates = Certificates(pathlib.Path(folder.name))
        cls.server_side, cls.tls = certificates.make("server"), certificates.make("client")

    def setUp(self):
        context = ssl.SSLContext(ssl.PROTOCOL_TLS_SERVER)
        context.load_cert_chain(self.server_side.cert, self.server_side.key)
        context.load_verify_locations(self.server_side.ca)
        context.verify_mode = ssl.CERT_REQUIRED
        listener = socket.create_server(("127.0.0.1", 0))
        self.addCleanup(listener.close)
        self.server = Server(listener, context)
        self.port = listener.getsockname()[1]

    def test_a_session(self):
        with s4d.Drive.connect(f"tls:127.0.0.1:{self.port}", PATIENCE, tls=self.tls) as it:
            it.create()
            it.truncate(1, 24_576)
            self.assertEqual(it.read(1), bytes(24_576))

    def test_more_than_all_buffers_hold(self):
        """Requests are written while replies are read: the server takes none while its replies aren't."""
        with s4d.Drive.connect(f"tls:127.0.0.1:{self.port}", PATIENCE, tls=self.tls) as it:
            it.create()
            it.truncate(1, 24_576)
            with it.pipeline() as batch:
                replies = [reply for _ in range(150) for reply in (batch.read(1), batch.append(9, b"x" * 30_000))]
            self.assertEqual(sum(len(reply.result()) for reply in replies[::2]), 150 * 24_576)
            self.assertTrue(all(reply.refusal() for reply in replies[1::2]))

    def test_tasks(self):
        async def session():
            async with await s4d.AsyncDrive.connect(f"tls:127.0.0.1:{self.port}", PATIENCE, tls=self.tls) as it:
                await it.create()
                await it.truncate(1, 24_576)
                found = await asyncio.gather(*(it.read(1) for _ in range(20)))
                self.assertEqual(set(map(len, found)), {24_576})

        asyncio.run(session())

    def test_a_server_that_is_not_the_one(self):
        for tls in (s4d.Tls(), s4d.Tls(cert=self.tls.cert, key=self.tls.key)):
            with self.assertRaises(ssl.SSLCertVerificationError):
                s4d.Drive.connect(f"tls:127.0.0.1:{self.port}", PATIENCE, tls=tls)
        with self.assertRaises(ssl.SSLCertVerificationError):
            s4d.Drive.connect(f"tls:localhost:{self.port}", PATIENCE, tls=self.tls)  # another name than the certificate's
        self.assertEqual(self.server.asked, [])

    def test_no_certificate(self):
        with self.assertRaises((s4d.NotAsked, OSError)):
            with s4d.Drive.connect(f"tls:127.0.0.1:{self.port}", PATIENCE, tls=s4d.Tls(self.tls.ca)) as it:
                it.create()
        self.assertEqual(self.server.asked, [])


if __name__ == "__main__":
    unittest.main()
