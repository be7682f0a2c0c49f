"""What one peer may use: shares, buckets, turns and seats, and lines of the log that one peer fills."""
import asyncio
import contextlib
import io
import json
import pathlib
import tempfile
import unittest
from unittest import mock

from s4d import bridge, pace
from s4d.access_log import AccessLog
from s4d.doors import Seats, TurnedAway
from s4d.metrics import of_peers, text_of
from s4d.pace import MOST_PEERS, OTHERS, Bucket, Overdue, Pace, Share, share_of
from s4d.refused import MOST_SOURCES, Refusals


async def settle():
    """Rounds of the loop, of which each step takes one or two."""
    for _ in range(10):
        await asyncio.sleep(0)


class Shares(unittest.TestCase):
    def test_shares(self):
        for text, share in (("sessions=3", Share(3)), ("changes=50/s", Share(None, 50)), ("changes=30/min", Share(None, 0.5)),
                            ("bytes=1MiB/min,sessions=12,changes=50/s", Share(12, 50, 1_048_576 / 60)),
                            ("bytes=4KiB/s", Share(None, None, 4_096)), ("bytes=60/min", Share(None, None, 1))):
            with self.subTest(text):
                self.assertEqual(share_of(text), share)

    def test_by_default_one_peer_leaves_seats(self):
        self.assertEqual([Share().sessions_of(seats) for seats in (1, 2, 3, 4, 16)], [1, 1, 2, 3, 12])
        self.assertEqual(Share(16).sessions_of(16), 16)

    def test_what_is_no_share(self):
        form = "is no sessions=N, changes=N/s or bytes=N/min, as sessions=12,changes=50/s,bytes=1MiB/min"
        for text, why in (("", f"'' {form}"), ("sessions=0", f"'sessions=0' {form}"), ("changes=50", f"'changes=50' {form}"),
                          ("changes=0/s", f"'changes=0/s' {form}"), ("bytes=1GB/s", f"'bytes=1GB/s' {form}"),
                          ("sessions=1,", f"'' {form}"), ("sessions=1,changes=1/h", f"'changes=1/h' {form}"),
                          ("reads=1/s", f"'reads=1/s' {form}"), ("bytes=1/s,bytes=1/s", "bytes is given twice")):
            with self.subTest(text):
                said = io.StringIO()
                with contextlib.redirect_stderr(said), self.assertRaises(SystemExit) as end:
                    bridge.main(["--doors", "doors", "--unix", "client=s", "--share", text])
                self.assertEqual((end.exception.code, said.getvalue()),
                                 (2, f"s4d.bridge: argument --share: {why}; --help lists the options\n"))


class Buckets(unittest.TestCase):
    def test_it_holds_a_minute_and_fills_at_its_rate(self):
        bucket = Bucket(2, 100)
        self.assertEqual(bucket.seconds_until(120, 100), 0)
        bucket.take(120)
        self.assertEqual(bucket.seconds_until(1, 100), 0.5)
        self.assertEqual(bucket.seconds_until(1, 100.5), 0)
        bucket.take(1)
        self.assertEqual(bucket.seconds_until(1, 1_000), 0)
        bucket.take(120)  # no more than a minute's, however long nothing was taken
        self.assertEqual(bucket.seconds_until(1, 1_000), 0.5)

    def test_what_is_more_than_it_holds_is_owed(self):
        bucket = Bucket(1, 0)
        self.assertEqual(bucket.seconds_until(600, 0), 0)
        bucket.take(600)
        self.assertEqual(bucket.seconds_until(1, 0), 541)


class Timeless(asyncio.SelectorEventLoop):
    """A loop whose time goes on only where all wait: then it is at once as late as they wait. So no test waits, nor is it a matter of
    the machine's speed what comes first.
    """

    def __init__(self):
        super().__init__()
        self._now, self._select = 0.0, self._selector.select
        self._selector.select = self._wait

    def time(self):
        return self._now

    def _wait(self, seconds):
        self._now += seconds or 0.0
        return self._select(0 if seconds is not None else None)


def run_timeless(work):
    loop = Timeless()
    try:
        loop.run_until_complete(work)
    finally:
        loop.close()


class Asking:
    """Requests of peers, in the order in which they were passed on."""

    def __init__(self, share, seconds=60.0):
        self.pace, self.passed, self.tasks, self.answers = Pace(share, seconds), [], [], True

    def come(self, who, role="client"):
        peer = self.pace.enter(role, who, role != "admin")
        self.pace.begin(peer)
        return peer

    def ask(self, peer, is_change=True, size=100, name=None):
        """A request by a session of its own."""
        self.tasks.append(asyncio.ensure_future(self._ask(peer, is_change, size, name)))
        return self.tasks[-1]

    async def _ask(self, peer, is_change, size, name):
        try:
            await self.pace.pass_on(peer, is_change, size)
            self.passed.append(name or peer.who)
            if self.answers:
                self.pace.answered(peer)
        except Overdue:
            self.passed.append("overdue")

    async def end(self):
        for task in self.tasks:
            task.cancel()
        await asyncio.gather(*self.tasks, return_exceptions=True)


def with_asking(trial, *how):
    async def run():
        asking = Asking(*how)
        try:
            await trial(asking)
        finally:
            await asking.end()

    run_timeless(run())


class Tokens(unittest.TestCase):
    def test_who_has_none_waits_and_others_do_not(self):
        async def trial(it):
            first, second, admin = it.come("first"), it.come("second"), it.come("root", "admin")
            for _ in range(70):
                it.ask(first)
                it.ask(admin)
            await settle()
            while it.passed.count("root") < 70:
                await asyncio.sleep(0)
            self.assertEqual(it.passed.count("first"), 60)
            it.ask(second)
            it.ask(first, is_change=False, name="a read")
            await settle()
            self.assertEqual(it.passed[-2:], ["second", "a read"])
            self.assertEqual(it.passed.count("first"), 60)

        with_asking(trial, Share(changes=1))

    def test_bytes(self):
        async def trial(it):
            peer = it.come("first")
            for size in (300, 301, 1):  # who comes later doesn't overtake
                it.ask(peer, size=size)
            await settle()
            self.assertEqual(it.passed, ["first"])
            self.assertEqual((peer.used().changes, peer.used().bytes), (1, 300))

        with_asking(trial, Share(bytes=10))

    def test_they_come_at_the_rate(self):
        async def trial(it):
            peer, loop = it.come("first"), asyncio.get_running_loop()
            began = loop.time()
            tasks = [it.ask(peer) for _ in range(610)]
            await asyncio.wait(tasks)
            self.assertAlmostEqual(loop.time() - began, 1)
            self.assertEqual(it.passed.count("first"), 610)
            self.assertGreater(peer.used().waited, 0.1)

        with_asking(trial, Share(changes=10))

    def test_who_waits_too_long(self):
        async def trial(it):
            peer = it.come("first")
            tasks = [it.ask(peer) for _ in range(62)]
            await asyncio.wait(tasks)
            self.assertEqual(it.passed, ["first"] * 60 + ["overdue"] * 2)
            self.assertEqual(peer.used().changes, 60)

        with_asking(trial, Share(changes=1), 0.05)

    def test_who_ends_while_waiting_takes_none(self):
        async def trial(it):
            peer = it.come("first")
            for _ in range(120):
                it.ask(peer)
            await settle()
            it.ask(peer, name="gone").cancel()
            gone = it.ask(peer, name="gone")
            await settle()
            gone.cancel()
            it.ask(peer, name="last")
            while "last" not in it.passed:
                await asyncio.sleep(0.05)
            self.assertEqual((it.passed.count("first"), it.passed.count("gone")), (120, 0))
            self.assertEqual(peer.used().changes, 121)

        with_asking(trial, Share(changes=2))


class Turns(unittest.TestCase):
    def test_peers_take_turns_however_many_sessions_ask(self):
        async def trial(it):
            many, one, admin = it.come("many"), it.come("one"), it.come("root", "admin")
            for _ in range(500):
                it.ask(many, is_change=False)
            await asyncio.sleep(0)
            for _ in range(20):
                it.ask(one)
                it.ask(admin)
            while it.passed.count("one") < 20:
                await asyncio.sleep(0)
            self.assertLess(it.passed.count("many"), 40)
            self.assertGreaterEqual(it.passed.count("root"), 16)

        with_asking(trial, Share())

    def test_one_alone_does_not_wait(self):
        async def trial(it):
            peer = it.come("many")
            for _ in range(500):
                it.ask(peer)
            await asyncio.sleep(0)
            self.assertEqual(len(it.passed), 500)
            other = it.come("other")
            it.pace.end(other)
            it.pace.leave(other)
            it.ask(peer)
            await asyncio.sleep(0)
            self.assertEqual(len(it.passed), 501)

        with_asking(trial, Share())

    def test_many_sessions_have_little_more_of_the_service(self):
        """While another asks; and where replies don't come, requests aren't held back for ever."""
        async def trial(it):
            many, crowd, one = it.come("many"), it.come("crowd"), it.come("one")
            for peer in [many] * 11 + [crowd] * 11:
                it.pace.begin(peer)
            it.answers = False
            it.ask(one)
            await settle()
            for _ in range(12):
                it.ask(many)
                it.ask(crowd)
            await settle()
            self.assertEqual([it.passed.count(name) for name in ("many", "crowd")], [2, 2])
            it.pace.answered(many)
            await settle()
            self.assertEqual([it.passed.count(name) for name in ("many", "crowd")], [3, 2])
            it.ask(one)
            await settle()
            self.assertEqual(it.passed.count("one"), 2)
            await asyncio.sleep(2 * pace.STALLED_SECONDS)
            self.assertEqual([it.passed.count(name) for name in ("many", "crowd")], [12, 12])

        with_asking(trial, Share())

    def test_who_asks_no_more_holds_nobody_back(self):
        async def trial(it):
            many, one = it.come("many"), it.come("one")
            it.ask(one)
            await asyncio.sleep(2 * pace.ASKING_SECONDS)
            it.answers = False
            for _ in range(12):
                it.ask(many)
            await settle()
            self.assertEqual(it.passed.count("many"), 12)

        with_asking(trial, Share())


class Remembered(unittest.TestCase):
    def test_peers_are_few(self):
        async def trial(it):
            stays = it.come("stays")
            it.ask(stays)
            for number in range(3 * MOST_PEERS):
                peer = it.come(f"uid {number}")
                it.ask(peer)
                await settle()
                it.pace.end(peer)
                it.pace.leave(peer)
            used = it.pace.used()
            self.assertLessEqual(len(used), MOST_PEERS + 1)
            self.assertEqual(sum(each.changes for each in used), 3 * MOST_PEERS + 1)
            self.assertEqual([each.peer for each in used if each.sessions], ["stays"])
            self.assertEqual(used[-1].peer, OTHERS)
            for number in range(10_000):
                it.pace.leave(it.pace.enter("client", f"name {number}", True))
            used = it.pace.used()
            self.assertEqual((len(used), text_of(of_peers(used)).count("\n")), (MOST_PEERS + 1, 4 * (MOST_PEERS + 3)))
            self.assertEqual(sum(each.changes for each in used), 3 * MOST_PEERS + 1)
            self.assertIs(it.pace.enter("client", "stays", True), stays)
            self.assertIsNot(it.pace.enter("other", "stays", True), stays)

        with_asking(trial, Share(changes=1))

    def test_who_comes_back_has_no_more_tokens(self):
        async def trial(it):
            for wanted in (60, 0, 0):
                it.passed.clear()
                peer = it.come("first")
                for _ in range(61):
                    it.ask(peer)
                await settle()
                self.assertLessEqual(abs(it.passed.count("first") - wanted), 1)
                await it.end()
                it.pace.end(peer)
                it.pace.leave(peer)

        with_asking(trial, Share(changes=1))


class Sitting:
    """Who came for a seat, and what became of each: `sits`, or why it was turned away."""

    def __init__(self, *how):
        self.seats, self.became, self.tasks = Seats(*how), {}, {}

    async def come(self, peer, number):
        self.tasks[peer, number] = asyncio.ensure_future(self._come(peer, number))
        await settle()

    async def _come(self, peer, number):
        try:
            await self.seats.take(peer, lambda: None)
            self.became[peer, number] = "sits"
        except TurnedAway as turned:
            self.became[peer, number] = turned.why

    def sitting(self, peer):
        return sum(what == "sits" for (who, _), what in self.became.items() if who == peer)


class SeatsOfPeers(unittest.TestCase):
    def run_with(self, trial, *how):
        async def run():
            sitting = Sitting(*how)
            try:
                await trial(sitting)
            finally:
                for task in sitting.tasks.values():
                    task.cancel()
                await asyncio.gather(*sitting.tasks.values(), return_exceptions=True)

        run_timeless(run())

    def test_no_peer_takes_more_than_its_own(self):
        async def trial(it):
            for number in range(30):
                await it.come("many", number)
            self.assertEqual(it.sitting("many"), 12)
            for number in range(4):
                await it.come("few", number)
            self.assertEqual(it.sitting("few"), 4)
            await it.come("few", 4)  # behind many that wait
            for _ in range(2):
                it.seats.leave("few")
                await settle()
            self.assertEqual((it.sitting("many"), it.sitting("few")), (12, 5))
            it.seats.leave("many")
            await settle()
            self.assertEqual(it.sitting("many"), 13)  # of which one has left
            self.assertEqual(it.became["many", 12], "sits")  # who came first

        self.run_with(trial, 16, 64, 60.0, 12)

    def test_no_peer_fills_the_queue(self):
        async def trial(it):
            for number in range(20):
                await it.come("many", number)
            self.assertEqual([it.became.get(("many", number)) for number in (2, 9, 10, 19)], [None, None, "queue full", "queue full"])
            await it.come("few", 0)
            await it.come("few", 1)
            await it.come("few", 2)  # it sits with two, so it waits, and who came last of many goes
            self.assertEqual((it.sitting("few"), it.became["many", 9], it.became.get(("many", 8))), (2, "queue full", None))
            for number in range(3, 20):
                await it.come("few", number)
            self.assertEqual(sum(what == "queue full" for (who, _), what in it.became.items() if who == "few"), 17 - 3)
            self.assertEqual(it.seats.waiting, 8)

        self.run_with(trial, 4, 8, 60.0, 2)

    def test_whose_end_would_help(self):
        async def trial(it):
            for number in range(5):
                await it.come("many", number)
            await it.come("few", 0)
            self.assertEqual(it.seats.worth_ending(["few", "many", "many", "many", "many"]), [False, True, True, False, False])
            await it.come("third", 0)  # which sits nowhere
            self.assertEqual(it.seats.worth_ending(["few", "many"]), [True, True])
            self.assertEqual(it.seats.worth_ending([]), [])

        self.run_with(trial, 4, 8, 60.0, 3)


class Lines(unittest.TestCase):
    def setUp(self):
        folder = tempfile.TemporaryDirectory()
        self.addCleanup(folder.cleanup)
        self.folder = pathlib.Path(folder.name)
        self.path = self.folder / "access.log"

    def lines(self, path=None):
        return [json.loads(line) for line in (path or self.path).read_bytes().splitlines()]

    def test_refusals_of_a_peer_are_counted(self):
        async def trial():
            log = AccessLog(str(self.path))
            refusals = Refusals(log)
            for number in range(100_000):
                refusals.note("refused", "client", "uid 7", "NoSpace" if number % 4 else "BadFrame", {"number": number})
            refusals.note("refused", "client", "name alice", "NoSpace", {"alice": 1})
            refusals.note("turned away", "client", "uid 7", "queue full", {"away": 1})
            await log.settle()
            self.assertEqual([set(line) - {"time"} for line in self.lines()], [{"number"}, {"alice"}, {"away"}])
            for source in list(refusals._counted):  # the second of each is over
                refusals._say(source)
            await log.settle()
            (line,) = self.lines()[3:]
            self.assertEqual((line["event"], line["role"], line["peer"]), ("refused", "client", {"uid": 7}))
            self.assertEqual(line["more"], {"BadFrame": 24_999, "NoSpace": 75_000})
            refusals.note("refused", "client", "uid 7", "NoSpace", {})  # still in the second after that line
            refusals.note("refused", "client", "name alice", "NoSpace", {"alice": 2})
            refusals.close()
            log.close()
            self.assertEqual([line.get("more", line.get("alice")) for line in self.lines()[4:]], [2, {"NoSpace": 1}])

        with mock.patch("s4d.refused.QUIET_SECONDS", 60):
            asyncio.run(trial())

    def test_a_second_is_over_by_itself(self):
        async def trial():
            log = AccessLog(str(self.path))
            refusals = Refusals(log)
            for _ in range(3):
                refusals.note("refused", "client", "uid 7", "NoSpace", {})
            while refusals._counted:
                await asyncio.sleep(0.01)
            log.close()

        with mock.patch("s4d.refused.QUIET_SECONDS", 0.05):
            asyncio.run(trial())
        self.assertEqual([line.get("more") for line in self.lines()], [None, {"NoSpace": 2}])

    def test_refusals_of_many_peers(self):
        """Lines and memory don't grow with how many come, as by ever new addresses."""
        async def trial():
            log = AccessLog(str(self.path))
            refusals = Refusals(log)
            for number in range(10_000):
                for event in ("refused", "turned away"):
                    refusals.note(event, "client", f"uid {number}", "NoSpace", {"peer": {"uid": number}})
            self.assertEqual(len(refusals._counted), MOST_SOURCES + 2)
            refusals.note("refused", "client", "uid 3", "NoSpace", {})
            refusals.close()
            log.close()

        asyncio.run(trial())
        lines = self.lines()
        self.assertEqual([line["peer"]["uid"] for line in lines[:MOST_SOURCES + 2]], [it // 2 for it in range(MOST_SOURCES + 2)])
        rest = 10_000 - MOST_SOURCES // 2 - 1
        self.assertEqual([(line.get("peer"), line["more"]) for line in lines[MOST_SOURCES + 2:]],
                         [({"uid": 3}, {"NoSpace": 1}), (None, {"NoSpace": rest}), (None, {"NoSpace": rest})])


class Words(unittest.TestCase):
    def test_a_size(self):
        said = io.StringIO()
        with contextlib.redirect_stderr(said), self.assertRaises(SystemExit):
            bridge.main(["--doors", "doors", "--unix", "client=s", "--log-size", "1GB"])
        self.assertEqual(said.getvalue(), "s4d.bridge: argument --log-size: '1GB' is no size, as 32MiB; --help lists the options\n")

    def test_bounds(self):
        self.assertLessEqual(pace.REQUESTS_A_TURN, 4)  # else who asks one by one waits long


if __name__ == "__main__":
    unittest.main()
