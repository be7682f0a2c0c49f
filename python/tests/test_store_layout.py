"""What a store's objects hold, its names, and the order of its lists: functions that ask no drive."""
import unittest

from s4d.store import layout
from s4d.store.index import Bucket, Entry, Index, Place
from s4d.store.layout import BadHead, Piece, TooLong, Version
from s4d.store.listing import after_prefix, keys_page, versions_page
from s4d.store.names import is_bucket_name, is_key
from s4d.store.settings import Settings, StoreFault, microseconds, settings_of


def version(**changed):
    return Version("photos", "a/ü", 3, "0f", 1_700, 5, "d41d", False, {"content-type": "text/plain"}, b"mills")._replace(**changed)


class Counted(list):
    """A list that counts how often somebody looks at one of its members."""

    looks = 0

    def __getitem__(self, place):
        Counted.looks += 1
        return super().__getitem__(place)


class Layout(unittest.TestCase):
    def test_attributes(self):
        self.assertEqual(layout.bucket_attribute("photos"), b"Bphotos")
        self.assertEqual(layout.mark_attribute("0f" * 8, 12), b"S0f0f0f0f0f0f0f0f/12")
        self.assertEqual(layout.head_attribute("photos", "a/ü"), b"HMr_cVBp4RIM1JOLayajspfyR1e-lTR-NyjGnU57UgMQ")
        self.assertEqual(layout.piece_attribute("one", "two"), b"PoO9wxDRC1ASx7QBLZkk0hjPdow4v-sVHwpordTq6-ok")
        self.assertEqual({len(layout.piece_attribute("b" * 63, "k" * length)) for length in (1, 1_024)}, {44})
        self.assertNotEqual(layout.hash_of("ab", "c"), layout.hash_of("a", "bc"))

    def test_heads(self):
        pieces = (Piece(1, 2**63, 2**64 - 1, 98_304), Piece(0, 7, 8, 1))
        for it in (version(), version(contents=b"", size=0), version(contents=b"", size=98_305, pieces=pieces),
                   version(contents=b"", size=10**9, pieces=pieces, depth=2), version(headers={}), version(since=2**50),
                   Version("photos", "a", 4, "10", 1_800, is_marker=True),
                   Version("photos", "a", 4, "10", 1_800, is_marker=True, since=2**50)):
            head = layout.head_of(it)
            self.assertEqual(layout.version_in(head), it)
            self.assertEqual(layout.version_in(head + b"of a longer one that was there before"), it)
            for end in range(len(head)):
                with self.assertRaises(BadHead):
                    layout.version_in(head[:end])

    def test_buckets(self):
        record = layout.bucket_record(2**50)
        self.assertEqual(record, b"S4B1" + (2**50).to_bytes(8, "big"))
        self.assertEqual([layout.created_in(it) for it in (record, b"")], [2**50, None])
        for wrong in (record[:-1], record + b"\0", b"S4B2" + record[4:], b"S4H1"):
            with self.assertRaises(BadHead):
                layout.created_in(wrong)

    def test_a_head_to_the_byte(self):
        it = Version("one", "k", 1, "0f", 5, 2, "aa", False, {}, b"hi")
        text = b'{"bucket":"one","key":"k","sequence":1,"id":"0f","time":5,"size":2,"etag":"aa","headers":{},"pieces":[],"depth":0}'
        self.assertEqual(layout.head_of(it), b"S4H1" + len(text).to_bytes(4, "big") + b"\0\0\0\2" + text + b"hi")

    def test_what_is_no_head(self):
        head = layout.head_of(version())
        for old, new in ((b"S4H1", b"S4H2"), (b'"size":5', b'"size":6'), (b'"sequence":3', b'"sequence":{'), (b'"depth":0', b'"depth":9'),
                         (b'"pieces":[]', b'"pieces":{}'), (b'"pieces":[]', b'"pieces":[[1,2,3]]'), (b'"headers":{', b'"headers":[')):
            with self.subTest(new), self.assertRaises(BadHead):
                layout.version_in(head.replace(old, new, 1))

    def test_heads_that_are_too_long(self):
        room = layout.HEAD_BYTES - len(layout.head_of(version(headers={"a": ""})))
        self.assertEqual(len(layout.head_of(version(headers={"a": "x" * room}))), layout.HEAD_BYTES)
        with self.assertRaises(TooLong):
            layout.head_of(version(headers={"a": "x" * (room + 1)}))

    def test_lists(self):
        pieces = [Piece(number % 64, number + 1, 2**50 + number, 98_304) for number in range(layout.LISTED_PIECES + 1)]
        self.assertIsNone(layout.list_parts(pieces[:8]))
        self.assertEqual([len(part) for part in layout.list_parts(pieces[:9])], [9 * 22])
        parts = layout.list_parts(pieces)
        self.assertEqual([len(part) for part in parts], [98_296, 22])
        self.assertEqual(layout.pieces_in(b"".join(parts)), pieces)
        with self.assertRaises(BadHead):
            layout.pieces_in(parts[0][:-1])

    def test_names(self):
        for name in ("abc", "a.b-c", "0" * 63):
            self.assertTrue(is_bucket_name(name), name)
        for name in ("ab", "a" * 64, "Abc", "a_c", "-bc", "bc-", "a..b", "a.-b", "a-.b", "1.2.3.4", "abc\n", ""):
            self.assertFalse(is_bucket_name(name), name)
        self.assertTrue(is_key("k" * 1_024) and is_key("\0/ü"))
        self.assertFalse(is_key("") or is_key("k" * 1_025) or is_key("ü" * 513) or is_key("\ud800"))

    def test_settings(self):
        self.assertEqual(microseconds("30d"), 2_592_000_000_000)
        for word in ("30", "0d", "d", "-1d", "1y", "1d ", ""):
            with self.assertRaises(ValueError):
                microseconds(word)
        said = {"version": 1, "drives": 2, "frames": 24, "keep": "1w"}
        self.assertEqual(settings_of(said, "it"), Settings(2, 24, "1w"))
        self.assertEqual(settings_of({**said, "id": "0f" * 8}, "it"), Settings(2, 24, "1w", "0f" * 8))
        for name, value in (("version", 2), ("id", 5), ("id", "0g" * 8), ("id", "0f"), ("drives", 65), ("drives", True), ("frames", 23), ("keep", "soon"), ("keep", 5)):
            with self.subTest(name=name, value=value), self.assertRaises(StoreFault):
                settings_of({**said, name: value}, "it")


class Lists(unittest.TestCase):
    WINDOW = 1_000

    def setUp(self):
        self.index = Index(self.WINDOW)
        self.bucket = self.index.buckets["one"] = Bucket("one", Place(0, 1), 5)
        self.moment = 0

    def add(self, key, marker=False, head=None):
        self.moment += 10
        before = self.bucket.current(key)
        sequence = 1 if before is None else before.version.sequence + 1
        it = Version("one", key, sequence, f"{self.moment}", self.moment, is_marker=marker)
        self.index.add(Entry(it, head or Place(0, hash(key) % 10**6), self.moment))

    def page(self, prefix="", delimiter="", after="", most=1_000):
        page = keys_page(self.bucket, prefix, delimiter, after, most)
        return [it.version.key for it in page.entries], page.prefixes, page.is_cut

    def test_keys(self):
        for key in ("b/2", "a", "b/1", "c/d/e", "b", "gone", "ü"):
            self.add(key)
        self.add("gone", marker=True)
        self.assertEqual(self.page(), (["a", "b", "b/1", "b/2", "c/d/e", "ü"], [], False))
        self.assertEqual(self.page(delimiter="/"), (["a", "b", "ü"], ["b/", "c/"], False))
        self.assertEqual(self.page(prefix="b/", delimiter="/"), (["b/1", "b/2"], [], False))
        self.assertEqual(self.page(prefix="c/", delimiter="/"), ([], ["c/d/"], False))
        self.assertEqual(self.page(after="b/1"), (["b/2", "c/d/e", "ü"], [], False))
        self.assertEqual(self.page(delimiter="/", after="b/"), (["ü"], ["c/"], False))
        self.assertEqual(self.page(most=0), ([], [], False))
        self.assertEqual(self.page(most=6)[2], False)

    def test_pages_are_the_whole(self):
        for number in range(40):
            self.add(f"{number % 7}/{number % 3}/{number}")
        for prefix, delimiter in (("", ""), ("", "/"), ("3/", "/"), ("3/1", "/"), ("", "1/")):
            whole = self.page(prefix, delimiter)
            for most in (1, 2, 5):
                keys, prefixes, after, is_cut = [], [], "", True
                while is_cut:
                    page = keys_page(self.bucket, prefix, delimiter, after, most)
                    self.assertLessEqual(len(page), most)
                    keys += [it.version.key for it in page.entries]
                    prefixes += page.prefixes
                    after, is_cut = page.last, page.is_cut
                self.assertEqual((keys, prefixes), whole[:2], (prefix, delimiter, most))

    def test_versions(self):
        for key in ("a", "b/1", "a", "c"):
            self.add(key)
        self.add("a", marker=True)
        whole = [("a", "50"), ("a", "30"), ("a", "10"), ("b/1", "20"), ("c", "40")]
        for most in (1, 2, 3, 5, 9):
            found, after, is_cut = [], ("", ""), True
            while is_cut:
                page = versions_page(self.bucket, "", "", after, most)
                found += [(it.version.key, it.version.id) for it in page.entries]
                after, is_cut = (page.last, found[-1][1]), page.is_cut
            self.assertEqual(found, whole, most)
        page = versions_page(self.bucket, "", "/", ("", ""), 1_000)
        self.assertEqual(([it.version.id for it in page.entries], page.prefixes), (["50", "30", "10", "40"], ["b/"]))
        page = versions_page(self.bucket, "", "", ("a", "none"), 1_000)
        self.assertEqual([it.version.id for it in page.entries], ["20", "40"])

    def test_a_page_looks_at_what_it_has(self):
        """However many keys a bucket has: it looks at about as many names as come, and at those of a search by halves."""
        looked = {}
        for count in (1_000, 16_000):
            bucket = Bucket("one", Place(0, 1), 5)
            names = [f"{number:05}/k" for number in range(count)]
            bucket.keys = {name: [Entry(Version("one", name, 1, "10", 10), Place(0, 2), 10)] for name in names}
            bucket.names, bucket.live = Counted(names), Counted(names)
            for delimiter in ("", "/"):
                for after in ("", "00500/k"):
                    Counted.looks = 0
                    pages = keys_page(bucket, "", delimiter, after, 100), versions_page(bucket, "", delimiter, (after, ""), 100)
                    self.assertEqual([len(page) for page in pages], [100, 100])
                    looked.setdefault((delimiter, after), []).append(Counted.looks)
        for (delimiter, _), (few, many) in looked.items():
            self.assertLess(many - few, 20 + (2 * 100 * 6 if delimiter else 0))  # four more halves of each search, and one for each prefix

    def test_the_last_name_with_a_prefix(self):
        self.assertEqual([after_prefix(it) for it in ("a/", "a\U0010ffff", "\U0010ffff")], ["a0", "b", None])

    def test_what_expires(self):
        self.add("a", head=Place(0, 7))
        self.add("a", head=Place(1, 8))
        self.add("a", head=Place(1, 8), marker=True)
        self.assertEqual((self.bucket.names, self.bucket.live), (["a"], []))
        self.assertEqual(self.index.expire(1_020), [])
        self.assertEqual(self.index.expire(1_021), [Place(0, 7)])
        self.assertEqual([it.version.id for it in self.bucket.keys["a"]], ["20", "30"])
        self.assertEqual(self.index.expire(1_031), [Place(1, 8)])
        self.assertEqual((self.bucket.names, self.bucket.keys), ([], {}))

    def test_a_marker_that_was_replaced(self):
        self.add("a")
        self.add("a", marker=True)
        self.add("a")
        self.assertEqual(self.index.expire(10**6), [])
        self.assertEqual([it.version.id for it in self.bucket.keys["a"]], ["30"])


if __name__ == "__main__":
    unittest.main()
