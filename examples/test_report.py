"""Tests of the page that `s4 report` writes, whatever a drive holds. The environment names the programs as S4D and S4. Where Chromium
is installed, the page is looked at in it; the pictures stay where REPORT_PICTURES names a folder."""
import base64
import hashlib
import os
import pathlib
import subprocess
import sys
import tempfile
import unittest
from html.parser import HTMLParser

TOP = pathlib.Path(__file__).resolve().parents[1]
sys.path.insert(0, str(TOP / "python"))
from s4d import Image  # noqa: E402: from this repository, also where it isn't installed
sys.path.insert(0, str(TOP / "examples"))
import browser  # noqa: E402: from this folder

S4D = os.environ.get("S4D", str(TOP / "crates/s4d/out/s4d"))
S4 = os.environ.get("S4", str(TOP / "crates/s4/out/s4"))
PICTURES = os.environ.get("REPORT_PICTURES")
ATTRIBUTES = [
    "<script>document.title = 'run'</script>",
    '"><img src=x onerror="document.title = 1">',
    "</td></table><h1>it's & done</h1>",
    "<svg onload=document.title=2>",
]
CONTENT = b"</pre><script>document.title = 'run'</script>\n"
TAGS = {
    "html", "head", "meta", "title", "style", "body", "h1", "h2", "h3", "p", "div", "span", "svg", "path", "rect", "input",
    "table", "thead", "tbody", "tr", "th", "td", "pre", "script",
}
MADE = {"a", "label", "text"}  # by the page's script
YEAR, HOUR, DAY = 1_764_000_000_000_000, 3_600_000_000, 86_400_000_000  # 2025-11-24T16:00:00Z, in microseconds, and theirs
MANY, MOST = 15_000, 1_000  # the objects of a large page, and how many are open at once


class Page(HTMLParser):
    """What a page has: its tags, the names of attributes, the cells of its table, its links, its scripts, its policy, and the marks of its
    timeline, each with its kind, its shape and its title."""

    def __init__(self, text):
        super().__init__()
        self.tags, self.names, self.cells, self.scripts, self.policy, self.title = set(), set(), [], [], "", ""
        self.within, self.marks, self.links = "", [], []
        self.feed(text)

    def handle_starttag(self, tag, attrs):
        self.tags.add(tag)
        self.names |= {name for name, _ in attrs}
        self.policy += dict(attrs).get("content") or ""
        if tag == "a":
            self.links.append(dict(attrs).get("href"))
            return
        self.within = tag
        if tag in ("path", "rect"):
            shape = dict(attrs).get("d", "M0 a band").split(" ", 1)[1]
            self.marks.append([dict(attrs).get("class"), shape, ""])
        if tag in ("td", "script"):
            (self.cells if tag == "td" else self.scripts).append("")

    def handle_endtag(self, tag):
        if tag != "a":
            self.within = ""

    def handle_data(self, data):
        if self.within in ("td", "script"):
            (self.cells if self.within == "td" else self.scripts)[-1] += data
        elif self.within == "title" and not self.title:
            self.title = data
        elif self.within == "title":
            self.marks[-1][2] += data


BUILT = os.access(S4, os.X_OK) and os.access(S4D, os.X_OK)


def write_report(image, name, *options):
    """The page about an image, in a file beside it."""
    page = pathlib.Path(image.path).parent / f"{name}.html"
    with page.open("wb") as file:
        subprocess.run([S4, "report", *options, image.path], stdout=file, stderr=subprocess.DEVNULL, check=True)
    return page


@unittest.skipUnless(BUILT, "s4 or s4d isn't built")
class Reports(unittest.TestCase):
    def setUp(self):
        self.folder = tempfile.TemporaryDirectory()
        self.addCleanup(self.folder.cleanup)
        image = Image(f"{self.folder.name}/image", S4D)
        image.make(24)
        with image.session() as drive:
            for number, attribute in enumerate(ATTRIBUTES, 1):
                drive.create(attribute.encode())
                drive.write(number, 0, CONTENT)
            hidden = drive.write(1, 0, b"hidden")
            drive.delete(4)
            drive.set_attribute(3, ATTRIBUTES[2].encode())
        with image.session("admin") as drive:
            self.flushed = drive.flush_object(1, hidden, hidden)
        self.hidden = hidden
        self.page = write_report(image, "report")

    def check(self, page, made=frozenset()):
        """The tags, scripts and names are those of the page itself, its table has the attributes as text, and no link leaves it."""
        self.assertLessEqual(page.tags, TAGS | made)
        self.assertFalse({name for name in page.names if name.startswith("on") or name in ("src", "style")})
        self.assertEqual("href" in page.names, "a" in made)
        for link in page.links:
            self.assertRegex(link, r"\A#(strip|row|difference)-[0-9]+\Z")
        self.assertEqual(page.title, "Report of a drive")
        self.assertEqual(len(page.scripts), 1)
        self.assertEqual(page.cells[5::6], ATTRIBUTES)

    def test_data_is_text_in_a_page(self):
        page = Page(self.page.read_text(encoding="utf-8"))
        self.check(page)
        digest = base64.b64encode(hashlib.sha256(page.scripts[0].encode()).digest()).decode()
        self.assertIn(f"script-src 'sha256-{digest}'", page.policy)

    def test_each_mark_names_what_it_is(self):
        """Each of the four kinds has a shape of its own, and each mark's title has the object, what was done and the moment."""
        marks = Page(self.page.read_text(encoding="utf-8")).marks
        legend, marks = marks[:4], marks[4:]
        kinds = {"made", "changed", "deleted", "hidden"}
        self.assertEqual({kind for kind, _, title in legend if not title}, kinds)
        self.assertEqual(len({(kind, shape) for kind, shape, _ in legend + marks}), 4)
        self.assertEqual(len({shape for _, shape, _ in legend + marks}), 4)
        titles = [title for _, _, title in marks]
        for number in range(1, 5):
            self.assertIn(f"object {number} made at {2 * number - 1}: 0 to 0 bytes", titles)
            self.assertIn(f"object {number} changed (written) at {2 * number}: 0 to {len(CONTENT)} bytes", titles)
        self.assertIn(f"object 1 hidden by a flush: {self.hidden} to {self.hidden}", titles)
        self.assertIn(f"object 4 deleted at 10: {len(CONTENT)} to {len(CONTENT)} bytes", titles)
        self.assertIn("object 3 changed (touched) at 11: 46 to 46 bytes", titles)
        self.assertEqual(len(titles), 11)

    def test_each_flush_has_a_paragraph(self):
        text = self.page.read_text(encoding="utf-8")
        self.assertIn(f"<p>{self.flushed}: moments {self.hidden} to {self.hidden} of object 1 hidden</p>\n", text)
        self.assertNotIn("<p>None.</p>", text)

    def test_text_differs_by_lines(self):
        text = self.page.read_text(encoding="utf-8")
        self.assertIn("+&lt;/pre&gt;&lt;script&gt;document.title = &#39;run&#39;&lt;/script&gt;\n", text)

    @unittest.skipUnless(browser.PROGRAM, "Chromium isn't installed")
    def test_nothing_runs_in_a_browser(self):
        """The page's own script makes links and shows attributes as names; nothing that an attribute says becomes a tag or runs."""
        shown = browser.Browser()
        self.addCleanup(shown.close)
        shown.open(self.page.as_uri())
        self.check(Page(shown.run("document.documentElement.outerHTML")), MADE)
        names = [f"object {number} {attribute}" for number, attribute in enumerate(ATTRIBUTES, 1)]
        self.assertEqual(shown.run(texts_of(".strip > span")), names)
        self.assertEqual(shown.run(texts_of("h3 .name")), ATTRIBUTES[:3])


def texts_of(selector):
    return f"Array.from(document.querySelectorAll({selector!r}), (part) => part.textContent)"


def later(image, ticks, change):
    """A change of a drive, so long after the last."""
    with image.session(tick=ticks) as drive:
        change(drive)


def make_site(image):
    """A site of 11 objects that are made in some hours of one day. Three weeks later seven changes are hours and days apart."""
    image.make(64, window=40 * DAY)
    later(image, YEAR, lambda drive: drive.create(b"etc/hosts"))
    for number in range(2, 12):
        later(image, HOUR // 5, lambda drive, number=number: drive.create(b"srv/page-%d.html" % number))
        later(image, 1000, lambda drive, number=number: drive.write(number, 0, b"<html>\n%d\n" % number))
    later(image, 20 * DAY, lambda drive: drive.write(3, 0, b"<p>one"))
    later(image, HOUR, lambda drive: drive.write(3, 0, b"<p>two"))
    later(image, 2 * HOUR, lambda drive: drive.write(4, 0, b"<p>one"))
    later(image, 3 * HOUR, lambda drive: drive.delete(5))
    later(image, HOUR, lambda drive: drive.set_attribute(6, b"srv/moved.html"))
    later(image, 3 * DAY, lambda drive: drive.write(3, 0, b"<p>ten"))
    later(image, 5 * HOUR, lambda drive: drive.create(b"tmp/dropped"))


def make_many(image, count):
    """A drive of so many objects, of which two are written, days after they were made."""
    image.make(1024, window=40 * DAY)
    later(image, YEAR, lambda drive: drive.create(b"srv/first"))
    with image.session(tick=5_000_000) as drive, drive.pipeline() as batch:
        for number in range(2, count + 1):
            batch.create(b"srv/folder-%d/file-%d.txt" % (number // 100, number))
    later(image, 20 * DAY, lambda drive: drive.write(7, 0, b"changed\n"))
    later(image, HOUR, lambda drive: drive.write(count * 14 // 15, 0, b"line\n" * 50))


def make_hidden(image):
    """A drive of three objects. Of what came after moment 4 one moment is hidden of all, and two are of the second object alone."""
    image.make(24)
    with image.session() as drive:
        for number in (1, 2, 3):
            drive.create(b"srv/%d" % number)
        for _ in range(3):
            drive.append(1, b"more")
    with image.session("admin") as drive:
        drive.flush(5, 5)
        drive.flush_object(2, 5, 6)


@unittest.skipUnless(BUILT and browser.PROGRAM, "Chromium isn't installed, or s4 or s4d isn't built")
class Shown(unittest.TestCase):
    """Pages in a browser. Where an assertion is about time, it is about what the browser's processes used, whatever else goes on."""

    SINCE = "2025-12-01T00:00:00Z"
    CHANGED = ["3", "4", "5", "6", "12"]

    @classmethod
    def setUpClass(cls):
        folder = tempfile.TemporaryDirectory()
        cls.addClassCleanup(folder.cleanup)
        cls.folder = folder.name
        cls.browser = browser.Browser()
        cls.addClassCleanup(cls.browser.close)
        image = Image(f"{cls.folder}/site", S4D)
        make_site(image)
        cls.whole, cls.since = write_report(image, "whole"), write_report(image, "since", "--since", cls.SINCE)
        image = Image(f"{cls.folder}/many", S4D)
        make_many(image, MANY)
        cls.many, cls.few = write_report(image, "many"), write_report(image, "few", "--since", cls.SINCE)

    def open(self, page, width=1200, height=900, scheme="light", media="screen", part=""):
        self.browser.look(width, height, scheme, media)
        self.browser.open(page.as_uri() + part)

    def picture(self, name):
        """The picture of what is shown: the colour of its first pixel, and how many of its rows differ."""
        png = self.browser.picture()
        if PICTURES is not None:
            os.makedirs(PICTURES, exist_ok=True)
            pathlib.Path(PICTURES, f"{name}.png").write_bytes(png)
        rows, each = browser.rows_of(png)
        return tuple(rows[0][1:4]), len(set(rows))

    def shown(self, selector):
        """The numbers of the objects whose parts of this kind are shown. One that the page's script didn't open has none."""
        return self.browser.run(f"""Array.from(document.querySelectorAll({selector!r})).filter((part) => part.getClientRects().length > 0)
            .map((part) => part.id.slice(part.id.indexOf("-") + 1))""")

    def open_objects(self):
        """The numbers of the open objects: those of the strips, which are those of the rows, and all those of differences are among them."""
        strips = self.shown(".strip")
        self.assertEqual(sorted(self.shown("tbody tr")), sorted(strips))
        self.assertLessEqual(set(self.shown("h3")), set(strips))
        self.assertEqual(len(self.shown("pre")), len(self.shown("h3")))
        self.assertLessEqual(len(strips), MOST)
        return strips

    def state(self):
        return self.browser.run("document.querySelector('[role=status]').textContent")

    def check_box(self, text):
        labels = self.browser.run(texts_of(".bar label"))
        index = next(index for index, label in enumerate(labels) if text in label)
        self.browser.run(f"document.querySelectorAll('.bar label')[{index}].click()")

    def search(self, text):
        self.browser.run("{ const input = document.querySelector('input'); input.focus(); input.select(); }")
        self.browser.ask("Input.insertText", text=text)
        self.browser.run(browser.TWO_FRAMES)

    def click(self, selector):
        """A press at the middle of a part, by the pointer."""
        place = self.browser.run(f"""(() => {{ const part = document.querySelector({selector!r}); part.scrollIntoView({{ block: "center" }});
            const {{ x, y, width, height }} = part.getBoundingClientRect(); return {{ x: x + width / 2, y: y + height / 2 }}; }})()""")
        for kind in ("mousePressed", "mouseReleased"):
            self.browser.ask("Input.dispatchMouseEvent", type=kind, button="left", clickCount=1, **place)
        self.browser.run(browser.TWO_FRAMES)

    def marks(self):
        """The marks of changes that are shown, by their moments in hours: each with the place of its middle."""
        marks = self.browser.run("""Array.from(document.querySelectorAll(".strip path")).filter((mark) => mark.checkVisibility())
            .map((mark) => { const { x, width } = mark.getBoundingClientRect();
                return [Date.parse(/ at (\\S+): /.exec(mark.textContent)[1]) / 3600000, x + width / 2]; })""")
        return sorted(marks)

    def check_apart(self, count):
        """So many marks are shown, in the order of time, and those that are hours apart don't touch."""
        marks = self.marks()
        self.assertEqual(len(marks), count)
        for (moment, place), (next_moment, next_place) in zip(marks, marks[1:]):
            self.assertLessEqual(place, next_place)
            if next_moment - moment >= 0.99:
                self.assertGreater(next_place - place, 11)

    def check_pictures_of_strips(self):
        """Each strip's picture is below the line of moments, from its left end to its right end."""
        pictures = self.browser.run("""Array.from(document.querySelectorAll(".axis svg, .strip svg")).filter((picture) => picture.checkVisibility())
            .map((picture) => { const { left, right, height } = picture.getBoundingClientRect(); return [left, right, height]; })""")
        self.assertGreater(len(pictures), 1)
        for picture in pictures:
            for one, other in zip(picture, [*pictures[0][:2], 16]):
                self.assertAlmostEqual(one, other, delta=1)

    def ends(self):
        labels = self.browser.run(texts_of(".axis text"))
        return labels[0], labels[1]

    def test_time_line_is_what_is_shown(self):
        """The time line is from the moment that was asked for to the clock, and by a choice from the floor on, or to scale."""
        self.open(self.since)
        self.assertEqual(self.ends(), ("2025-12-01 00:00:00", "2025-12-18 06:00:00"))
        self.check_apart(7)
        self.check_box("from the floor on")
        self.assertEqual(self.ends()[0][:10], "2025-11-08")
        self.check_apart(7 + 8)
        self.check_box("from the floor on")
        self.check_box("to scale")
        marks = self.marks()
        (first, left), (last, right) = marks[0], marks[-1]
        for moment, place in marks:
            self.assertAlmostEqual(place, left + (right - left) * (moment - first) / (last - first), delta=1)
        self.open(self.whole)
        self.assertEqual(self.ends()[0][:10], "2025-11-08")
        self.check_apart(7 + 21)

    def test_unchanged_objects_are_folded_away(self):
        self.open(self.since)
        self.assertEqual(self.open_objects(), self.CHANGED)
        self.assertEqual(self.shown("h3"), self.CHANGED)
        self.assertEqual(self.state(), "5 of 12 objects are open.")
        self.check_box("also 7 unchanged objects")
        self.assertEqual(self.open_objects(), [str(number) for number in range(1, 13)])
        self.check_box("also 7 unchanged objects")
        self.assertEqual(self.open_objects(), self.CHANGED)
        self.search("page-9")
        self.assertEqual(self.open_objects(), ["9"])
        self.open(self.whole)
        self.assertEqual(self.open_objects(), [str(number) for number in range(1, 13)])

    def test_hidden_changes_are_not_folded_away(self):
        """An object that may have changed in moments that are hidden of it is open. What is hidden of all says nothing of one."""
        image = Image(f"{self.folder}/hidden", S4D)
        make_hidden(image)
        self.open(write_report(image, "hidden", "--since", "4"))
        self.assertEqual(self.open_objects(), ["1", "2"])
        self.assertEqual(self.shown("h3"), ["1"])
        self.assertEqual(self.browser.run(texts_of("p:has(.name)")), ["8: moments 5 to 6 of object 2 srv/2 hidden"])
        self.click("p:has(.name) a")
        self.check_shown("strip-2")

    def check_shown(self, part):
        """The page has gone to a part of an object, which is seen."""
        self.assertEqual(self.browser.run("location.hash"), f"#{part}")
        top, height = self.browser.run(f"[document.getElementById({part!r}).getBoundingClientRect().top, innerHeight]")
        self.assertTrue(0 <= top < height, (part, top))

    def test_links_connect_the_parts_of_an_object(self):
        self.open(self.since, height=300)
        self.click("#strip-3 path:last-child")
        self.assertRegex(self.browser.run(texts_of(".said"))[0], r"\Aobject 3 changed \(written\) at 2025-12-1")
        ways = [(".said a[href='#row-3']", "row-3"), ("#row-3 a[href='#difference-3']", "difference-3"),
                ("#difference-3 a[href='#strip-3']", "strip-3"), (".said a[href='#difference-3']", "difference-3"),
                ("#difference-3 a[href='#row-3']", "row-3"), ("#row-3 a[href='#strip-3']", "strip-3"), ("#strip-3 a", "row-3")]
        for selector, part in ways:
            self.click(selector)
            self.check_shown(part)
        self.open(self.since, part="#row-9")
        self.assertIn("9", self.open_objects())
        self.check_shown("row-9")

    def test_names_are_beside_numbers(self):
        self.open(self.since)
        self.assertEqual(self.browser.run("document.querySelector('#strip-6 > span').textContent"), "object 6 srv/moved.html")
        self.assertEqual(self.browser.run("document.querySelector('#difference-12').textContent"), "object 12 tmp/dropped strip row")

    def open_slowly(self, page):
        """Opens a page of which a fiftieth comes at first: that is shown at once. Then comes the rest. The processor time of both."""
        slow = browser.Slow(page, 1 / 50)
        self.addCleanup(slow.server_close)
        self.addCleanup(slow.shutdown)
        self.addCleanup(slow.rest.set)
        self.browser.look(1200, 900)
        self.browser.ask("Page.navigate", url="about:blank")
        began = self.browser.processor_time()
        self.browser.ask("Page.navigate", url=slow.address)
        self.browser.wait("performance.getEntriesByName('first-contentful-paint').length", 1)
        first = self.browser.processor_time()
        self.assertGreater(self.picture("first")[1], 100)
        self.assertEqual(self.browser.run(texts_of(".strip > span"))[:2], ["object 1", "object 2"])
        self.assertNotEqual(self.browser.run("document.readyState"), "complete")
        slow.rest.set()
        self.browser.wait("document.readyState", "complete")
        self.browser.run(browser.TWO_FRAMES)
        return first - began, self.browser.processor_time() - began

    def test_many_objects_can_be_used(self):
        """Of very many objects at most a thousand are open, and a search or a link opens any other. The first view comes within a second,
        and does not wait for the rest of the page."""
        first, whole = self.open_slowly(self.many)
        self.assertLess(first, 1)
        self.assertLess(whole, 15)
        self.assertEqual(self.open_objects(), [str(number) for number in range(1, MOST + 1)])
        self.assertEqual(self.state(), "1,000 of 15,000 objects are open, the first of 15,000: a search opens others.")
        self.assertGreater(self.picture("many")[1], 100)
        self.search("14000")
        self.assertEqual(self.open_objects(), ["14000"])
        self.search("folder-140/")
        self.assertEqual(self.open_objects(), [str(number) for number in range(14_000, 14_100)])
        self.search("file-1")
        self.assertEqual(len(self.open_objects()), MOST)
        self.search(" ")
        for _ in range(2):
            self.click("th:nth-child(3)")
        self.assertEqual(self.shown("tbody tr")[:2], ["14000", "7"])
        self.assertEqual(len(self.open_objects()), MOST)
        self.browser.run("location.hash = '#difference-13999'")
        self.browser.run(browser.TWO_FRAMES)
        self.assertEqual(self.open_objects(), ["13999"])
        self.check_shown("difference-13999")

    def test_few_of_many_objects_changed(self):
        self.open(self.few)
        self.assertEqual(self.open_objects(), ["7", "14000"])
        self.assertGreater(self.picture("few")[1], 100)
        self.check_box("also 14,998 unchanged objects")
        self.assertEqual(len(self.open_objects()), MOST)

    def test_all_is_there_without_scripts(self):
        image = Image(f"{self.folder}/plain", S4D)
        make_many(image, 150)
        page = write_report(image, "plain", "--since", self.SINCE)
        self.browser.ask("Emulation.setScriptExecutionDisabled", value=True)
        self.addCleanup(self.browser.ask, "Emulation.setScriptExecutionDisabled", value=False)
        self.open(page)
        self.assertEqual([len(self.shown(selector)) for selector in (".strip", "tbody tr", "h3", "pre")], [150, 150, 2, 2])
        self.assertEqual(self.browser.run("document.querySelectorAll('a, .bar').length"), 0)

    def test_pictures(self):
        """Light and dark, wide and narrow, and in print: each has its ground, and is no empty page."""
        white = (255, 255, 255)
        looks = [("wide", 1600, 900, "light", "screen", white), ("dark", 1200, 900, "dark", "screen", (20, 24, 29)),
                 ("narrow", 380, 800, "light", "screen", white), ("print", 794, 1123, "dark", "print", white)]
        for name, width, height, scheme, media, ground in looks:
            for kind, page in (("since", self.since), ("whole", self.whole)):
                with self.subTest(look=name, page=kind):
                    self.open(page, width, height, scheme, media)
                    pixel, rows = self.picture(f"{kind}_{name}")
                    self.assertEqual(pixel, ground)
                    self.assertGreater(rows, 100)
                    self.assertLessEqual(self.browser.run("document.documentElement.scrollWidth"), width)
                    self.check_pictures_of_strips()


if __name__ == "__main__":
    unittest.main()
