"""Tests of the repository's documents: links, names, lengths, the version and the man pages."""
import importlib.util
import pathlib
import re
import shutil
import subprocess
import unittest

TOP = pathlib.Path(__file__).resolve().parents[1]
PAGES = sorted(page for folder in (".", "docs", "bench", "deploy", "examples", "python", "tests") for page in (TOP / folder).glob("*.md"))
COUNTED = [page for page in PAGES if page.parent.name == "docs" or page == TOP / "README.md"]
MOST_WORDS, README_LINES, CELL_WORDS, FIGURE_LINES = 28_000, 120, 25, 25
# Sentences of README and docs with more words, and with more than one colon or semicolon. Both may only fall.
SENTENCE_WORDS, LONG_SENTENCES, JOINED_SENTENCES = 35, 5, 2
# These list names.
LISTS = ("PROVED.md", "DEFINITIONS.md")


def sentences(text):
    """The sentences of a page, without its code, tables and headings; what is in backticks is one word."""
    text = re.sub(r"(?ms)^```.*?^```$|<!--.*?-->", "", text)
    text = re.sub(r"(?m)^\s*(?:- |\d+\. )", "\n", re.sub(r"(?m)^(?:[#|]| {4}).*$", "", text))
    text = re.sub(r"\[([^\]]*)\]\([^)]*\)", r"\1", re.sub(r"`[^`]*`", "Code", text)).replace("**", "")
    blocks = (" ".join(block.split()) for block in re.split(r"\n\s*\n", text))
    return [it for block in blocks for it in re.split(r"(?<=[.!?])\s+(?=[^a-z])", block) if it]


def clauses_of_calls():
    """The names of each function's clauses, by its name alone, after its type or trait, and after its crate."""
    spec = importlib.util.spec_from_file_location("proved", TOP / "docs" / "proved.py")
    proved = importlib.util.module_from_spec(spec)
    spec.loader.exec_module(proved)
    found = {}
    for path in (TOP / "crates").glob("*/src/**/*.rt"):
        crate = path.relative_to(TOP / "crates").parts[0]
        for owner, _, name, clauses, _ in proved.functions(path):
            for key in {name, f"{owner}::{name}", f"{crate}::{name}"}:
                found.setdefault(key, set()).update(clauses)
    return found


class Documents(unittest.TestCase):
    def test_links(self):
        for page in PAGES:
            for target in re.findall(r"\]\(([^)#]+)[^)]*\)", page.read_text(encoding="utf-8")):
                with self.subTest(page=page.name, target=target):
                    self.assertTrue("://" in target or (page.parent / target).exists())

    def test_files_that_are_named(self):
        """A path in a document is there, from the top of the repository or from the page; changes may name what is gone."""
        folders = "docs|bench|examples|python|tests|crates"
        for page in PAGES:
            if page.name == "CHANGELOG.md":
                continue
            for path in re.findall(rf"`((?:{folders})/[\w./-]+)`", page.read_text(encoding="utf-8")):
                with self.subTest(page=page.name, path=path):
                    made = "/out/" in path or path.isupper() or re.search(r"\b(CRATE|NAME)\b", path)
                    self.assertTrue(made or (TOP / path).exists() or (page.parent / path).exists())

    def test_files_of_additions(self):
        """In the lists of files for an addition a name without a folder is in that of the file before it."""
        text = (TOP / "CONTRIBUTING.md").read_text(encoding="utf-8")
        for item in re.split(r"\n(?=\d+\. |\n)", text[text.index("## To add"):text.index("## Where a test")]):
            folder = TOP
            for path in re.findall(r"`([\w./-]+\.\w+)`", item):
                with self.subTest(path):
                    folder = (TOP / path).parent if "/" in path or (TOP / path).exists() else folder
                    self.assertTrue((folder / pathlib.Path(path).name).exists())

    def test_definitions(self):
        """Each name in an item of the page of definitions is defined in the file that the item names last before it."""
        page = TOP / "docs" / "DEFINITIONS.md"
        for item in re.split(r"\n(?=- |\n)", page.read_text(encoding="utf-8")):
            text = None
            for target, name in re.findall(r"\]\(([^)]+\.antt)\)|`(\w+)`", item):
                if target:
                    text = (page.parent / target).read_text(encoding="utf-8")
                elif text is not None:
                    with self.subTest(name):
                        self.assertRegex(text, rf"(?m)^\s*(abbrev pub|unfoldable pub|pub record|pub data|pub) {name}\b")

    def test_promises(self):
        """A promise names calls that are there, clauses that they have, and wrong bodies that are there."""
        calls = clauses_of_calls()
        defined = set(re.findall(r"`(\w+)`", (TOP / "docs" / "DEFINITIONS.md").read_text(encoding="utf-8")))
        headline, promises = (TOP / "docs" / "PROMISES.md").read_text(encoding="utf-8").split("## All promises")
        for name in re.findall(r"`(\w+)`", "".join(re.findall(r"(?m)^\|.*\|(.*)\|$", headline))):
            with self.subTest(definition=name):
                self.assertTrue(name in defined or name in ("cleans", "commits"))
        for line in (headline + promises).splitlines():
            cells = line.split("|")[1:-1]
            if len(cells) != 3 or not cells[1].strip("- "):
                continue
            for call, said in re.findall(r"`([\w:]+)` \(([^)]*)\)", cells[1]):
                with self.subTest(promise=cells[0], call=call):
                    clauses = re.findall(r"`(\w+)`", re.split(r"\bby |: ", said)[0])
                    self.assertTrue(call in calls)
                    self.assertLessEqual(set(clauses), calls[call])
            for bold, crate, name in re.findall(r"(\*\*)?`(\w+)/(\w+)`", cells[2]):
                with self.subTest(crate=crate, edit=name):
                    folder = "must-fail" if bold else "wrong-bodies"
                    self.assertTrue((TOP / "crates" / crate / folder / f"{name}.edit").exists())

    def test_quoted_definitions(self):
        """What PROMISES quotes is what the definitions say."""
        text = (TOP / "docs" / "PROMISES.md").read_text(encoding="utf-8")
        page = (TOP / "crates" / "s4_model" / "specs" / "Promise.antt").read_text(encoding="utf-8")
        quoted = re.findall(r"(?m)(?:^    .*\n)+", text)
        self.assertTrue(quoted)
        for block in quoted:
            with self.subTest(block.splitlines()[0]):
                self.assertIn(re.sub(r"(?m)^    ", "", block), page)

    def test_ways_through_the_crates(self):
        """ARCHITECTURE names each crate; a file of a crate that it names is there, and has the function named after it."""
        text = (TOP / "docs" / "ARCHITECTURE.md").read_text(encoding="utf-8")
        for crate in re.findall(r"(?m)^(\w+)[ :]", (TOP / "crates.txt").read_text(encoding="utf-8")):
            with self.subTest(crate=crate):
                self.assertTrue(crate.endswith("_tests") or f"`{crate}`" in text)
        for path, name in re.findall(r"`(\w+/src/[\w/]+\.rt)(?::(?:\w+::)?(\w+))?`", text):
            with self.subTest(path=path, name=name):
                source = TOP / "crates" / path
                self.assertTrue(source.exists())
                self.assertRegex(source.read_text(encoding="utf-8"), rf"\bfn {name}\b" if name else ".")

    def test_sentences(self):
        """No more sentences than there were are long, or joined of several."""
        found = [(page.name, it) for page in COUNTED if page.name not in LISTS for it in sentences(page.read_text(encoding="utf-8"))]
        long = [it for it in found if len(it[1].split()) > SENTENCE_WORDS]
        joined = [it for it in found if len(re.findall(r"[:;](?=\s|$)", it[1])) > 1]
        self.assertLessEqual(len(long), LONG_SENTENCES, long)
        self.assertLessEqual(len(joined), JOINED_SENTENCES, joined)

    def test_lengths(self):
        self.assertLess(sum(len(page.read_text(encoding="utf-8").split()) for page in COUNTED), MOST_WORDS)
        self.assertLessEqual(len((TOP / "README.md").read_text(encoding="utf-8").splitlines()), README_LINES)
        for page in PAGES:
            for number, line in enumerate(page.read_text(encoding="utf-8").splitlines(), 1):
                if line.startswith("|"):
                    with self.subTest(page=page.name, line=number):
                        self.assertLessEqual(max(len(cell.split()) for cell in line.split("|")), CELL_WORDS)

    def test_what_is_proved(self):
        """The page of what is proved is what its script makes of the sources."""
        made = subprocess.run([TOP / "docs" / "proved.py"], capture_output=True, text=True, check=True).stdout
        self.assertEqual(made, (TOP / "docs" / "PROVED.md").read_text(encoding="utf-8"))

    def test_layers(self):
        """The figure of the layers is what its script makes of the list of crates."""
        made = subprocess.run([TOP / "docs" / "layers.py"], capture_output=True, text=True, check=True).stdout
        self.assertIn(f"<!-- docs/layers.py -->\n```text\n{made}```\n", (TOP / "docs" / "ARCHITECTURE.md").read_text(encoding="utf-8"))
        self.assertLessEqual(len(made.splitlines()), FIGURE_LINES)

    def test_what_has_to_be_believed(self):
        """The main theorems rest on no more lines of definitions than they may."""
        ran = subprocess.run([TOP / "bench" / "believed.py"], capture_output=True, text=True, check=False)
        self.assertEqual(ran.returncode, 0, ran.stdout + ran.stderr)

    def test_one_version(self):
        """The file VERSION has it; what can't read that file says the same."""
        version = (TOP / "VERSION").read_text(encoding="utf-8").strip()
        for name, said in (("python/pyproject.toml", f'version = "{version}"'), ("s4d.1", f".Os s4d {version}"), ("s4.1", f".Os s4d {version}"), ("s4serve.1", f".Os s4d {version}"),
                           ("CHANGELOG.md", f"## {version}")):
            with self.subTest(name):
                lines = (TOP / name).read_text(encoding="utf-8").splitlines()
                self.assertTrue(any(line.startswith(said) for line in lines))

    @unittest.skipUnless(shutil.which("groff"), "groff isn't installed")
    def test_the_man_pages(self):
        for page in ("s4d.1", "s4.1", "s4serve.1"):
            with self.subTest(page):
                ran = subprocess.run(["groff", "-mandoc", "-ww", "-Tascii", TOP / page], capture_output=True, check=False)
                self.assertEqual((ran.returncode, ran.stderr), (0, b""))


if __name__ == "__main__":
    unittest.main()
