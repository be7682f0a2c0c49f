"""Tests of bench/wrong_bodies.py and of its list, in a small repository beside an `rt` that says of each edit what the edit's text is."""
import csv
import os
import pathlib
import re
import shutil
import subprocess
import sys
import tempfile
import unittest
from typing import Any, Dict, List

TOP = pathlib.Path(__file__).resolve().parents[1]
LIST = "docs/wrong-bodies.tsv"
HEAD = "crate edits tried commit by_goal seconds after since by_goal_so_far seconds_so_far".split()
RT = """#!/bin/sh
for it in crates/$2/must-fail/*.edit; do echo "rt: must-fail $2/${it##*/}: $(cat "$it")"; done
"""
REFUSED = "refused, as it must be"

# What `rt` says of a crate's edits; how many are refused, and how many by a goal (None: the crate wasn't tried whole).
TRIES = [
    ([f"{REFUSED}: src/lib.rt:1:1: error", REFUSED], 2, 2),
    ([f"{REFUSED} (only because a proof file names what the edit took away)", REFUSED], 2, 1),
    ([f"{REFUSED} (only by a limit of the prover)", "BAD EDIT: there is no file src/lib.rt"], 1, 0),
    (["NOT REFUSED: the crate is still proved with this edit", REFUSED], 1, 1),
    (["NOT TRIED: its check was killed", REFUSED], 1, None),
]


def rows_of(path: pathlib.Path) -> List[Dict[str, Any]]:
    with open(path, encoding="utf-8") as file:
        return list(csv.DictReader(file, delimiter="\t"))


@unittest.skipUnless(shutil.which("git"), "git isn't installed")
class Tool(unittest.TestCase):
    def setUp(self) -> None:
        self.folder = tempfile.TemporaryDirectory()
        self.addCleanup(self.folder.cleanup)
        self.top = pathlib.Path(self.folder.name)
        self.write("docs/read.me", "")
        self.write("HANDLES", "")
        self.write(".bin/rt", RT)
        (self.top / ".bin" / "rt").chmod(0o755)
        self.crates: List[str] = []

    def write(self, path: str, text: str) -> None:
        (self.top / path).parent.mkdir(parents=True, exist_ok=True)
        (self.top / path).write_text(text, encoding="utf-8")

    def crate(self, name: str, edits: List[str]) -> None:
        self.crates.append(name)
        self.write(f"crates/{name}/src/lib.rt", "")
        for number, said in enumerate(edits):
            self.write(f"crates/{name}/wrong-bodies/edit_{number:02}.edit", said)
        self.write("crates.txt", "".join(f"{it}:\n" for it in self.crates))

    def commit(self) -> str:
        for words in (["init", "-q"], ["add", "-A"], ["-c", "user.name=t", "-c", "user.email=t@t", "commit", "-qm", "A change"]):
            subprocess.run(["git", *words], cwd=self.top, check=True)
        ran = subprocess.run(["git", "rev-parse", "--short=10", "HEAD"], cwd=self.top, capture_output=True, text=True, check=True)
        return ran.stdout.strip()

    def run_tool(self, *words: str) -> "subprocess.CompletedProcess[str]":
        path = f"{self.top / '.bin'}:{os.environ['PATH']}"
        return subprocess.run([sys.executable, TOP / "bench" / "wrong_bodies.py", *words], cwd=self.top, env={**os.environ, "PATH": path},
                              capture_output=True, text=True, check=False)

    def row(self, name: str) -> Dict[str, Any]:
        return next(it for it in rows_of(self.top / LIST) if it["crate"] == name)

    def planned(self) -> List[str]:
        """What a turn would try."""
        return [it for it in self.run_tool("--turn", "--dry-run").stdout.splitlines() if ": " not in it]

    def set_tried(self, name: str, tried: str) -> None:
        text = (self.top / LIST).read_text(encoding="utf-8")
        self.write(LIST, re.sub(rf"(?m)^({name}\t\d+\t)\S+", rf"\g<1>{tried}", text))

    def test_tries(self) -> None:
        for number, (said, _, _) in enumerate(TRIES):
            self.crate(f"crate_{number}", said)
        commit = self.commit()
        for number, (said, refused, by_goal) in enumerate(TRIES):
            with self.subTest(said=said):
                ran = self.run_tool(f"crate_{number}")
                self.assertEqual(ran.stdout.splitlines()[-1], f"{refused} passed, {2 - refused} failed")
                self.assertEqual(ran.returncode, int(refused < 2))
                row = self.row(f"crate_{number}")
                if by_goal is None:
                    self.assertEqual(row["tried"], "never")
                else:
                    self.assertEqual((row["edits"], row["commit"], row["by_goal"], row["after"]), ("2", commit, str(by_goal), "-"))
                    self.assertRegex(row["tried"], r"^\d{4}-\d\d-\d\dT\d\d:\d\dZ$")

    def test_turns_of_a_large_crate(self) -> None:
        """A turn ends after 20 edits, and the next goes on there; the row's commit is that of the first."""
        self.crate("large", [REFUSED] * 45)
        self.crate("small", [REFUSED] * 3)
        commit = self.commit()
        for after in ("edit_19.edit", "edit_39.edit"):
            self.assertEqual(self.run_tool("--turn").stdout.splitlines()[-1], "20 passed, 0 failed")
            row = self.row("large")
            self.assertEqual((row["tried"], row["after"], row["since"]), ("never", after, commit))
        self.write("crates/large/src/lib.rt", "// changed")
        self.commit()
        self.assertEqual(self.planned(), [f"large/edit_{it}.edit" for it in range(40, 45)])
        self.run_tool("--turn")
        row = self.row("large")
        self.assertEqual((row["edits"], row["commit"], row["by_goal"], row["after"]), ("45", commit, "45", "-"))
        # It changed meanwhile, so it comes first once more, and the crate that was never tried has no room.
        self.assertEqual(self.planned(), [f"large/edit_{it:02}.edit" for it in range(20)])

    def test_order_of_a_turn(self) -> None:
        """First crates that changed, the longest not tried first, then the one crate that was longest not tried."""
        for name, count in (("one", 3), ("two", 3), ("three", 12), ("four", 10)):
            self.crate(name, [REFUSED] * count)
        self.commit()
        self.run_tool("one", "two", "three", "four")
        for name, tried in (("one", "2026-01-04"), ("two", "2026-01-02"), ("three", "2026-01-03"), ("four", "2026-01-01")):
            self.set_tried(name, f"{tried}T00:00Z")
        self.assertEqual(self.planned(), [f"four/edit_{it:02}.edit" for it in range(10)])
        self.write("crates/one/proofs/one.antt", "")
        self.write("crates/three/wrong-bodies/edit_12.edit", REFUSED)
        self.commit()
        self.assertEqual([it.split("/")[0] for it in self.planned()], ["three"] * 13 + ["one"] * 3 + ["four"] * 4)
        self.run_tool("--turn")
        self.assertEqual((self.row("three")["edits"], self.row("one")["after"], self.row("four")["after"]), ("13", "-", "edit_03.edit"))

    def test_lists_of_several_clones(self) -> None:
        """The later row of each crate stays, also between the marks of a merge; a crate that is gone has none."""
        for name in ("one", "two", "three"):
            self.crate(name, [REFUSED])
        self.commit()
        self.run_tool("one", "two")
        mine = (self.top / LIST).read_text(encoding="utf-8")
        self.set_tried("one", "2001-01-01T00:00Z")
        self.set_tried("two", "2999-01-01T00:00Z")
        theirs = (self.top / LIST).read_text(encoding="utf-8")
        self.write("their list", theirs + "gone\t1\tnever\t-\t0\t0\t-\t-\t0\t0\n")
        self.write(LIST, mine)
        listed = [it for it in mine.splitlines() if it.startswith("one")] + [it for it in theirs.splitlines() if it.startswith("two")]
        for text, words in ((mine, ["their list"]), (f"<<<<<<< one\n{mine}=======\n{theirs}>>>>>>> other\n", [])):
            self.write(LIST, text)
            self.run_tool("--list", *words)
            made = (self.top / LIST).read_text(encoding="utf-8").splitlines()
            self.assertEqual(made, ["\t".join(HEAD), listed[0], "three\t1\tnever\t-\t0\t0\t-\t-\t0\t0", listed[1]])

    def test_words(self) -> None:
        self.crate("one", [REFUSED])
        self.commit()
        for words in (["--dry-run"], ["--turn", "one"], ["--turn", "--list"], ["two"]):
            with self.subTest(words=words):
                self.assertNotEqual(self.run_tool(*words).returncode, 0)
                self.assertFalse((self.top / LIST).exists())


class OfTheRepository(unittest.TestCase):
    def test_list(self) -> None:
        """It has a row for each crate that has wrong bodies, in the order of names (`bench/wrong_bodies.py --list` adds one)."""
        rows = rows_of(TOP / LIST)
        self.assertEqual(list(rows[0]), HEAD)
        crates = sorted(it.parent.name for it in TOP.glob("crates/*/wrong-bodies") if any(it.glob("*.edit")))
        self.assertEqual([it["crate"] for it in rows], crates)
        for row in rows:
            with self.subTest(row["crate"]):
                self.assertRegex(row["tried"], r"^(never|\d{4}-\d\d-\d\dT\d\d:\d\dZ)$")
                self.assertRegex(row["commit"], r"^-$" if row["tried"] == "never" else r"^[0-9a-f]{10,}$")
                self.assertEqual(row["after"] == "-", row["since"] == "-")


if __name__ == "__main__":
    unittest.main()
