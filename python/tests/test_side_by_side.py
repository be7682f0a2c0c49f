"""What runs modules of tests side by side, over small ones: what fails is said, and nothing is left running."""
import os
import pathlib
import subprocess
import sys
import tempfile
import unittest

from .bridged import PACKAGE, PATIENCE

RUNNER = PACKAGE / "tests" / "side_by_side.py"
MODULE = """
import subprocess, unittest
class It(unittest.TestCase):
    def test_it(self):
        print("said by {name}", flush=True)
        {line}
"""


class SideBySide(unittest.TestCase):
    def setUp(self):
        folder = tempfile.TemporaryDirectory()
        self.addCleanup(folder.cleanup)
        self.folder = pathlib.Path(folder.name)

    def run_all(self, *words, **lines):
        """Runs modules of one test each: the status, and the lines that are printed."""
        paths = [self.folder / f"test_{name}.py" for name in lines]
        for path, (name, line) in zip(paths, lines.items()):
            path.write_text(MODULE.format(name=name, line=line), encoding="utf-8")
        ran = subprocess.run([sys.executable, "-B", RUNNER, *words, *paths], cwd=self.folder, capture_output=True, text=True, timeout=PATIENCE, check=False)
        self.assertEqual(ran.stderr, "")
        return ran.returncode, ran.stdout.splitlines()

    def check_ended(self, file):
        with self.assertRaises(ProcessLookupError):
            os.kill(int((self.folder / file).read_text(encoding="ascii")), 0)

    def test_all_is_well(self):
        status, printed = self.run_all("--also", "true", one="pass", two="pass")
        self.assertEqual((status, printed[-3:]), (0, ["Ran 2 tests", "", "ok"]))
        self.assertFalse([line for line in printed if line.startswith("said by")])

    def test_what_fails_is_shown(self):
        status, printed = self.run_all("--also", "echo wrong; exit 3", good="pass", bad="self.fail('why')")
        self.assertEqual((status, printed[-3]), (1, "Ran 2 tests"))
        self.assertEqual(printed[-1], "FAILED: echo wrong; exit 3, test_bad")
        for line in ("said by bad", "AssertionError: why", "test_bad: FAILED: status 1", "wrong", "echo wrong; exit 3: FAILED: status 3"):
            self.assertIn(line, printed)
        self.assertNotIn("said by good", printed)

    def test_a_module_without_tests(self):
        (self.folder / "test_none.py").write_text("", encoding="ascii")
        status, printed = self.run_all(str(self.folder / "test_none.py"), good="pass")
        self.assertEqual((status, printed[-3:]), (1, ["Ran 1 tests", "", "FAILED: test_none"]))

    def test_what_does_not_end(self):
        """It is ended with what it began, in whichever session; the limit is longer until it has come so far."""
        line = "setsid sleep 600 & echo $! > pid; sleep 600"
        for limit in (1, 4, 16, 64):
            status, printed = self.run_all("--limit", str(limit), "--also", line, good="pass")
            self.assertEqual((status, printed[-1].startswith(f"FAILED: {line}")), (1, True))
            self.assertIn(f"{line}: FAILED: not ended in {limit} seconds", printed)
            if (self.folder / "pid").exists():
                break
        self.check_ended("pid")

    def test_what_is_left_is_ended(self):
        status, _ = self.run_all("--also", "setsid sleep 600 > /dev/null & echo $! > pid", one="pass")
        self.assertEqual(status, 0)
        self.check_ended("pid")


if __name__ == "__main__":
    unittest.main()
