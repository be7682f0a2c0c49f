"""The package's types, where mypy is installed."""
import importlib.util
import pathlib
import subprocess
import sys
import unittest


class Types(unittest.TestCase):
    @unittest.skipUnless(importlib.util.find_spec("mypy"), "mypy isn't installed")
    def test_mypy(self):
        top = pathlib.Path(__file__).resolve().parents[1]
        words = [sys.executable, "-m", "mypy", "--strict", "-p", "s4d"]
        ran = subprocess.run(words, cwd=top, capture_output=True, check=False)
        self.assertEqual(ran.returncode, 0, ran.stdout.decode())


if __name__ == "__main__":
    unittest.main()
