"""The examples in the package's own text are run as they are written, over the built program."""
import os
import re
import tempfile
import textwrap
import unittest

import s4d

from .built import PROGRAM, S4, TOP, needs_program, needs_s4


@needs_program
class Examples(unittest.TestCase):
    def setUp(self):
        folder = tempfile.TemporaryDirectory()
        self.addCleanup(folder.cleanup)
        self.addCleanup(os.chdir, os.getcwd())
        os.chdir(folder.name)

    def readme(self):
        """The examples of the readme, and the names that the first of them leaves."""
        text = (TOP / "python/README.md").read_text(encoding="utf-8")
        text = text.replace("crates/s4d/out/s4d", PROGRAM).replace("crates/s4/out/s4", S4)
        first, *others = re.findall(r"```python\n(.*?)```", text, re.S)
        names = {}
        exec(first, names)
        return others, names

    def test_the_readme(self):
        _, names = self.readme()
        self.assertEqual(names["image"].read(1, at=names["image"].verify().clock), b"meet at the mill")

    @needs_s4
    def test_the_readme_of_images(self):
        others, names = self.readme()
        for example in others:
            exec(example, names)
        self.assertEqual(names["image"].cat(1), b"meet at the mill")

    def test_the_package(self):
        example = textwrap.dedent(re.search(r"\n(    import s4d\n.*?)\n\n[^ ]", s4d.__doc__, re.S)[1])
        names = {"print": lambda *_: None}
        exec(example.replace("PATH/TO/s4d", PROGRAM), names)
        self.assertEqual(names["replies"][-1].result(), 7)


if __name__ == "__main__":
    unittest.main()
