"""Tests of what bash, zsh and fish complete, each where it is installed, by completions/ and tests/bin/completions."""
import os
import pathlib
import re
import shutil
import subprocess
import tempfile
import unittest
from concurrent.futures import ThreadPoolExecutor

TOP = pathlib.Path(__file__).resolve().parents[1]
PROGRAMS = {name: os.environ.get(name.upper(), f"{TOP}/crates/{name}/out/{name}") for name in ("s4", "s4serve")}
COMMANDS = "audit cat check compact copy diff export help info list log report restore salvage".split()
FILES = ["drive.image", "drives", "kept", "other drive"]

# The words of a line, of which the last is being completed, and what it is completed to.
CASES = [
    (["s4", ""], COMMANDS),
    (["s4", "c"], ["cat", "check", "compact", "copy"]),
    (["s4", "reset"], []),
    (["s4", "-"], ["--help", "--version"]),
    (["s4", "restore", "--k"], ["--keep-newer"]),
    (["s4", "restore", "--to"], ["--to-nothing"]),
    (["s4", "diff", "--p"], ["--patch"]),
    # After help comes one command, and no option.
    (["s4", "help", "re"], ["report", "restore"]),
    (["s4", "help", "-"], []),
    (["s4", "help", "list", ""], []),
    # A number or a moment isn't completed; then comes the image, a file.
    (["s4", "cat", "--at", ""], []),
    (["s4", "cat", "--at="], []),
    (["s4", "cat", "--at=5", ""], FILES),
    (["s4", "list", "--json", "--at", "5", "d"], ["drive.image", "drives"]),
    (["s4", "restore", "--object", "1", "--object", "2", "--at", "5", "--dry-run", "o"], ["other drive"]),
    (["s4", "list", "--json", "--v"], ["--version", "--versions"]),
    (["s4", "list", "--json", "--versions", "--c"], ["--contents"]),
    (["s4", "list", "--", "--j"], []),
    (["s4", "list", "--", "d"], ["drive.image", "drives"]),
    (["s4", "log", "--kind", ""], ["attribute", "cut", "deleted", "lengthened", "made", "touched", "written"]),
    (["s4", "log", "--kind=l"], ["--kind=lengthened"]),
    (["s4", "audit", "--kind", "set"], ["setattr", "setwindow"]),
    (["s4", "audit", "--kind=flush"], ["--kind=flush", "--kind=flusho"]),
    (["s4", "log", "--name", "d"], []),
    # What an earlier restore printed is a file.
    (["s4", "restore", "--map", "d"], ["drive.image", "drives"]),
    (["s4", "restore", "--map=o"], ["--map=other drive"]),
    # Only export and salvage have a folder after the image.
    (["s4", "export", "--at", "5", "drive.image", ""], ["drives", "kept"]),
    (["s4", "export", "drive.image", "drives", ""], []),
    (["s4", "salvage", "drive.image", "k"], ["kept"]),
    (["s4", "cat", "drive.image", ""], []),
    (["s4", "diff", "drive.image", "5", ""], []),
    # A session is a role and two files.
    (["s4d", ""], ["at", "migrate", "new", "pipe", "run", "verify"]),
    (["s4d", "new", "--"], ["--window"]),
    (["s4d", "run", "--"], ["--no-upkeep", "--tick"]),
    (["s4d", "pipe", "--frames", "24", "--w"], ["--window"]),
    (["s4d", "verify", "drive.i"], ["drive.image"]),
    (["s4d", "verify", "drive.image", ""], []),
    (["s4d", "new", "--window=5", "d"], ["drive.image", "drives"]),
    (["s4d", "migrate", "drive.image", "o"], ["other drive"]),
    (["s4d", "pipe", ""], ["admin", "client"]),
    (["s4d", "run", "drive.image", ""], ["admin:", "client:"]),
    (["s4d", "run", "drive.image", "client:dr"], ["client:drive.image", "client:drives"]),
    (["s4d", "run", "--tick", "0", "drive.image", "admin:in:out", "client:in:k"], ["client:in:kept"]),
    # A door is a role and a folder.
    (["s4serve", "--cr"], ["--create"]),
    (["s4serve", "--create", ""], []),
    (["s4serve", "--keep", "3"], []),
    (["s4serve", "--door", ""], ["admin=", "client="]),
    (["s4serve", "--door", "a"], ["admin="]),
    (["s4serve", "--door", "client="], ["client=drives", "client=kept"]),
    (["s4serve", "--door", "client=d"], ["client=drives"]),
    (["s4serve", "--door=admin=k"], ["--door=admin=kept"]),
    (["s4serve", "--keep", "30d", "--create=24", "--door", "client=drives", "d"], ["drive.image", "drives"]),
    (["s4serve", "drive.image", ""], []),
]


def completed(shell, folder, words):
    ran = subprocess.run([TOP / "tests/bin/completions", shell, *words], cwd=folder, stdin=subprocess.DEVNULL, capture_output=True,
                         text=True, timeout=600, check=False)
    return ran.stdout.splitlines(), ran.stderr, ran.returncode


class Shell:
    """The cases, in the shell `name`."""
    name: str

    @classmethod
    def setUpClass(cls):
        if not shutil.which(cls.name):
            raise unittest.SkipTest(f"no {cls.name} is installed")

    def setUp(self):
        folder = tempfile.TemporaryDirectory()
        self.addCleanup(folder.cleanup)
        self.folder = pathlib.Path(folder.name)
        for name in ("drive.image", "other drive"):
            (self.folder / name).touch()
        for name in ("drives", "kept"):
            (self.folder / name).mkdir()

    def completed(self, lines):
        """What the last word of each of these lines is completed to, and what else was printed, two lines at once."""
        with ThreadPoolExecutor(2) as pool:
            return list(pool.map(lambda words: completed(self.name, self.folder, words), lines))

    def test_words(self):
        for (words, wanted), found in zip(CASES, self.completed([words for words, _ in CASES])):
            with self.subTest(words):
                self.assertEqual(found, (wanted, "", 0))

    def options(self, program, *command):
        """The options that the program's own help names."""
        said = subprocess.run([PROGRAMS[program], *command, "--help"], capture_output=True, text=True, check=True).stdout
        return sorted(re.findall(r"(?m)^ *(?:-[a-zA-Z], )? *(--[a-z-]+)", said))

    @unittest.skipUnless(os.access(PROGRAMS["s4"], os.X_OK), "s4 isn't built")
    def test_options_are_those_of_the_help(self):
        commands = [[], *([it] for it in COMMANDS if it != "help")]
        for command, found in zip(commands, self.completed([["s4", *command, "-"] for command in commands])):
            with self.subTest(command):
                self.assertEqual(found, (self.options("s4", *command), "", 0))

    @unittest.skipUnless(os.access(PROGRAMS["s4serve"], os.X_OK), "s4serve isn't built")
    def test_options_of_the_service(self):
        self.assertEqual(self.completed([["s4serve", "-"]]), [(self.options("s4serve"), "", 0)])


class Bash(Shell, unittest.TestCase):
    name = "bash"


class Zsh(Shell, unittest.TestCase):
    name = "zsh"


class Fish(Shell, unittest.TestCase):
    name = "fish"


@unittest.skipUnless(shutil.which("fish") and shutil.which("zsh"), "zsh or fish isn't installed")
class Installed(unittest.TestCase):
    """What install.sh put in place is found by a shell that looks there."""

    def test_zsh_and_fish_find_them(self):
        with tempfile.TemporaryDirectory() as prefix:
            env = {**os.environ, **dict.fromkeys(("S4D", "S4", "S4SERVE"), shutil.which("true")), "XDG_DATA_DIRS": f"{prefix}/share",
                   "HOME": prefix, "XDG_CONFIG_HOME": prefix, "TERM": "dumb", "PATH": f"{prefix}/bin:{os.environ['PATH']}"}
            subprocess.run([TOP / "install.sh", prefix], env=env, stdout=subprocess.DEVNULL, check=True)
            for words, wanted in ((["fish", "-c", "complete -C 's4 c' | cut -f 1"], "cat\ncheck\ncompact\ncopy\n"),
                                  (["zsh", "-fc", "fpath=($0 $fpath); autoload -Uz compinit; compinit -D -u; print $_comps[s4] $_comps[s4d]",
                                    f"{prefix}/share/zsh/site-functions"], "_s4 _s4d\n")):
                ran = subprocess.run(words, env=env, stdin=subprocess.DEVNULL, capture_output=True, text=True, check=False)
                self.assertEqual((ran.stdout, ran.returncode), (wanted, 0), ran.stderr)


class Files(unittest.TestCase):
    def test_they_are_what_the_table_gives(self):
        with tempfile.TemporaryDirectory() as folder:
            subprocess.run([TOP / "completions/make", folder], check=True)
            made = {path.name: path.read_bytes() for path in pathlib.Path(folder).iterdir()}
        there = {path.name: path.read_bytes() for path in (TOP / "completions").iterdir() if path.name != "make"}
        self.assertEqual(made, there, "run completions/make")


if __name__ == "__main__":
    unittest.main()
