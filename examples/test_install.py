"""Tests of install.sh over files that are put in the place of the built programs, and of README's first commands over the programs."""
import contextlib
import os
import pathlib
import re
import shutil
import signal
import socket
import subprocess
import sys
import tempfile
import textwrap
import unittest

TOP = pathlib.Path(__file__).resolve().parents[1]
BUILT = {name.upper(): os.environ.get(name.upper(), f"{TOP}/crates/{name}/out/{name}") for name in ("s4d", "s4serve", "s4")}
PATIENCE = 300  # seconds for what takes a few on a machine without other work
MANUALS = {f"share/man/man1/{name}.1": f"{name}.1" for name in ("s4d", "s4serve", "s4")}
COMPLETIONS = {f"share/{folder}{name}{ending}": f"completions/{source}" for name in ("s4d", "s4serve", "s4")
               for folder, ending, source in (("bash-completion/completions/", "", f"{name}.bash"), ("zsh/site-functions/_", "", f"_{name}"),
                                              ("fish/vendor_completions.d/", ".fish", f"{name}.fish"))}
PUT = {**{f"bin/{name}": 0o755 for name in ("s4d", "s4serve", "s4")}, **{name: 0o644 for name in (*MANUALS, *COMPLETIONS)}}


class Install(unittest.TestCase):
    def setUp(self):
        folder = tempfile.TemporaryDirectory()
        self.addCleanup(folder.cleanup)
        self.folder = pathlib.Path(folder.name)
        for name in ("s4d", "s4serve", "s4"):
            (self.folder / name).write_text(f"#!/bin/sh\necho {name}\n", encoding="utf-8")
            (self.folder / name).chmod(0o755)

    def install(self, *words):
        env = {**os.environ, **{name.upper(): f"{self.folder}/{name}" for name in ("s4d", "s4serve", "s4")}}
        ran = subprocess.run([TOP / "install.sh", *words], env=env, cwd=self.folder, capture_output=True, text=True, check=False)
        return ran.returncode, ran.stdout, ran.stderr

    def files(self, prefix):
        return {str(path.relative_to(prefix)) for path in prefix.rglob("*") if path.is_file()}

    def test_all_is_put_in_place(self):
        prefix = self.folder / "a prefix"
        for _ in range(2):  # the second time over the first one's files
            status, said, complaint = self.install("a prefix")
            self.assertEqual((status, complaint), (0, ""))
            self.assertEqual(said.splitlines(), [f"a prefix/{name}" for name in PUT])
            self.assertEqual(self.files(prefix), set(PUT))
        self.assertEqual({name: (prefix / name).stat().st_mode & 0o777 for name in PUT}, PUT)
        for name in ("s4d", "s4serve", "s4"):
            self.assertEqual(subprocess.run([prefix / "bin" / name], capture_output=True, text=True, check=True).stdout, f"{name}\n")
        for name, source in (*MANUALS.items(), *COMPLETIONS.items()):
            self.assertEqual((prefix / name).read_bytes(), (TOP / source).read_bytes())

    def test_a_program_that_is_not_built_is_named(self):
        for missing in (["s4"], ["s4d"], ["s4serve"], ["s4d", "s4serve", "s4"]):
            for name in missing:
                (self.folder / name).rename(self.folder / f"{name}.away")
            status, said, complaint = self.install("prefix")
            self.assertEqual((status, said), (1, ""))
            self.assertFalse((self.folder / "prefix").exists())
            lines = complaint.splitlines()
            self.assertEqual(len(lines), len(missing))
            for name, line in zip(missing, lines):
                self.assertTrue(line.startswith(f"install.sh: {self.folder}/{name} isn't built: (cd {TOP}/crates/{name} && rt run "))
            for name in missing:
                (self.folder / f"{name}.away").rename(self.folder / name)

    def test_a_file_that_cannot_be_written(self):
        (self.folder / "prefix").write_text("", encoding="utf-8")
        status, said, complaint = self.install("prefix")
        self.assertEqual((status, said), (1, ""))
        self.assertNotEqual(complaint, "")

    def test_usage(self):
        for words in ((), ("",), ("one", "two")):
            self.assertEqual(self.install(*words), (2, "", "usage: install.sh PREFIX\n"))
        status, said, complaint = self.install("--help")
        self.assertEqual((status, complaint), (0, ""))
        self.assertIn("./install.sh PREFIX", said)


def curl_signs():
    """Whether there is a curl that signs requests of S3."""
    if shutil.which("curl") is None:
        return False
    said = subprocess.run(["curl", "--version"], capture_output=True, text=True, check=True).stdout
    return tuple(map(int, re.match(r"curl (\d+)\.(\d+)", said).groups())) >= (7, 88)


def is_free(port):
    """Whether nobody listens at a port of this machine."""
    with socket.socket() as probe:
        return probe.connect_ex(("127.0.0.1", port)) != 0


def free_port():
    with socket.socket() as probe:
        probe.bind(("127.0.0.1", 0))
        return probe.getsockname()[1]


@unittest.skipUnless(all(os.access(path, os.X_OK) for path in BUILT.values()), "a program isn't built")
class Readme(unittest.TestCase):
    def block(self):
        """README's first commands, line by line, each with what it prints there."""
        steps = []
        for line in re.search(r"(?m)(^    .*\n)+", (TOP / "README.md").read_text(encoding="utf-8")).group().splitlines():
            if line.startswith("    $ "):
                steps.append((line[6:], []))
            else:
                steps[-1][1].append(line[4:])
        return steps

    def test_the_first_commands_run_as_they_are_typed(self):
        steps = self.block()
        self.assertGreater(len(steps), 8)
        with tempfile.TemporaryDirectory() as folder:
            for name in ("install.sh", "s4d.1", "s4serve.1", "s4.1"):
                shutil.copy(TOP / name, folder)
            for name in ("completions", "examples", "python"):
                os.symlink(TOP / name, f"{folder}/{name}")
            # One shell does all, as at a prompt; each command's output is in a file of its own.
            typed = "".join(f"{{ {command}\n}} > said.{number} 2>&1\n" for number, (command, _) in enumerate(steps))
            env = {**os.environ, **BUILT, "HOME": folder, "PYTHONDONTWRITEBYTECODE": "1"}
            ran = subprocess.run(["bash", "-e"], input=typed, env=env, cwd=folder, capture_output=True, text=True, check=False)
            self.assertEqual((ran.returncode, ran.stdout, ran.stderr), (0, "", ""))
            for number, (command, lines) in enumerate(steps):
                if "install.sh" not in command:
                    with self.subTest(command):
                        self.assertEqual(pathlib.Path(f"{folder}/said.{number}").read_text(encoding="utf-8").splitlines(), lines)
            self.assertIn("<html", pathlib.Path(f"{folder}/report.html").read_text(encoding="utf-8").lower())


    def typed(self, mark, change=lambda it: it):
        """What README's block with the mark prints, typed in the folder python, and what it says; all that it began has ended then."""
        blocks = re.findall(r"(?m)(?:^    .*\n)+", (TOP / "README.md").read_text(encoding="utf-8"))
        typed = change(textwrap.dedent(next(block for block in blocks if mark in block)))
        with tempfile.TemporaryDirectory() as folder:
            os.mkdir(f"{folder}/bin")
            for name in ("s4d", "s4serve", "s4"):
                os.symlink(os.path.realpath(BUILT[name.upper()]), f"{folder}/bin/{name}")
            for name in ("s4d", "README.md"):
                os.symlink(TOP / "python" / name, f"{folder}/{name}")
            env = {**os.environ, "PATH": f"{folder}/bin:{os.environ['PATH']}", "PYTHONDONTWRITEBYTECODE": "1"}
            with subprocess.Popen(["bash"], cwd=folder, env=env, stdin=subprocess.PIPE, stdout=subprocess.PIPE, stderr=subprocess.PIPE,
                                  text=True, start_new_session=True) as shell:
                try:
                    printed, said = shell.communicate(typed, timeout=PATIENCE)  # as long as any of them could still write
                    with self.assertRaises(ProcessLookupError):
                        os.killpg(shell.pid, 0)
                finally:
                    with contextlib.suppress(ProcessLookupError):
                        os.killpg(shell.pid, signal.SIGKILL)
            self.assertEqual((shell.returncode, [line for line in said.splitlines() if not line.startswith("s4serve: ")]), (0, []))
            return printed

    def test_the_service_runs_as_it_is_typed(self):
        """A client gets its session at the first try, and what was begun has ended with the last line."""
        self.assertRegex(self.typed("s4d.bridge"), r"\Aready\nCreated\(object=1, moment=\d{16}\)\n\Z")

    @unittest.skipUnless(curl_signs(), "curl is older than 7.88, or isn't here")
    def test_the_store_runs_as_it_is_typed(self):
        """What curl puts is there, and once it is deleted it can be read as it was before."""
        port = 9000 if is_free(9000) else free_port()

        def elsewhere(typed):
            return typed.replace(":9000", f":{port}").replace("serve store", f"serve store --listen 127.0.0.1:{port}")

        printed = self.typed("s4d.store", elsewhere if port != 9000 else lambda it: it)
        self.assertEqual(printed.splitlines()[1:], [f"ready: http://127.0.0.1:{port}", "# `s4d` for Python"])


def python_that_builds():
    """The folder of a python3 that makes environments, and has setuptools and wheel: none where there is none."""
    for folder in (os.path.dirname(sys.executable), "/usr/bin"):
        program = f"{folder}/python3"
        if os.access(program, os.X_OK) and not subprocess.run(
                [program, "-Ic", "import ensurepip, setuptools, venv, wheel"], capture_output=True, check=False).returncode:
            return folder
    return None


class Package(unittest.TestCase):
    """The Python package is installed without a network, by the words of its readme and of the bridge's unit."""

    @staticmethod
    def command(file):
        """The line of a file that makes an environment and installs the package there."""
        return re.search(r"(python3 -m venv .*)", (TOP / file).read_text(encoding="utf-8"))[1]

    def test_readme_and_unit_say_the_same(self):
        unit = self.command("deploy/s4bridge.service")
        self.assertEqual(unit.replace("/opt/s4d", "venv"), self.command("python/README.md"))
        self.assertIn("\nExecStart=/opt/s4d/bin/python3 -I -m s4d.bridge ", (TOP / "deploy/s4bridge.service").read_text(encoding="utf-8"))

    def test_it_is_installed_in_a_fresh_environment(self):
        folder_of_python = python_that_builds()
        if folder_of_python is None:
            self.skipTest("no python3 here has venv, setuptools and wheel")
        with tempfile.TemporaryDirectory() as folder:
            shutil.copytree(TOP / "python", f"{folder}/python", ignore=shutil.ignore_patterns("tests", "build", "*.egg-info", "__pycache__"))
            nowhere = "http://127.0.0.1:9"  # that no proxy serves
            env = {"PATH": f"{folder_of_python}:/usr/bin:/bin", "HOME": folder, "http_proxy": nowhere, "https_proxy": nowhere}
            ran = subprocess.run(["sh", "-ec", self.command("python/README.md")], env=env, cwd=folder, capture_output=True, text=True, check=False)
            self.assertEqual(ran.returncode, 0, ran.stdout + ran.stderr)
            shutil.rmtree(f"{folder}/python")
            for words, wanted in ((["-c", "import s4d; print(s4d.__file__)"], f"{folder}/venv/lib/"), (["-m", "s4d.bridge", "--help"], "--doors")):
                ran = subprocess.run([f"{folder}/venv/bin/python3", "-I", *words], env=env, cwd=folder, capture_output=True, text=True, check=True)
                self.assertIn(wanted, ran.stdout)
            self.assertEqual(len(list(pathlib.Path(folder).glob("venv/lib/*/site-packages/s4d/py.typed"))), 1)


if __name__ == "__main__":
    unittest.main()
