"""The operator's page of deploy: its commands are in the manuals, and are played in turn over the built programs by the units' own words."""
import contextlib
import os
import pathlib
import re
import shlex
import signal
import socket
import subprocess
import tempfile
import textwrap
import unittest
from typing import Dict, List

TOP = pathlib.Path(__file__).resolve().parents[1]
PAGE = (TOP / "deploy" / "README.md").read_text(encoding="utf-8")
PROGRAMS = ("s4d", "s4serve", "s4")
BUILT = {name.upper(): os.environ.get(name.upper(), f"{TOP}/crates/{name}/out/{name}") for name in PROGRAMS}
PATIENCE = 300  # seconds for what takes twenty on a machine without other work

# What stands in for systemd, and for users that aren't there; `as ROLE CODE` asks the drive by the bridge's sockets.
PRELUDE = """
systemctl() {
    verb=$1; shift
    [ "$verb" != enable ] || { verb=start; shift; }
    for unit; do "$verb" "$unit"; done
}
start() {
    name=pre_$1
    eval "${!name}"
    name=begin_$1
    : > "$1.log"
    eval "exec ${!name}" > "$1.log" 2>&1 &
    pids[$1]=$!
    until grep -Eq '^(s4serve: serves|ready)' "$1.log"; do kill -0 "${pids[$1]}"; sleep 0.05; done
}
stop() {
    name=end_$1
    MAINPID=${pids[$1]} bash -c "${!name}"
    wait "${pids[$1]}"
}
curl() { python3 -c 'import sys, urllib.request; print(urllib.request.urlopen(sys.argv[1]).read().decode(), end="")' "${@: -1}"; }
install() {
    local words=()
    while [ $# != 0 ]; do case $1 in -o | -g) shift 2 ;; *) words+=("$1"); shift ;; esac; done
    command install "${words[@]}"
}
as() { python3 -c "import s4d, time
drive = s4d.Drive.connect('unix:$sockets/$1.sock')
$2"; }
declare -A pids
trap 'echo "failed: $BASH_COMMAND" >&2' ERR
trap 'kill "${pids[@]}" 2> /dev/null || :' EXIT
"""

# What happens to the drive before a section is played.
MEANWHILE = {
    "Look": "as client 'drive.write(drive.create(b\"note\").object, 0, b\"meet at the mill\")'",
    "Restore": "before=$(date +%s%6N); sleep 0.01; as client 'drive.write(1, 0, b\"MEET AT THE PUB!\"); drive.create(b\"intruder\")'",
    "Full": """before=$(date +%s%6N); sleep 0.01; as client '
try:
    while True: drive.create(b"flood")
except s4d.NoSpace: pass'""",
    "Wedged": """as admin '
try:
    while True: drive.create(b"kept")
except s4d.NoSpace: pass
try: drive.delete(1)
except s4d.NoSpace: pass
else: raise SystemExit("it is not wedged")'""",
    "Upgrade": "as admin 'drive.delete(drive.create(b\"there is room\").object)'",
    "Damaged": "head -c 20000 $image > damaged.image",
}
# What is true once a section was played.
AFTERWARDS = {
    "Start": "grep -qx ok said.Start",
    "Look": "grep -q '^room ' said.Look\ngrep -q 'attribute length 4' said.Look\ngrep -q '<html' report.html",
    "Back up": "grep -q '^sha256 ' 'said.Back up'\ns4d verify backup.image",
    "Restore": "as client 'assert drive.read(1, 0) == b\"meet at the mill\"'\ngrep -q changed said.Restore",
    "Full": """as client '
for _ in range(200):
    try: drive.create(b"there is room"); break
    except s4d.NoSpace: time.sleep(0.1)
else: raise SystemExit("a client has no room")'
[ "$(s4 list $image | grep -c flood)" = 0 ]""",
    "Wedged": "s4 info $image | grep -q '^frames 512$'\nas client 'assert drive.read(1, 0) == b\"meet at the mill\"'",
    "Upgrade": "as client 'assert drive.read(1, 0) == b\"meet at the mill\"'",
    "Damaged": "[ -s left/manifest.jsonl ]",
}


def sections() -> Dict[str, str]:
    """The commands of each section, in order; those of the head come first, under no name."""
    parts = re.split(r"(?m)^## (.*)\n", PAGE)
    named = zip(["", *parts[1::2]], parts[::2])
    return {name: "".join(textwrap.dedent(it) for it in re.findall(r"(?m)(?:^ {4}(?: {4})?\S.*\n)+", text)) for name, text in named}


def unit(name: str, key: str) -> str:
    """What a unit says, its lines that go on as one."""
    text = (TOP / "deploy" / f"{name}.service").read_text(encoding="utf-8").replace("\\\n", "")
    return next(line.partition("=")[2] for line in text.splitlines() if line.startswith(f"{key}="))


class Commands(unittest.TestCase):
    def test_they_are_in_the_manuals(self) -> None:
        """Each command of a program that the page names, and each option that it gives one."""
        lines = [*re.findall(r"`([^`\n]+)`", PAGE), *"".join(sections().values()).splitlines()]
        named = [shlex.split(it) for it in lines if re.match(r"(s4d?|s4serve) ", it)]
        self.assertGreater(len(named), 12)
        for program, *words in named:
            manual = (TOP / f"{program}.1").read_text(encoding="utf-8")
            with self.subTest(program=program, words=words):
                self.assertTrue(program == "s4serve" or f".Cm {words[0]}\n" in manual)
                for option in (it for it in words if it.startswith("--")):
                    self.assertIn(f"Fl -{option[2:]}", manual)


@unittest.skipUnless(all(os.access(path, os.X_OK) for path in BUILT.values()), "a program isn't built")
class Played(unittest.TestCase):
    def setUp(self) -> None:
        folder = tempfile.TemporaryDirectory()
        self.addCleanup(folder.cleanup)
        self.root = folder.name
        for path in ("var/lib/s4serve", "var/log/s4bridge", "run/s4serve/client", "run/s4serve/admin", "run/s4bridge", "etc/systemd/system", "work"):
            os.makedirs(f"{self.root}/{path}")
        for name in ("install.sh", "s4d.1", "s4.1", "s4serve.1", "completions", "deploy"):
            os.symlink(TOP / name, f"{self.root}/work/{name}")
        with socket.socket() as probe:
            probe.bind(("127.0.0.1", 0))
            self.port = probe.getsockname()[1]

    def here(self, text: str) -> str:
        """A text with paths below the test's folder, and the package as it is here."""
        text = text.replace("/opt/s4d/bin/python3 -I", "python3").replace("/opt/s4d/bin/python3", "python3").replace("9469", str(self.port))
        text = re.sub(r"(?<![\w.])/(usr/local|var/lib|var/log|run/s4|etc/systemd)", rf"{self.root}/\1", text)
        return text.replace("./install.sh", f"{TOP}/install.sh").replace("--at 2h", "--at $before").replace("$(date -d '2 hours ago' +%s%6N)", "$before")

    def script(self) -> str:
        """The page as one script; each section's output is in a file of its own."""
        bridge = self.here(unit("s4bridge", "ExecStart")).replace("$TLS", "")
        lines = ["set -euo pipefail", f"sockets={self.root}/run/s4bridge", PRELUDE,
                 f"pre_s4serve={shlex.quote(self.here(unit('s4serve', 'ExecStartPre')))} pre_s4bridge=",
                 f"begin_s4serve={shlex.quote(self.here(unit('s4serve', 'ExecStart')))} begin_s4bridge={shlex.quote(bridge)}",
                 f"end_s4serve={shlex.quote(self.here(unit('s4serve', 'ExecStop')))} end_s4bridge='kill $MAINPID'"]
        for name, commands in sections().items():
            commands = self.here(commands)
            if name == "Stop":
                commands += "systemctl start s4serve s4bridge\n"
            elif name == "Damaged":
                commands = commands.rstrip("\n") + " || [ $? = 1 ]\n"
            lines += [MEANWHILE.get(name, ""), f"{{ {commands}}} > {shlex.quote(f'said.{name}')}", AFTERWARDS.get(name, "")]
            if not name:
                lines.append("s4d new --window 2592000000000 $image 24")
        return "\n".join([*lines, "systemctl stop s4bridge s4serve", ""])

    def test_the_page_is_played(self) -> None:
        built = {name: os.path.realpath(path) for name, path in BUILT.items()}
        os.mkdir(f"{self.root}/bin")
        for name in PROGRAMS:
            os.symlink(built[name.upper()], f"{self.root}/bin/{name}")
        env = {**os.environ, **built, "PATH": f"{self.root}/bin:{os.environ['PATH']}", "PYTHONPATH": str(TOP / "python"),
               "PYTHONDONTWRITEBYTECODE": "1"}
        with subprocess.Popen(["bash", "-c", self.script()], cwd=f"{self.root}/work", env=env, stdin=subprocess.DEVNULL, stdout=subprocess.PIPE,
                              stderr=subprocess.STDOUT, text=True, start_new_session=True) as shell:
            try:
                said, _ = shell.communicate(timeout=PATIENCE)
            finally:
                with contextlib.suppress(ProcessLookupError):
                    os.killpg(shell.pid, signal.SIGKILL)
        logs: List[str] = [path.read_text(encoding="utf-8") for path in pathlib.Path(self.root, "work").glob("*.log")]
        self.assertEqual(shell.returncode, 0, said + "".join(logs))


if __name__ == "__main__":
    unittest.main()
