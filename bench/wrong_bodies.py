#!/usr/bin/env python3
"""Tries the wrong bodies that the gate leaves out: the edits of crates/*/wrong-bodies, each of which the prover must refuse.

    bench/wrong_bodies.py [--jobs N] [--nice N] [CRATE..]            at the top of the repository; of all crates, the lowest first,
                                                                     where none is named
    bench/wrong_bodies.py [--jobs N] [--nice N] --turn [--dry-run]   at most 20 edits: first those of each crate whose sources or
                                                                     edits changed since it was tried, then of the crate that was
                                                                     longest not tried; or prints which these are
    bench/wrong_bodies.py --list [FILE..]                            writes the list anew, with what is later in other such files

Each crate's edits are tried by `rt must-fail`, N at a time, in a copy of the repository that goes at the end. A library that
`rt check` built here is taken over with its stamp; `rt` builds those that lack one, or whose stamp is another. What it refused
it keeps on this machine, so an edit is tried again only where its crate changed, or one below.

Prints each edit that wasn't refused, or couldn't be applied, or was refused by no contract (by a proof file that names what the
edit took away, or a limit of the prover), a line for each crate, and last 'N passed, M failed'. The status is 0 where none failed.

The list is docs/wrong-bodies.tsv, which has a row for each crate, in the order of names, and gets it anew once all edits of the
crate were tried: how many there are, when and at which commit, how many were refused by a goal, and in how many seconds. A turn
that ends amid a crate's edits leaves in the last four columns after which, the commit at which it began with the first, and the
same two counts so far; the next goes on there. A row gets that commit at the end, so what changed meanwhile is tried once more.
To take another clone's rows over, name its list after --list, also where a merge of both conflicts.
"""
import argparse
import dataclasses
import fcntl
import os
import re
import shutil
import subprocess
import sys
import tempfile
import time
from typing import Dict, Iterable, List, NamedTuple, TextIO, Tuple

OWN = ("out", "must-fail", "wrong-bodies")
REFUSED = "refused, as it must be"
# What says nothing of the edit: its check ended by a signal, or in no verdict.
UNTRIED = "NOT TRIED"
LIST = "docs/wrong-bodies.tsv"
MOST_OF_A_TURN = 20
NEVER, NONE = "never", "-"


@dataclasses.dataclass(frozen=True)
class Row:
    """What the list has of a crate. The last four say how far turns came since; `after` is NONE where none is under way."""

    crate: str
    edits: int
    tried: str = NEVER
    commit: str = NONE
    by_goal: int = 0
    seconds: int = 0
    after: str = NONE
    since: str = NONE
    by_goal_so_far: int = 0
    seconds_so_far: int = 0

    def age(self) -> Tuple[str, str]:
        """Of two rows of a crate the later one has the greater."""
        return "" if self.tried == NEVER else self.tried, "" if self.after == NONE else self.after


class Tried(NamedTuple):
    """What a try of some of a crate's edits came to."""

    edits: int
    refused: int
    by_goal: int
    untried: int
    seconds: int


class Part(NamedTuple):
    """The edits of a crate that are tried, and why."""

    edits: List[str]
    why: str


def edits_of(crate: str) -> List[str]:
    folder = f"crates/{crate}/wrong-bodies"
    return sorted(it for it in os.listdir(folder) if not it.endswith(".md")) if os.path.isdir(folder) else []


def crates_with_any() -> List[str]:
    """The crates that have wrong bodies beside the gate, those that use the fewest others first."""
    with open("crates.txt", encoding="utf-8") as file:
        lines = [line.partition(":") for line in file if not line.startswith("#")]
    named = sorted((len(below.split()), front.split()[0]) for front, _, below in lines if front.strip())
    return [name for _, name in named if edits_of(name)]


def rows_in(lines: Iterable[str]) -> Dict[str, Row]:
    """The rows of a list, by crate; of several of one crate the latest, and what a merge put between them is passed over."""
    rows: Dict[str, Row] = {}
    for line in lines:
        cells = line.rstrip("\n").split("\t")
        if len(cells) != len(dataclasses.fields(Row)) or not cells[1].isdigit():
            continue
        name, edits, tried, commit, by_goal, seconds, after, since, *so_far = cells
        row = Row(name, int(edits), tried, commit, int(by_goal), int(seconds), after, since, *map(int, so_far))
        rows[name] = max(rows.get(name, row), row, key=Row.age)
    return rows


def list_rows() -> Dict[str, Row]:
    """A row for each crate that has wrong bodies."""
    found: Dict[str, Row] = {}
    if os.path.exists(LIST):
        with open(LIST, encoding="utf-8") as file:
            found = rows_in(file)
    return {it: found.get(it, Row(it, len(edits_of(it)))) for it in sorted(crates_with_any())}


def write_rows(file: TextIO, rows: Dict[str, Row]) -> None:
    print(*(it.name for it in dataclasses.fields(Row)), sep="\t", file=file)
    for name in sorted(crates_with_any()):
        row = rows.get(name, Row(name, 0))
        row = dataclasses.replace(row, edits=len(edits_of(name))) if row.tried == NEVER else row
        print(*dataclasses.astuple(row), sep="\t", file=file)


def put_rows(new: Dict[str, Row]) -> None:
    """Puts rows into the list as it is by now, since several runs may write to it."""
    with open(LIST, "a+", encoding="utf-8") as file:
        fcntl.flock(file, fcntl.LOCK_EX)
        file.seek(0)
        rows = rows_in(file)
        file.seek(0)
        file.truncate()
        write_rows(file, {**rows, **new})


def take_lists(paths: List[str]) -> None:
    """Puts those rows into the list that are later in other lists."""
    rows = list_rows()
    for path in paths:
        with open(path, encoding="utf-8") as file:
            for name, row in rows_in(file).items():
                rows[name] = max(rows.get(name, row), row, key=Row.age)
    put_rows(rows)


def head() -> str:
    words = ["git", "rev-parse", "--short=10", "HEAD"]
    return subprocess.run(words, stdout=subprocess.PIPE, text=True, check=True).stdout.strip()


def has_changed(row: Row) -> bool:
    """Whether a crate's sources or edits changed since it was tried; where git doesn't have that commit, they may have."""
    folders = [f"crates/{row.crate}/{it}" for it in ("src", "specs", "proofs", "wrong-bodies")]
    words = ["git", "diff", "--quiet", row.commit, "--", *folders]
    return subprocess.run(words, stderr=subprocess.DEVNULL, check=False).returncode != 0


def rest_of(row: Row) -> List[str]:
    """The edits with which a turn goes on."""
    edits = edits_of(row.crate)
    return [it for it in edits if row.after != NONE and it > row.after] or edits


def plan_turn(rows: Dict[str, Row]) -> Dict[str, Part]:
    """What a turn tries: of the crates that changed, the longest not tried first; then of the one that was longest not tried."""
    oldest = sorted(rows.values(), key=lambda it: (it.age()[0], it.after == NONE, it.crate))
    changed = [it for it in oldest if it.tried != NEVER and has_changed(it)]
    others = [it for it in oldest if it not in changed]
    parts: Dict[str, Part] = {}
    room = MOST_OF_A_TURN
    for row in [*changed, *others[:1]]:
        why = f"changed since {row.commit}" if row in changed else f"the longest not tried: {row.tried}"
        if room:
            parts[row.crate] = Part(rest_of(row)[:room], why)
            room -= len(parts[row.crate].edits)
    return parts


def advance(row: Row, edits: List[str], part: List[str], commit: str, tried: Tried) -> Row:
    """A crate's row after a try of a part of its edits: a part that begins with the first begins anew."""
    goes_on = part[0] != edits[0]
    since = row.since if goes_on else commit
    by_goal = tried.by_goal + (row.by_goal_so_far if goes_on else 0)
    seconds = tried.seconds + (row.seconds_so_far if goes_on else 0)
    if part[-1] == edits[-1]:
        return Row(row.crate, len(edits), time.strftime("%Y-%m-%dT%H:%MZ", time.gmtime()), since, by_goal, seconds)
    return dataclasses.replace(row, after=part[-1], since=since, by_goal_so_far=by_goal, seconds_so_far=seconds)


def link_or_copy(one: str, other: str) -> None:
    """`rt` never writes into a file of a library: it removes it before it makes it anew."""
    try:
        os.link(one, other)
    except OSError:
        shutil.copy2(one, other)


def copy_repository(clone: str, parts: Dict[str, Part]) -> None:
    """Copies the crates, and gives those that are tried some of their wrong bodies as edits, in place of the gate's own."""
    for name in ("crates.txt", "HANDLES"):
        shutil.copy(name, clone)
    for name in os.listdir("crates"):
        here, there = f"crates/{name}", f"{clone}/crates/{name}"
        shutil.copytree(here, there, ignore=lambda folder, _: OWN if folder == here else ())
        if name in parts:
            os.mkdir(f"{there}/must-fail")
            for edit in parts[name].edits:
                shutil.copy(f"{here}/wrong-bodies/{edit}", f"{there}/must-fail")
        if os.path.isfile(f"{here}/out/rlib/stamp"):
            shutil.copytree(f"{here}/out/rlib", f"{there}/out/rlib", copy_function=link_or_copy)


def try_crate(clone: str, name: str, edits: List[str], options: argparse.Namespace) -> Tried:
    """Tries some of a crate's edits, and counts what they came to."""
    began = time.time()
    words = ["nice", "-n", str(options.nice), "rt", "must-fail", name]
    ran = subprocess.run(words, cwd=clone, env={**os.environ, "RT_JOBS": str(options.jobs)}, stdout=subprocess.PIPE,
                         stderr=subprocess.STDOUT, text=True, errors="replace", check=False)
    told = dict(re.findall(rf"^rt: must-fail {name}/(\S+): (.*)$", ran.stdout, re.MULTILINE))
    said = {it: told.get(it, UNTRIED) for it in edits}
    refused = [it for it in edits if said[it].startswith(REFUSED)]
    by_goal = [it for it in refused if not said[it].startswith(f"{REFUSED} (only")]
    for edit in edits:
        if edit not in by_goal:
            print(f"{name}/{edit}: {said[edit]}", flush=True)
    if not told:
        print(ran.stdout[-2000:].rstrip())
    seconds = round(time.time() - began)
    print(f"{name}: {len(refused)} of {len(edits)} refused, {len(by_goal)} by a goal, {seconds} s", flush=True)
    untried = sum(it.startswith(UNTRIED) for it in said.values())
    return Tried(len(edits), len(refused), len(by_goal), untried, seconds)


def try_parts(parts: Dict[str, Part], options: argparse.Namespace) -> int:
    """Tries parts of crates' edits, puts their rows into the list, and gives the status."""
    commit, count, refused = head(), 0, 0
    with tempfile.TemporaryDirectory(prefix="wrong-bodies-") as clone:
        copy_repository(clone, parts)
        for name, part in parts.items():
            tried = try_crate(clone, name, part.edits, options)
            count, refused = count + tried.edits, refused + tried.refused
            if not tried.untried:
                put_rows({name: advance(list_rows()[name], edits_of(name), part.edits, commit, tried)})
    print(f"{refused} passed, {count - refused} failed")
    return 0 if refused == count else 1


def main() -> int:
    parser = argparse.ArgumentParser(description=__doc__, formatter_class=argparse.RawDescriptionHelpFormatter)
    parser.add_argument("--jobs", type=int, default=1, help="edits that are tried at a time (1)")
    parser.add_argument("--nice", type=int, default=0, help="the niceness of rt (0)")
    parser.add_argument("--turn", action="store_true", help=f"try at most {MOST_OF_A_TURN} edits, those that are due")
    parser.add_argument("--dry-run", action="store_true", help="print what a turn would try")
    parser.add_argument("--list", action="store_true", help="write the list anew; after it come other lists, and no crates")
    parser.add_argument("names", nargs="*", metavar="CRATE")
    options = parser.parse_args()
    if options.dry_run and not options.turn or options.turn and (options.list or options.names):
        parser.error("a turn chooses its crates by itself, and --dry-run is of a turn alone")
    if options.list:
        take_lists(options.names)
        return 0
    found = crates_with_any()
    unknown = [it for it in options.names if it not in found]
    if unknown:
        sys.exit(f"wrong_bodies.py: no wrong bodies beside the gate: {' '.join(unknown)}")
    parts = plan_turn(list_rows()) if options.turn else {it: Part(edits_of(it), "named") for it in options.names or found}
    if not options.dry_run:
        return try_parts(parts, options)
    for name, part in parts.items():
        print(f"{name}: {part.why}", *(f"{name}/{it}" for it in part.edits), sep="\n")
    return 0


if __name__ == "__main__":
    sys.exit(main())
