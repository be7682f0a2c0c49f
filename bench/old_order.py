#!/usr/bin/env python3
"""Tries old orders of waiting: edits of `server` after which its sessions, cleaner and copier may wait for ever. A test has to fail.

    bench/old_order.py [--seconds S] [NAME.edit..]     at the top of the repository; all where none is named

Each edit of crates/server_tests/old-orders is put into a copy of the repository, where `rt try --test` compiles the tests of
`server_tests` without proofs, and runs them. First they run as they are, since a test that fails then says nothing. An edit has the form of
those of must-fail; its files are those of crates/server, or named from the top of the repository.

Prints for each edit which tests fail, and what `rt try` says of them, as that one hadn't ended after its seconds; last 'N passed, M
failed'. The status is 0 where a test fails of each edit.
"""
import argparse
import os
import re
import shutil
import subprocess
import sys
import tempfile
import time

TESTS = "crates/server_tests"
ORDERS = f"{TESTS}/old-orders"
EDITED = "crates/server"
SECONDS = 20  # of a test


def copy_repository(clone):
    """Copies what `rt try` reads: the sources of all crates."""
    for name in ("crates.txt", "HANDLES"):
        shutil.copy(name, clone)
    ignored = shutil.ignore_patterns("out", "must-fail", "wrong-bodies")
    shutil.copytree("crates", f"{clone}/crates", ignore=ignored)


def pairs_of(edit):
    """The pairs of an edit: the file, the text that is in it once, and what takes its place."""
    path, old, pairs = None, None, []
    with open(edit, encoding="utf-8") as file:
        for line in file.read().split("\n"):
            word, _, text = line.partition(":")
            text = text[1:] if text.startswith(" ") else text
            if word == "file":
                path = text if text.startswith("crates/") else f"{EDITED}/{text}"
            elif word == "old":
                old = text
            elif word == "new":
                pairs.append((path, old, text))
    return pairs


def edited(edit):
    """The texts of the files that an edit changes, by their paths; ValueError where it can't be applied."""
    texts, pairs = {}, pairs_of(edit)
    for path, old, new in pairs:
        if not path or not old:
            raise ValueError("a 'new:' without 'file:' and 'old:'")
        if path not in texts:
            with open(path, encoding="utf-8") as file:
                texts[path] = file.read()
        if texts[path].count(old) != 1:
            raise ValueError(f"an 'old:' text is in {path} {texts[path].count(old)} times: {old}")
        texts[path] = texts[path].replace(old, new)
    if not pairs:
        raise ValueError("no 'old:' and 'new:'")
    return texts


def put(clone, texts):
    for path, text in texts.items():
        with open(f"{clone}/{path}", "w", encoding="utf-8") as file:
            file.write(text)


def tried(clone, seconds):
    """Runs the tests: how many there are, and the name of each that fails with what is said of it. ValueError where none was run."""
    words = ["rt", "try", "--test", "--seconds", str(seconds)]
    how = {"stdout": subprocess.PIPE, "stderr": subprocess.STDOUT, "text": True, "errors": "replace"}
    said = subprocess.run(words, cwd=f"{clone}/{TESTS}", check=False, **how).stdout
    found = re.findall(r"^test (\S+) \.\.\. (\w+)\n((?: .*\n)*)", said, re.MULTILINE)
    if not found or "test result:" not in said:
        raise ValueError("no test was run:\n" + "\n".join(said.splitlines()[:8]))
    return len(found), [(name, rest.rstrip()) for name, result, rest in found if result != "ok"]


def told(count, failing):
    """How many tests fail, and what is said of these."""
    return "\n".join([f"{len(failing)} of {count} tests fail", *(f"  {name}\n{rest}" for name, rest in failing)])


def try_order(clone, name, seconds):
    """Tries an edit in the copy, which is as it was then. Whether a test fails."""
    began = time.time()
    try:
        texts = edited(f"{ORDERS}/{name}")
        put(clone, texts)
        count, failing = tried(clone, seconds)
    except (OSError, ValueError) as why:
        print(f"{name}: NOT TRIED: {why}", flush=True)
        return False
    finally:
        restore(clone, name)
    print(f"{name}: {time.time() - began:.0f} s, {told(count, failing)}", flush=True)
    return bool(failing)


def restore(clone, name):
    """Puts back what an edit may have changed."""
    for path, _, _ in pairs_of(f"{ORDERS}/{name}"):
        if path and os.path.isfile(path):
            shutil.copy(path, f"{clone}/{path}")


def main():
    line = argparse.ArgumentParser(description=__doc__, formatter_class=argparse.RawDescriptionHelpFormatter)
    line.add_argument("--seconds", type=int, default=SECONDS, help=f"how long a test may take ({SECONDS})")
    line.add_argument("name", nargs="*")
    options = line.parse_args()
    found = sorted(it for it in os.listdir(ORDERS) if it.endswith(".edit")) if os.path.isdir(ORDERS) else []
    unknown = [it for it in options.name if it not in found]
    if unknown or not found:
        sys.exit(f"old_order.py: no such edit in {ORDERS}: {' '.join(unknown)}")
    names = options.name or found
    with tempfile.TemporaryDirectory(prefix="old-order-") as clone:
        copy_repository(clone)
        try:
            count, failing = tried(clone, options.seconds)
        except ValueError as why:
            sys.exit(f"old_order.py: {why}")
        print(f"as it is: {told(count, failing)}", flush=True)
        if failing:
            return 1
        passed = sum(try_order(clone, name, options.seconds) for name in names)
    print(f"{passed} passed, {len(names) - passed} failed")
    return 0 if passed == len(names) else 1


if __name__ == "__main__":
    sys.exit(main())
