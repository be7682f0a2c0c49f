#!/usr/bin/env python3
"""Draws the versions of objects over the drive's moments, as text. `s4 report` draws them as a picture.

    timeline.py PROGRAM                               plays a small story on a new drive, as an administrator, and draws it
    timeline.py PROGRAM --image IMAGE --object 1      draws objects of an image's file, which stays as it is
    timeline.py --connect ADDRESS --object 1          draws objects of a drive that a socket serves (host:port or a path)
    timeline.py --log FILE                            draws what `s4 log --json` printed into a file, `-` for standard input

PROGRAM is a built s4d. An image is copied, and the copy is served with a tick of 0 and without upkeep, so nothing ages by
being looked at. Over a socket each request moves the drive's clock by its tick: a drive with a small window forgets then. A log
says nothing of the moments after its last change, nor why moments before an object's first change are missing, and its
hidden moments and its flushes aren't drawn.
"""
import argparse
import contextlib
import json
import os
import shutil
import sys
import tempfile

sys.path.insert(0, os.path.join(os.path.dirname(os.path.abspath(__file__)), "..", "python"))
import s4d  # noqa: E402: from this repository, also where it isn't installed
from s4d import Kind, Span  # noqa: E402

SIGNS = {Kind.LIVE: "█", Kind.HIDDEN: "░", Kind.GONE: "·", Kind.EXPIRED: "?"}
SAYS = {Kind.HIDDEN: "hidden by a flush", Kind.GONE: "deleted", Kind.EXPIRED: "older than the window"}


def say(span):
    if span.kind is not Kind.LIVE:
        return SAYS[span.kind]
    named = f", {span.attribute.decode('utf-8', 'backslashreplace')!r}" if span.attribute else ""
    return f"{span.size:,} byte{'' if span.size == 1 else 's'}{named}"


def moments_of(span):
    return str(span.first) if span.first == span.last else f"{span.first}-{span.last}"


def as_text(histories, width=64):
    """A bar for each object, with `|` where a version begins, and a line for each span."""
    first = min((spans[0].first for spans in histories.values() if spans), default=0)
    last = max((spans[-1].last for spans in histories.values() if spans), default=0)
    each = max(1, min(4, width // (last - first + 1)))
    cells = min(width, (last - first + 1) * each)
    lines = []
    for object, spans in histories.items():
        row = [" "] * cells
        for span in spans:
            start = (span.first - first) * cells // (last - first + 1)
            end = max(start + 1, (span.last + 1 - first) * cells // (last - first + 1))
            row[start:end] = SIGNS[span.kind] * (end - start)
            if span.kind is Kind.LIVE and end - start > 1:
                row[start] = "▌"
        lines.append(f"object {object:<4} {''.join(row).rstrip()}")
        lines += [f"  moment {moments_of(span):<9} {say(span)}" for span in spans] or ["  never was, as far as can be read"]
        lines.append("")
    lines.append(f"moments {first} to {last}:  ▌█ a version  ░ hidden  · deleted  ? older than the window")
    return "\n".join(lines)


def story(drive):
    """An editor's day, a deletion, and an administrator who hides what was there by mistake. Gives the objects."""
    note = drive.create(b"note.txt").object
    drive.write(note, 0, b"Dear diary")
    drive.append(note, b", today I")
    log = drive.create(b"log").object
    drive.append(log, b"started\n")
    secret = drive.append(note, b" mistyped: hunter2")
    mended = drive.truncate(note, 19)
    for line in (b"opened\n", b"saved\n", b"closed\n"):
        drive.append(log, line)
    drive.append(note, b" wrote a drive.")
    drive.delete(log)
    drive.flush_object(note, secret, mended - 1)
    drive.set_attribute(note, b"diary.txt")
    drive.create(b"empty")
    return [note, log, note + 2]


def histories_of(changes, objects):
    """The spans of objects, of all where none is named, as the lines of `s4 log --json` have them."""
    last = max((change["moment"] for change in changes), default=0)
    histories = {object: [] for object in objects or sorted({change["object"] for change in changes})}
    for change in changes:
        if change["object"] in histories:
            add_change(histories[change["object"]], change, last)
    return histories


def add_change(spans, change, last):
    """Ends the last span before a change, and adds the one that begins with it, up to the last moment."""
    moment, attribute = change["moment"], change.get("attribute_after")
    before = spans[-1] if spans else None
    if before and before.first == moment:
        spans.pop()  # more of the change of the same moment
    elif before:
        spans[-1] = before._replace(last=moment - 1)
    if change["kind"] == "deleted":
        spans.append(Span(Kind.GONE, moment, last))
        return
    kept = before.attribute if before else b""
    named = kept if attribute is None else bytes.fromhex(attribute)
    spans.append(Span(Kind.LIVE, moment, last, change["size_after"], named))


def read_log(path):
    """The changes of a log in a file, or on standard input. What a flush hid isn't drawn: a version goes on over it."""
    with contextlib.nullcontext(sys.stdin) if path == "-" else open(path, encoding="utf-8") as file:
        rows = [json.loads(line) for line in file]
    return [row for row in rows if row["kind"] not in ("hidden", "flush", "flusho")]


@contextlib.contextmanager
def image_copy(path, program):
    """A session with a copy of an image, which is gone at the end."""
    with tempfile.TemporaryDirectory() as folder:
        with s4d.Image(shutil.copy(path, folder), program).session("admin", upkeep=False) as drive:
            yield drive


def session_of(given):
    """The session that the command line asks for."""
    if given.connect:
        return s4d.Drive.connect(given.connect)
    if given.image:
        return image_copy(given.image, given.program)
    return s4d.Drive.pipe(given.program, "admin", window=1_000_000, tick=0)


def parsed(words):
    parser = argparse.ArgumentParser(description=__doc__, formatter_class=argparse.RawDescriptionHelpFormatter)
    parser.add_argument("program", nargs="?", metavar="PROGRAM", help="a built s4d")
    parser.add_argument("--image", metavar="IMAGE", help="the file of a drive")
    parser.add_argument("--connect", metavar="ADDRESS", help="host:port, or the path of a unix socket")
    parser.add_argument("--log", metavar="FILE", help="what `s4 log --json` printed")
    parser.add_argument("--object", type=int, action="append", default=[], metavar="N", help="an object to draw, more than once")
    parser.add_argument("--story", action="store_true", help="plays the story over the socket too")
    given = parser.parse_args(words)
    if [bool(given.program), bool(given.connect), bool(given.log)].count(True) != 1:
        parser.error("name the program s4d, --connect ADDRESS, or --log FILE")
    if given.image and (given.connect or not given.object):
        parser.error("--image needs PROGRAM and --object N")
    if given.connect and not (given.object or given.story):
        parser.error("--connect needs --object N, or --story")
    return given


def drawn(given):
    """The spans of the objects that the command line asks for."""
    if given.log:
        return histories_of(read_log(given.log), given.object)
    with session_of(given) as drive:
        told = story(drive) if given.story or not (given.image or given.connect) else []
        return {object: drive.history(object) for object in given.object or told}


def main(words):
    given = parsed(words)
    try:
        print(as_text(drawn(given)))
    except (s4d.Error, OSError, ValueError, KeyError) as error:
        print(f"timeline.py: {error}", file=sys.stderr)
        return 1
    return 0


if __name__ == "__main__":
    sys.exit(main(sys.argv[1:]))
