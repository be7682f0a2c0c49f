#!/usr/bin/env python3
"""Turns commented hex text into bytes, and bytes of a session back into commented hex text.

    hex.py bytes FILE.hex > requests.bin     '#' starts a comment; spaces and line ends don't count
    hex.py requests < requests.bin           one frame a line, with what it says after a '#'
    hex.py replies < replies.bin             the same for replies
    hex.py session FILE.hex PROGRAM [WORD..]    runs the program, and shows each request, its comment and its reply

Status 0, or 1 where the program or a stream failed, or 2 where the call or the hex text is wrong; then standard
error has one line.
"""
import os
import re
import subprocess
import sys

sys.path.insert(0, os.path.join(os.path.dirname(os.path.abspath(__file__)), "..", "python"))
from s4d import BODY_BYTES, READ_BYTES, REFUSALS, AuditKind  # noqa: E402: from this repository, also where it isn't installed

CHANGES = {kind.value for kind in AuditKind}
MOST_SHOWN = 24  # bytes of a frame that are shown, after the first of its body


class Fault(Exception):
    """What ends the program, with its status and one line."""

    def __init__(self, status, line):
        super().__init__(line)
        self.status = status


class NoSuch(Exception):
    """The bytes are no request or no reply; the text says why."""


class Fields:
    """Takes the fields of a body one after another."""

    def __init__(self, body):
        self.rest = body

    def bytes(self, count, what):
        if len(self.rest) < count:
            raise NoSuch(f"ends inside its {what}")
        found, self.rest = self.rest[:count], self.rest[count:]
        return found

    def number(self, what, count=8):
        return int.from_bytes(self.bytes(count, what), "big")

    def attribute(self, most=255):
        length = self.number("attribute", 1)
        if length > most:
            raise NoSuch(f"has an attribute of {length} bytes")
        return text(self.bytes(length, "attribute"))

    def all(self):
        found, self.rest = self.rest, b""
        return text(found)

    def at(self):
        kind = self.number("`at`", 1)
        if kind > 1:
            raise NoSuch(f"has {kind:02x} where `at` begins")
        return f"moment {self.number('moment')}" if kind else "now"

    def end(self):
        if self.rest:
            raise NoSuch(f"has {count_of(len(self.rest), 'byte')} left over")


def count_of(count, what):
    return f"{count:,} {what}{'' if count == 1 else 's'}"


def text(data):
    shown = repr(data[:60].decode("ascii", "backslashreplace"))
    return shown if len(data) <= 60 else f"{shown}.. ({len(data):,} bytes)"


def tell_read(fields):
    first, offset, length = fields.number("object"), fields.number("offset"), fields.number("length", 4)
    return f"object {first}, {length:,} bytes from {offset}, {fields.at()}"


REQUESTS = {
    1: ("Create", lambda f: f"attribute {f.attribute()}"),
    2: ("Delete", lambda f: f"object {f.number('object')}"),
    3: ("Read", tell_read),
    4: ("Write", lambda f: f"object {f.number('object')}, from {f.number('offset')}: {f.all()}"),
    5: ("Append", lambda f: f"object {f.number('object')}: {f.all()}"),
    6: ("Truncate", lambda f: f"object {f.number('object')}, {f.number('size'):,} bytes"),
    7: ("GetAttr", lambda f: f"object {f.number('object')}, {f.at()}"),
    8: ("SetAttr", lambda f: f"object {f.number('object')}, attribute {f.attribute()}"),
    9: ("SetWindow", lambda f: f"{count_of(f.number('window'), 'moment')}"),
    10: ("Flush", lambda f: f"moments {f.number('first')} to {f.number('last')}"),
    11: ("FlushO", lambda f: f"object {f.number('object')}, moments {f.number('first')} to {f.number('last')}"),
    12: ("Audit", lambda f: f"from {f.number('moment')}, {count_of(f.number('rows', 2), 'row')}"),
}


def tell_request(body):
    """What a whole body says; NoSuch where it is no request."""
    if not body:
        raise NoSuch("is empty")
    if body[0] not in REQUESTS:
        raise NoSuch(f"begins with {body[0]:02x}")
    name, tell = REQUESTS[body[0]]
    fields = Fields(body[1:])
    try:
        told = tell(fields)
        fields.end()
    except NoSuch as why:
        raise NoSuch(f"{name} {why}") from None
    return f"{name}: {told}"


def refused(fields):
    number = fields.number("number", 1)
    if number not in REFUSALS:
        raise NoSuch(f"has the number {number}")
    return REFUSALS[number].__name__


def tell_attr(fields):
    size, created, changed = fields.number("size", 4), fields.number("creation"), fields.number("change")
    told = f"{size:,} bytes, created at {created}, changed at {changed}, attribute"
    return f"{told} {fields.attribute(64)}"


def tell_row(fields):
    moment, kind = fields.number("moment"), fields.number("kind", 1)
    if kind not in CHANGES:
        raise NoSuch(f"has a row of kind {kind:02x}")
    object, first, second = fields.number("object"), fields.number("first"), fields.number("second")
    return f"{moment} {REQUESTS[kind][0]} object {object}, {first}, {second}"


def tell_rows(fields):
    rows = []
    while fields.rest:
        rows.append(tell_row(fields))
    return "; ".join(rows) or "none"


REPLIES = {
    0: ("Refused:", refused),
    1: ("Changed", lambda f: f"at moment {f.number('moment')}"),
    2: ("Created", lambda f: f"object {f.number('object')} at moment {f.number('moment')}"),
    3: ("Data:", lambda f: f.all()),
    4: ("Attr:", tell_attr),
    5: ("AuditRows:", tell_rows),
}


def tell_reply(body):
    """What a whole body says; NoSuch where it is no reply."""
    if not body or body[0] not in REPLIES:
        raise NoSuch(f"begins with {body[0]:02x}" if body else "is empty")
    if body[0] == 3 and len(body) > READ_BYTES + 1:
        raise NoSuch(f"has {len(body) - 1:,} bytes of data")
    name, tell = REPLIES[body[0]]
    fields = Fields(body[1:])
    try:
        told = tell(fields)
        fields.end()
    except NoSuch as why:
        raise NoSuch(f"{name.strip(':')} {why}") from None
    return f"{name} {told}"


def frames(data):
    """The frames of a stream: where each begins, its four bytes of length, its body, and whether it is whole."""
    place = 0
    while place < len(data):
        head = data[place:place + 4]
        length = int.from_bytes(head, "big")
        if len(head) == 4 and length > BODY_BYTES:
            yield place, head, data[place + 4:], False
            return
        body = data[place + 4:place + 4 + length]
        yield place, head, body, len(head) == 4 and len(body) == length
        place += 4 + length


def tell(head, body, whole, kind):
    """What a frame says: a whole one, or what is wrong with it."""
    length = int.from_bytes(head, "big")
    if len(head) < 4:
        return f"cut: {count_of(len(head), 'byte')} of a length's 4"
    if length > BODY_BYTES:
        return f"too long: {length:,} bytes; nothing after it is read"
    if not whole:
        return f"cut: {len(body):,} of {count_of(length, 'byte')}"
    try:
        return (tell_reply if kind == "reply" else tell_request)(body)
    except NoSuch as why:
        return f"no {kind}: {why}"


def show(head, body):
    rest = body[1:]
    more = ".." if len(rest) > MOST_SHOWN else ""
    return f"{head.hex()} {body[:1].hex()} {rest[:MOST_SHOWN].hex()}{more}".strip()


def from_text(path):
    """The bytes of a hex file, and for each line where its bytes begin and its comment."""
    try:
        with open(path, encoding="utf-8") as file:
            lines = file.read().split("\n")
    except OSError as error:
        raise Fault(2, f"{path}: {error.strerror}") from None
    except UnicodeDecodeError:
        raise Fault(2, f"{path}: no text in UTF-8") from None
    data, comments = bytearray(), []
    for number, line in enumerate(lines, 1):
        digits, sign, comment = line.partition("#")
        digits = "".join(digits.split())
        wrong = re.search("[^0-9a-fA-F]", digits)
        if wrong:
            raise Fault(2, f"{path}:{number}: {wrong.group()!r} is no hex digit")
        if len(digits) % 2:
            raise Fault(2, f"{path}:{number}: an odd number of hex digits")
        comments.append((len(data), bool(digits), comment.strip() if sign else None))
        data += bytes.fromhex(digits)
    return bytes(data), comments


def comments_at(comments, first, end):
    """The comments of the lines whose bytes begin from one place to before another."""
    return [comment for place, _, comment in comments if comment is not None and first <= place < end]


def run_program(words, data):
    try:
        ran = subprocess.run(words, input=data, stdout=subprocess.PIPE, stderr=subprocess.PIPE, check=False)
    except OSError as error:
        raise Fault(1, f"{words[0]}: {error.strerror}") from None
    return ran.stdout, ran.returncode, ran.stderr.decode("utf-8", "replace").strip()


def print_session(path, words):
    """Runs a program over a file's requests; each is shown with its comments and its reply."""
    data, comments = from_text(path)
    output, status, complaint = run_program(words, data)
    replies = list(frames(output))
    for index, (place, head, body, whole) in enumerate(frames(data)):
        behind = place + 4 + int.from_bytes(head, "big") if whole else len(data) + 1
        for comment in comments_at(comments, place, behind):
            print(f"# {comment}" if comment else "#")
        print(f"> {show(head, body)}\n    {tell(head, body, whole, 'request')}")
        if index < len(replies):
            _, head, body, whole = replies[index]
            print(f"< {show(head, body)}\n    {tell(head, body, whole, 'reply')}\n")
        else:
            print("< no reply\n")
    for _, head, body, whole in replies[len(list(frames(data))):]:
        print(f"< {show(head, body)}\n    {tell(head, body, whole, 'reply')}\n")
    if status:
        raise Fault(1, f"{words[0]} ended with status {status}{': ' + complaint if complaint else ''}")


def print_frames(kind):
    """Prints the frames on standard input, one a line."""
    well = True
    for _, head, body, whole in frames(sys.stdin.buffer.read()):
        told = tell(head, body, whole, kind)
        well = well and whole and not told.startswith("no ")
        print(f"{show(head, body):<70}  # {told}")
    if not well:
        raise Fault(1, f"not all of this is a {kind}")


def main(words):
    if words[:1] in (["-h"], ["--help"]):
        print(__doc__)
    elif len(words) == 2 and words[0] == "bytes":
        sys.stdout.buffer.write(from_text(words[1])[0])
    elif len(words) == 1 and words[0] in ("replies", "requests"):
        print_frames({"replies": "reply", "requests": "request"}[words[0]])
    elif len(words) >= 3 and words[0] == "session":
        print_session(words[1], words[2:])
    else:
        raise Fault(2, "usage: hex.py bytes FILE | requests | replies | session FILE PROGRAM [WORD..]")


if __name__ == "__main__":
    try:
        main(sys.argv[1:])
        sys.stdout.flush()
    except Fault as fault:
        sys.stdout.flush()
        print(f"hex.py: {fault}", file=sys.stderr)
        sys.exit(fault.status)
    except BrokenPipeError:
        sys.stdout = None
        sys.exit(1)
