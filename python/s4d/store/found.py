"""What the drives of a store have at a start: of those of this machine `s4` reads it from the images, before they are served."""
from __future__ import annotations

import asyncio
import functools
import io
import json
import subprocess
from typing import Any, Dict, List, NamedTuple, Optional

from ..errors import BadReply, ProgramFailed
from ..image import Image
from ..program import output_of
from .settings import StoreFault

IMAGES_AT_ONCE = 4  # that are read side by side
VERSIONS = ("--versions", "--contents")  # options of `s4 list`, which earlier programs haven't

Moments = Dict[int, List[int]]  # of each object, the moments of its changes


class Seen(NamedTuple):
    """An object that is there."""

    object: int
    size: int
    created: int
    changed: int
    attribute: bytes


class Kept(NamedTuple):
    """A version of an object: the moment of its change, which may be below the floor, and its bytes."""

    moment: int
    data: bytes


class Found(NamedTuple):
    """The live objects of a drive. `versions` are those of each that can be read, the oldest first, but of pieces; where they aren't
    known `moments` says when each object was changed.
    """

    objects: List[Seen]
    moments: Moments
    versions: Optional[Dict[int, List[Kept]]] = None


async def found_in(path: str, program: str, limit: asyncio.Semaphore) -> Found:
    """What the image at a path has; StoreFault where it can't be read."""
    async with limit:
        loop = asyncio.get_running_loop()
        try:
            return await loop.run_in_executor(None, read_image, path, program)
        except (ProgramFailed, BadReply) as error:
            raise StoreFault(f"{path}: {error}") from error
        except OSError as error:
            raise StoreFault(f"{program}: {error.strerror}") from error


def read_image(path: str, program: str) -> Found:
    if lists_versions(program):
        return read_versions(output_of([program, "list", "--json", *VERSIONS, "--", path], None))
    image = Image(path, s4=program)
    moments: Moments = {}
    for row in image.log():
        moments.setdefault(row.object, []).append(row.moment)
    return Found([Seen(it.object, it.size, it.created, it.changed, it.attribute) for it in image.list()], moments)


@functools.lru_cache(maxsize=None)
def lists_versions(program: str) -> bool:
    """Whether this `s4` lists versions with their bytes."""
    ran = subprocess.run([program, "list", "--help"], stdin=subprocess.DEVNULL, capture_output=True, check=False)
    return all(option.encode() in ran.stdout for option in VERSIONS)


def read_versions(printed: bytes) -> Found:
    """What the rows say; BadReply where one says nothing of an object."""
    found = Found([], {}, {})
    try:
        for line in io.BytesIO(printed):
            take_row(found, json.loads(line.decode()))
    except (ValueError, TypeError, KeyError) as error:
        raise BadReply(f"a row of `s4 list` lacks what belongs there: {error!r}") from None
    return found


def take_row(found: Found, row: Dict[str, Any]) -> None:
    assert found.versions is not None
    attribute = bytes.fromhex(row["attribute"])
    found.objects.append(Seen(row["object"], row["size"], row["created"], row["changed"], attribute))
    if attribute[:1] != b"P":  # their bytes are read when somebody wants them
        found.versions[row["object"]] = [Kept(it["changed"], bytes.fromhex(it["contents"])) for it in row["versions"]]
