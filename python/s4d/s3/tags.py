"""Tags of a version, which are kept with it as the header that gave them."""
from __future__ import annotations

from typing import Dict, List, Mapping, Tuple
from urllib.parse import parse_qsl, quote

from .errors import S3Error
from .xml import Node, document, parsed, text_in

TAGGING = "x-amz-tagging"
MOST = 10  # of a version
NAME_CHARACTERS, VALUE_CHARACTERS = 128, 256

Tags = Dict[str, str]


def checked(rows: List[Tuple[str, str]]) -> Tags:
    """The tags; InvalidTag where there are too many, or one is twice there, without a name, or too long."""
    tags = dict(rows)
    is_long = any(len(name) > NAME_CHARACTERS or len(value) > VALUE_CHARACTERS for name, value in rows)
    if is_long or "" in tags or len(tags) < len(rows) or len(rows) > MOST:
        raise S3Error("InvalidTag")
    return tags


def tags_in(text: str) -> Tags:
    """The tags that a header says; InvalidTag where it says none."""
    try:
        return checked(parse_qsl(text, keep_blank_values=True, strict_parsing=bool(text), errors="strict", max_num_fields=2 * MOST))
    except ValueError:
        raise S3Error("InvalidTag") from None


def text_of(tags: Tags) -> str:
    """What a header says of these tags."""
    return "&".join(f"{quote(name, safe='')}={quote(value, safe='')}" for name, value in tags.items())


def tags_of_xml(data: bytes) -> Tags:
    rows = parsed(data, "Tagging").findall("TagSet/Tag")
    return checked([(text_in(it, "Key"), text_in(it, "Value")) for it in rows])


def tags_document(headers: Mapping[str, str]) -> bytes:
    """The tags of a version with these headers."""
    rows: List[Node] = [("Tag", [("Key", name), ("Value", value)]) for name, value in tags_in(headers.get(TAGGING, "")).items()]
    return document("Tagging", [("TagSet", rows)])


def with_tags(headers: Mapping[str, str], tags: Tags) -> Dict[str, str]:
    """Headers of a version with these tags in the place of those that it had."""
    kept = {name: value for name, value in headers.items() if name != TAGGING}
    return {**kept, TAGGING: text_of(tags)} if tags else kept
