"""XML as S3 writes and reads it."""
from __future__ import annotations

import re
from typing import List, Sequence, Tuple, Union
from xml.etree import ElementTree

from .errors import S3Error
from .limits import XML_TAGS

NAMESPACE = "http://s3.amazonaws.com/doc/2006-03-01/"
HEAD = '<?xml version="1.0" encoding="UTF-8"?>\n'
SPECIAL = {"&": "&amp;", "<": "&lt;", ">": "&gt;", '"': "&quot;"}
ESCAPED = re.compile("[&<>\"\x00-\x1f\x7f\ufffe\uffff]")

Node = Tuple[str, Union[str, int, bool, Sequence["Node"]]]


def escaped(text: str) -> str:
    """The text; characters that XML hasn't are references, as S3 writes them."""
    return ESCAPED.sub(lambda found: SPECIAL.get(found[0]) or f"&#x{ord(found[0]):x};", text)


def written(node: Node) -> str:
    name, value = node
    if isinstance(value, bool):
        return f"<{name}>{'true' if value else 'false'}</{name}>"
    if isinstance(value, (str, int)):
        return f"<{name}>{escaped(str(value))}</{name}>"
    return f"<{name}>{''.join(map(written, value))}</{name}>"


def document(name: str, members: Sequence[Node]) -> bytes:
    """The bytes of a document of S3's namespace."""
    inside = "".join(map(written, members))
    return f'{HEAD}<{name} xmlns="{NAMESPACE}">{inside}</{name}>'.encode()


def error_document(members: Sequence[Node]) -> bytes:
    """The bytes of an error, which has no namespace."""
    return f"{HEAD}{written(('Error', members))}".encode()


def parsed(data: bytes, name: str) -> ElementTree.Element:
    """The root of a document in UTF-8, without namespaces; MalformedXML where it is none of this name, defines anything, or has too
    many tags.
    """
    if b"<!" in data or data.count(b"<") > XML_TAGS:
        raise S3Error("MalformedXML")
    try:
        root = ElementTree.fromstring(data.decode("utf-8-sig"))  # whatever encoding it names itself
    except (ElementTree.ParseError, ValueError, LookupError):
        raise S3Error("MalformedXML") from None
    for element in root.iter():
        element.tag = element.tag.rpartition("}")[2]
    if root.tag != name:
        raise S3Error("MalformedXML")
    return root


def text_in(element: ElementTree.Element, name: str) -> str:
    """The text of a member; MalformedXML where there is none."""
    found = element.findtext(name)
    if found is None:
        raise S3Error("MalformedXML")
    return found


def elements(root: ElementTree.Element, name: str) -> List[ElementTree.Element]:
    return root.findall(name)
