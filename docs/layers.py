#!/usr/bin/env python3
"""Prints the figure of the layers, from `crates.txt`: a crate is one line above the highest that it uses; those that only test have none.

    docs/layers.py [--write]     --write: puts it into docs/ARCHITECTURE.md, between the two lines of ``` after the mark
"""
import pathlib
import re
import sys
from typing import Dict, List

TOP = pathlib.Path(__file__).resolve().parents[1]
PAGE = TOP / "docs" / "ARCHITECTURE.md"
BLOCK = re.compile(r"(?<=<!-- docs/layers.py -->\n```text\n)[^`]*(?=```\n)")


def crates() -> Dict[str, List[str]]:
    """The crates of the repository, and which of them each uses."""
    lines = [line.partition(":") for line in (TOP / "crates.txt").read_text(encoding="utf-8").splitlines() if not line.startswith("#")]
    uses = {front.split()[0]: below.split() for front, _, below in lines if front.strip()}
    return {name: [it for it in below if it in uses] for name, below in uses.items()}


def layers(uses: Dict[str, List[str]]) -> List[List[str]]:
    """The crates of each layer, the lowest first."""
    found: List[List[str]] = []
    placed: Dict[str, int] = {}
    while len(placed) < len(uses):
        layer = sorted(name for name, below in uses.items() if name not in placed and all(it in placed for it in below))
        if not layer:
            sys.exit("layers.py: crates of crates.txt use each other in a circle")
        placed.update(dict.fromkeys(layer, len(found)))
        found.append(layer)
    return found


def figure() -> str:
    shown = [[name for name in layer if not name.endswith("_tests")] for layer in layers(crates())]
    return "".join(f"{number:2}  {' '.join(layer)}\n" for number, layer in reversed(list(enumerate(shown))) if layer)


def main(words: List[str]) -> None:
    if words not in ([], ["--write"]):
        sys.exit(__doc__)
    if words:
        PAGE.write_text(BLOCK.sub(figure(), PAGE.read_text(encoding="utf-8")), encoding="utf-8")
    else:
        print(figure(), end="")


if __name__ == "__main__":
    main(sys.argv[1:])
