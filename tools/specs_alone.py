"""Finds the definitions and contracts that rest on a lemma file.

    python3 tools/specs_alone.py

What a contract says is read in the `specs/` of the crates alone: no file of `specs/` names a `proofs` module, and no
source file names one of a crate of this repository. A source file may name the rules of the standard library, by which
the laws of a comparison are searched for. Tactics that cite lemmas (`using(crate::proofs::..)`) say nothing and do not
count, nor do comments.
"""

from __future__ import annotations

import re
import sys
from dataclasses import dataclass
from pathlib import Path

from repository import ROOT

IN_SPECS = re.compile(r"\bRattle(?:\.\w+)*\.proofs\b")
IN_SOURCES = re.compile(r"\bRattle\.(?!std\.)(?:\w+\.)*proofs\b")


@dataclass(frozen=True)
class Place:
    """A line of a file that names a `proofs` module."""

    file: str
    line: int
    text: str


def without_comments(text: str, mark: str) -> str:
    """The text with each comment that begins so blotted out, its lines kept."""
    return re.sub(rf"(?<!\S){mark}[^\n]*", "", text)


def places_in(file: str, text: str, named: re.Pattern[str]) -> list[Place]:
    """The lines of a file that name a module so."""
    lines = text.split("\n")
    return [Place(file, number, line.strip()) for number, line in enumerate(lines, 1) if named.search(line)]


def places(root: Path) -> list[Place]:
    """All such lines of the specs and of the sources of the crates."""
    found = []
    for folder, named, mark in [("specs/**/*.antt", IN_SPECS, "--"), ("src/**/*.rt", IN_SOURCES, "//")]:
        for file in sorted(root.glob(f"crates/*/{folder}")):
            text = without_comments(file.read_text(), mark)
            found += places_in(str(file.relative_to(root)), text, named)
    return found


def main() -> int:
    found = places(ROOT)
    for place in found:
        print(f"{place.file}:{place.line}: names a proofs module: {place.text}", file=sys.stderr)
    if found:
        return 1
    print("no definition and no contract names a proofs module")
    return 0


if __name__ == "__main__":
    sys.exit(main())
