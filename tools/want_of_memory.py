"""Finds the places in the crates that answer want of memory of their own accord.

    python3 tools/want_of_memory.py

Each contract lets want of memory stand in place of any answer of a call that may take memory, so the prover passes a
body that gives up where no request was refused. Such a body has to make the answer somewhere: these places are few,
and each stands in `tools/want_of_memory.toml` with the reason why a request was refused there. One that does not is a
fault, and so is one that stands there and is gone.

What makes the answer is an expression that names `AllocError`, `AllocFailed` or a variant `OutOfMemory`. Patterns,
types, contracts, conversions by `From`, and arms that answer want of memory for want of memory do not count, nor do
tests.
"""

from __future__ import annotations

import re
import sys
import tomllib
from collections import Counter
from dataclasses import dataclass
from pathlib import Path

from repository import ROOT

LISTED = ROOT / "tools" / "want_of_memory.toml"

MAKER = re.compile(r"\b(?:\w+::)*(?:AllocError|AllocFailed|OutOfMemory)\b")
# Behind a pattern comes the arm, a further pattern, a guard, or the value that is taken apart.
PATTERN_GOES_ON = re.compile(r"^[\s)}]*(?:=>|\||if\b|=[^=])")
READ_ONLY = re.compile(r"matches!\([^;]*$")
HANDED_ON = re.compile(r"(?:AllocError|OutOfMemory)\)?\s*=>\s*(?:return )?(?:Err\()?(?:\w+::)?(?:AllocError|OutOfMemory)\b")


@dataclass(frozen=True)
class Place:
    """A line of a source file that makes want of memory."""

    file: str
    text: str


def without_block(text: str, head: str) -> str:
    """The text with each block behind these heads blotted out, its lines kept."""
    for found in reversed(list(re.finditer(head, text, re.M))):
        depth = 0
        for end in range(found.end() - 1, len(text)):
            depth += {"{": 1, "}": -1}.get(text[end], 0)
            if depth == 0:
                break
        kept = "\n" * text[found.start() : end + 1].count("\n")
        text = text[: found.start()] + kept + text[end + 1 :]
    return text


def code_of(text: str) -> str:
    """The code alone: no comment, text, contract, type, import or conversion, line by line as it was."""
    text = re.sub(r"//[^\n]*", "", text)
    text = re.sub(r'"(?:[^"\\]|\\.)*"', '""', text)
    text = without_block(text, r"\bimpl(?:<[^>{]*>)? From<[^{]*\{")
    text = without_block(text, r"^\s*(?:requires|ensures)\b[^{\n]*\{")
    text = without_block(text, r"^\s*ghost\b[^{;\n]*[{]")
    text = without_block(text, r"\benum \w+[^{;]*\{")
    text = re.sub(r"^\s*(?:pub )?(?:ghost )?use [^;]*;", lambda use: "\n" * use[0].count("\n"), text, flags=re.M)
    text = re.sub(r"\bpub type \w+ = \w+;", "", text)
    text = re.sub(r"->[^{;]*;", lambda kind: ";" + "\n" * kind[0].count("\n"), text)
    return re.sub(r"->[^{]*\{", lambda kind: "{" + "\n" * kind[0].count("\n"), text)


def places_in(text: str) -> list[str]:
    """The lines that make want of memory."""
    lines = text.split("\n")
    found = []
    for number, line in enumerate(code_of(text).split("\n")):
        line = HANDED_ON.sub("", line)
        for maker in MAKER.finditer(line):
            is_read = READ_ONLY.search(line[: maker.start()]) or PATTERN_GOES_ON.match(line[maker.end() :])
            if not is_read and not re.search(r"[<:]\s*$", line[: maker.start()]):
                found.append(lines[number].strip())
                break
    return found


def sources() -> list[Path]:
    """The files of all crates, but for tests."""
    files = sorted(ROOT.glob("crates/*/src/**/*.rt"))
    return [file for file in files if not file.stem.endswith("tests") and not file.parts[-3].endswith("_tests")]


def listed() -> Counter[Place]:
    """The places that are known, as often as each stands there; every one has a reason."""
    with LISTED.open("rb") as file:
        entries = tomllib.load(file)["place"]
    return Counter({Place(entry["file"], entry["text"]): len(entry["reasons"]) for entry in entries})


def faults() -> list[str]:
    """The places that are not listed, and those that are gone, a line for each."""
    found = Counter(Place(str(file.relative_to(ROOT)), text) for file in sources() for text in places_in(file.read_text()))
    known = listed()
    new = [f"{place.file}: answers want of memory of its own accord: {place.text}" for place in found - known]
    return new + [f"{place.file}: is listed, and is gone: {place.text}" for place in known - found]


def main() -> int:
    wrong = faults()
    for line in wrong:
        print(line, file=sys.stderr)
    if wrong:
        return 1
    print(f"want of memory is answered of its own accord in {listed().total()} places, each listed with its reason")
    return 0


if __name__ == "__main__":
    sys.exit(main())
