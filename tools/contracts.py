"""Tells what the proofs of a file rest on: the file, and the definitions and contracts of its crate and of those below.

The contracts of a source are its text without bodies of functions: signatures with their clauses, types, constants, traits and
ghost items. Comments do not count. Attributes that only help a proof do not count, nor imports of names that only bodies have.
A crate above cannot cite a private function, so there it does not count.
"""

from __future__ import annotations

import hashlib
import re
from functools import cache
from pathlib import Path

from repository import with_libraries

# The lines that are comments, by the ending of their file.
COMMENT = {".rt": re.compile(r"^ *//.*\n", re.M), ".antt": re.compile(r"^ *--.*\n", re.M)}
# The begin of a function, in the layout of `rt fmt`: its indent, whether it is public, and its name.
FUNCTION = re.compile(r"^( *)(pub )?(?:pub\([a-z]+\) )?(?:const )?(?:unsafe )?fn ([a-z_0-9]+)", re.M)
CLAUSE = re.compile(r" *(?:requires|ensures)\b")
# What opens a body at the end of a line, or is an empty one.
OPENING = re.compile(r"\{\}?$")
# An attribute that says how to search for proofs.
HINT = re.compile(r"^ *#!?\[(?:tactic|cycle)\(.*?\)\]\n", re.M | re.S)
# The head of a block whose functions are as public as its trait.
OF_A_TRAIT = re.compile(r"(?:pub(?:\([a-z]+\))? )?(?:unsafe )?(?:trait\b|impl\b.* for (?!<))", re.S)
# What has no name above, or nothing in it.
PRIVATE = re.compile(r"^(?:mod \w+;|impl\b(?:(?! for )[^\n])*\{\n\})\n", re.M)
IMPORT = re.compile(r"^ *(?:pub\([a-z]+\) )?use ([^;]*);\n", re.M)


def without_comments(path: Path) -> str:
    return COMMENT[path.suffix].sub("", path.read_text())


def balance(text: str) -> int:
    """How many brackets of a text are open at its end."""
    return sum(text.count(one) for one in "([{") - sum(text.count(one) for one in ")]}")


def parts_of_function(text: str, begun: re.Match[str]) -> tuple[int, int]:
    """Where the body of a function begins, and where the function ends; twice its end, if it is declared without a body."""
    depth = 0
    for line in re.compile(r"^.*$", re.M).finditer(text, begun.start()):
        opening = None if CLAUSE.match(line[0]) else OPENING.search(line[0])
        if opening and depth + balance(line[0][: opening.start()]) == 0:
            closed = re.compile(rf"^{begun[1]}\}}", re.M).search(text, line.end())
            return line.start() + opening.start(), line.end() if opening[0] == "{}" or not closed else closed.end()
        depth += balance(line[0])
        if depth == 0 and line[0].endswith(";"):
            return line.end(), line.end()
    return len(text), len(text)


def is_of_a_trait(text: str, begun: re.Match[str]) -> bool:
    """Whether a function stands in a trait, or in an implementation of one."""
    blocks = list(re.finditer(r"^[a-z]", text[: begun.start()], re.M))
    head = text[blocks[-1].start() :].split("{\n")[0] if begun[1] and blocks else ""
    return OF_A_TRAIT.match(head) is not None


def without_bodies(text: str, from_above: bool) -> str:
    """A source with the heads of its functions alone: of all, or of those that can be cited from above."""
    kept, place = "", 0
    for begun in FUNCTION.finditer(text):
        if begun.start() < place:
            continue
        body, end = parts_of_function(text, begun)
        is_cited = begun[2] or not from_above or is_of_a_trait(text, begun)
        kept += text[place : begun.start()] + (text[begun.start() : body] if is_cited else "")
        place = end
    return kept + text[place:]


def with_cited_imports(text: str) -> str:
    """The text with those of its private imports whose names it has elsewhere, one a line."""
    words = set(re.findall(r"\w+", IMPORT.sub("", text)))

    def cited(found: re.Match[str]) -> str:
        front, brace, names = found[1].partition("{")
        if "{" in names or "*" in found[1]:
            return found[0]
        items = [item.strip() for item in names.strip(",}\n ").split(",")] if brace else [""]
        paths = [f"use {front}{item};\n" for item in items]
        return "".join(path for path in paths if re.findall(r"\w+", path)[-1] in words)

    return IMPORT.sub(cited, text)


def contracts_of(text: str, from_above: bool) -> str:
    """The contracts of a source without comments."""
    lines = [line.rstrip() + "\n" for line in without_bodies(HINT.sub("", text), from_above).splitlines()]
    kept = "".join(line for line in lines if line != "\n")
    return with_cited_imports(PRIVATE.sub("", kept) if from_above else kept)


@cache
def checksum_of_crate(root: Path, crate: str, from_above: bool) -> str:
    """A checksum of the definitions and contracts of a crate, as its own files or those of crates above may cite them."""
    folder = root / "crates" / crate
    texts = {path: without_comments(path) for path in sorted((folder / "specs").rglob("*.antt"))}
    texts |= {path: contracts_of(without_comments(path), from_above) for path in sorted((folder / "src").rglob("*.rt"))}
    named = [f"{path.relative_to(folder).as_posix()}\0{text}\0" for path, text in texts.items() if text]
    return hashlib.sha256("".join(named).encode()).hexdigest()


@cache
def checksum_of_file(root: Path, crate: str, file: str) -> str:
    """A checksum of what the proofs of this file of a crate rest on."""
    below = sorted(with_libraries({crate}, root) - {crate})
    lines = [f"{name} {checksum_of_crate(root, name, from_above=True)}" for name in below]
    own = [file, without_comments(root / "crates" / crate / file), checksum_of_crate(root, crate, from_above=False)]
    return hashlib.sha256("\0".join(own + lines).encode()).hexdigest()[:12]
