"""The catalogues of the repository, and how the tests look at a check."""

from __future__ import annotations

import json
import re
from collections.abc import Collection, Iterator
from pathlib import Path
from typing import Any

from job_host.catalogue.check import Checked, check
from job_host.catalogue.faults import Fault, Note
from job_host.catalogue.file import read_data
from job_host.commands.program import find_batchctl

ROOT = Path(__file__).resolve().parents[2]
BATCHCTL = find_batchctl(None)
BEGIN = re.compile(r'\{\s*"jobs"')
FOLDERS = ("crates", "docs", "benches", "bench", "tools", "service", "examples")
SUFFIXES = (".md", ".py", ".sh", ".txt", ".rt", ".script", ".scripts", ".json", "")


def first_lines(path: Path) -> Iterator[bytes]:
    """The first line of each script of a file, which is its catalogue."""
    data = path.read_bytes()
    for script in data.split(b"\n\n") if path.suffix == ".scripts" else [data]:
        yield script.split(b"\n")[0]


def catalogues_in(text: str) -> Iterator[bytes]:
    """The objects with `jobs` that stand in a text."""
    decoder = json.JSONDecoder()
    for found in BEGIN.finditer(text):
        try:
            _, end = decoder.raw_decode(text, found.start())
        except ValueError:
            continue
        yield text[found.start() : end].encode()


def catalogues_of_the_repository() -> list[bytes]:
    found = dict.fromkeys(line for path in sorted((ROOT / "cases").rglob("*.script*")) for line in first_lines(path))
    paths = [path for folder in FOLDERS for path in sorted((ROOT / folder).rglob("*")) if "out" not in path.parts]
    for path in [ROOT / "README.md", *paths]:
        if path.is_file() and path.suffix in SUFFIXES and "__pycache__" not in path.parts:
            found |= dict.fromkeys(catalogues_in(path.read_text(errors="replace")))
    return list(found)


def checked(folder: Path, text: str | bytes, allowed: Collection[str] = (), artifacts: Path | None = None) -> Checked:
    """The check of a file that holds a text."""
    path = folder / "catalogue"
    path.write_bytes(text if isinstance(text, bytes) else text.encode())
    return check(read_data(str(path), path.read_bytes(), allowed), BATCHCTL, artifacts)


def told(found: Checked) -> list[str]:
    """The faults, forms and notes of a check, each with its place."""
    notes: list[Fault | Note] = [*found.faults, *found.file.refused, *found.file.told, *found.warnings]
    return [f"{found.file.source.place(note.at)}: {note}" for note in notes]


def step(name: str, **more: Any) -> dict[str, Any]:
    return {"kind": "step", "id": name, "batchlet": {"ref": "ok"}, **more}


def one_job(*elements: Any, **more: Any) -> str:
    """A catalogue of one job in a line, the job's members first."""
    return json.dumps({"jobs": [{"id": "a", **more, "elements": list(elements)}]}, ensure_ascii=False)
