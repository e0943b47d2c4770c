"""Proves, builds and runs a program of `benches/` that stands outside the gate: its files are texts, since `rt ci` takes no
source that no crate names.

It works in a copy of the repository without `out/`.
"""

from __future__ import annotations

import shutil
import subprocess
import sys
import tempfile
from pathlib import Path

ROOT = Path(__file__).resolve().parent.parent
sys.path.insert(0, str(ROOT / "tools"))

from repository import copy_of, uses_by_crate  # noqa: E402

# What the programs use of the repository, and of the kit.
USES = {"batch_service", "seq_repository", "batch_operator", "sessions", "seat_rules", "jsl_json", "op_log", "jsl_model", "batch_ids"}
LIBRARIES = USES | {"sqlite_items", "anyhow", "atomic_table"}


def copy_to(name: str, folder: Path, libraries: set[str] = LIBRARIES) -> Path:
    """A repository of the program and of what it stands on."""
    crates = copy_of(libraries & set(uses_by_crate()), folder)
    with (folder / "crates.txt").open("a") as table:
        table.write(f"{name}: {' '.join(sorted(libraries))}\n")
    for source in (ROOT / "benches" / name).rglob("*.txt"):
        copied = crates / source.relative_to(ROOT / "benches").with_suffix("")
        copied.parent.mkdir(parents=True, exist_ok=True)
        shutil.copy(source, copied)
    return crates / name


def run(name: str, words: list[str], libraries: set[str] = LIBRARIES) -> int:
    """Runs the program `benches/NAME` with these words, and gives its exit status."""
    with tempfile.TemporaryDirectory(prefix=f"{name}-") as folder:
        crate = copy_to(name, Path(folder), libraries)
        return subprocess.run(["rt", "run", "--", *words], cwd=crate).returncode
