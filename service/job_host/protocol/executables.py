"""The executables of a folder, by the names that a catalogue gives to artifacts."""

from __future__ import annotations

import os
from pathlib import Path


class NoArtifact(Exception):
    """The folder has no executable of this name."""


def find(folder: Path, name: str) -> Path:
    """The executable of a name. A name with a slash or with a point in front names none, nor does one that no file can have."""
    path = folder / name
    if "/" in name or "\0" in name or name.startswith(".") or not os.path.isfile(path) or not os.access(path, os.X_OK):
        raise NoArtifact(f"there is no executable {name!r} in the folder of artifacts")
    return path.resolve()


def is_stoppable(folder: Path, name: str) -> bool:
    return os.path.exists(folder / f"{name}.stoppable")
