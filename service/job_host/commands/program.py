"""The program batchctl: where it is."""

from __future__ import annotations

import os
import shutil
from pathlib import Path


def find_batchctl(given: str | None) -> tuple[str, ...]:
    """The program: the one that is named, else JOBHOST_BATCHCTL, else the path's, else the one that this clone has built."""
    named = given or os.environ.get("JOBHOST_BATCHCTL") or shutil.which("batchctl")
    built = Path(__file__).resolve().parents[3] / "crates" / "batchctl" / "out" / "batchctl"
    return (named or str(built),)
