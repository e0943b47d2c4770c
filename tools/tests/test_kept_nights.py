"""A log is compacted each night, and old nights are purged: it stays as small, and numbers go on (benches/kept_nights.py)."""

from __future__ import annotations

import subprocess
import sys
from collections.abc import Callable
from pathlib import Path

from program import Program
from repository import ROOT

# From 1,000 job executions on, numbers have as many digits at the end as when the first night was purged.
WORDS = ["--nights", "30", "--kept", "5", "--jobs", "200", "--replies"]


def test_nights_are_compacted_and_purged(program: Program, folder: Path, tell: Callable[[str], None]) -> None:
    bench = [sys.executable, str(ROOT / "benches" / "kept_nights.py"), "--program", str(program.path), "--folder", str(folder)]
    ended = subprocess.run([*bench, *WORDS], capture_output=True, text=True, check=False)
    assert (ended.returncode, ended.stderr) == (0, "")
    *_, told = ended.stdout.splitlines()
    assert told == "168000 operations and 4999 purges; the last job execution is 6000"
    tell(f"30 nights: {told}")
