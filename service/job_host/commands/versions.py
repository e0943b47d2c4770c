"""`jobhost --version`: of this package, and of the `batchctl` that it finds."""

from __future__ import annotations

import subprocess
import tomllib
from importlib import metadata
from pathlib import Path

from job_host.commands.program import find_batchctl

PROJECT = Path(__file__).resolve().parents[2] / "pyproject.toml"
SECONDS = 5.0


def own_version() -> str:
    """The version of the clone that runs, or of the package that was installed."""
    if not PROJECT.exists():
        return metadata.version("job_host")
    return str(tomllib.loads(PROJECT.read_text())["project"]["version"])


def batchctl_version() -> str:
    """What `batchctl` says of itself, and where it is."""
    (program,) = find_batchctl(None)
    try:
        done = subprocess.run([program, "--version"], capture_output=True, timeout=SECONDS, check=True)
    except (OSError, subprocess.SubprocessError) as fault:
        return f"batchctl: {fault}"
    return f"{done.stdout.decode('utf-8', 'replace').strip()} ({program})"
