"""Looks for all that the gate needs, and names what is missing, with the Debian packages that bring it.

    python3 tools/check_needs.py

The gate begins with it, so that nothing turns out to be missing after an hour of proofs. The exit status is 1 if something is
missing. An older Python can read this file too, and is named as too old.
"""

from __future__ import annotations

import shutil
import subprocess
import sys
from dataclasses import dataclass
from pathlib import Path

ROOT = Path(__file__).resolve().parent.parent
INSTALL = ROOT / "service" / "install.sh"
LIBRARIES = [str(path) for path in sorted((ROOT / "tools" / "tests" / "libraries").glob("*.c"))]
# The tools run by the `python3` on the path. The service runs by Debian's, which has its packages.
DEBIANS_PYTHON = "/usr/bin/python3"
IS_NEW_ENOUGH = "import sys; sys.exit(sys.version_info < (3, 11))"


@dataclass(frozen=True)
class Need:
    """Something that the gate needs, the Debian packages that bring it (none if Debian lacks it), and whether it is there."""

    name: str
    packages: str
    is_there: bool


def succeeds(*words: str) -> bool:
    """Whether there is such a command, and it ends with status 0."""
    return shutil.which(words[0]) is not None and subprocess.run(words, capture_output=True, check=False).returncode == 0


def needs() -> list[Need]:
    """What the gate needs, without the service's packages."""
    return [
        Need("rt, Rattle's toolchain", "", shutil.which("rt") is not None),
        Need("python3, 3.11 or newer, on the path", "python3", succeeds("python3", "-c", IS_NEW_ENOUGH)),
        Need(f"{DEBIANS_PYTHON}, 3.11 or newer", "python3", succeeds(DEBIANS_PYTHON, "-c", IS_NEW_ENOUGH)),
        Need("cc, with the headers of tools/tests/libraries/*.c", "gcc libc6-dev", succeeds("cc", "-fsyntax-only", *LIBRARIES)),
        Need("valgrind", "valgrind", succeeds("valgrind", "--version")),
    ]


def packages_of_the_service() -> list[str]:
    """The packages of the service and its tests that are missing, by the script that installs them."""
    return subprocess.run([INSTALL, "--development", "--missing"], stdout=subprocess.PIPE, check=True, text=True).stdout.split()


def missing() -> list[Need]:
    """All that is missing."""
    ours = [need for need in needs() if not need.is_there]
    return ours + [Need(package, package, False) for package in packages_of_the_service()]


def main() -> int:
    found = missing()
    for need in found:
        by = f" (Debian's {need.packages})" if need.packages else ""
        print(f"check_needs: missing: {need.name}{by}", file=sys.stderr)
    packages = sorted({package for need in found for package in need.packages.split()})
    if packages:
        print(f"check_needs: apt-get install --no-install-recommends {' '.join(packages)}", file=sys.stderr)
    return 1 if found else 0


if __name__ == "__main__":
    sys.exit(main())
