"""The quick check of daily work: proves what changed and what stands on it, and runs the tests there.

    python3 tools/quick.py [--base REV] [CRATE..]

Without a crate, those that differ from the commit REV (HEAD, if none is given) are taken, with files that git does not
know yet. Each is proved over what earlier checks left in `out/`, the lowest first; it ends at the first that fails. Must-fail
edits, programs and the layout are left to `rt ci`.
"""

from __future__ import annotations

import argparse
import subprocess
import sys
import time

from repository import ROOT, has_tests, uses_by_crate, with_those_above


def lines_of(*command: str) -> list[str]:
    return subprocess.run(command, cwd=ROOT, check=True, capture_output=True, text=True).stdout.splitlines()


def changed_since(base: str) -> set[str]:
    """The crates with a file that differs from this commit."""
    files = lines_of("git", "diff", "--name-only", base) + lines_of("git", "ls-files", "--others", "--exclude-standard")
    parts = [file.split("/") for file in files]
    return {part[1] for part in parts if part[0] == "crates" and len(part) > 2} & set(uses_by_crate())


def passes(crate: str, command: str) -> bool:
    """Whether `rt check` or `rt test` of this crate passes; what it says is shown only where it does not."""
    begin = time.monotonic()
    ended = subprocess.run(["rt", command], cwd=ROOT / "crates" / crate, capture_output=True, text=True)
    seconds = time.monotonic() - begin
    print(f"{crate}: rt {command}: {'passed' if ended.returncode == 0 else 'FAILED'} in {seconds:.0f} s", flush=True)
    if ended.returncode != 0:
        print(ended.stdout + ended.stderr)
    return ended.returncode == 0


def main() -> int:
    parser = argparse.ArgumentParser(description=__doc__.splitlines()[0])
    parser.add_argument("--base", default="HEAD", help="the commit to compare with")
    parser.add_argument("crates", nargs="*")
    words = parser.parse_args()
    changed = set(words.crates) or changed_since(words.base)
    for crate in with_those_above(changed):
        if not passes(crate, "check") or (has_tests(crate) and not passes(crate, "test")):
            return 1
    return 0


if __name__ == "__main__":
    sys.exit(main())
