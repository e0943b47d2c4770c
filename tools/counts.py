"""Prints what the repository has by crate: lines, public functions, must-fail edits and tests. Checks the page that has it.

    python3 tools/counts.py            prints the table
    python3 tools/counts.py --check    compares docs/TESTING.md's table of crates with the repository
    python3 tools/counts.py --write    puts the table into the page
"""

from __future__ import annotations

import argparse
import re
import sys
from pathlib import Path

from repository import ROOT, uses_by_crate

PAGE = ROOT / "docs" / "TESTING.md"
LINES = ["code", "specs", "proofs", "public functions"]
# The page has neither lines nor functions, which change with each commit. It leaves out a crate that has nothing else.
COUNTED = ["must-fail edits", "tests"]


def lines_of(folder: Path, ending: str) -> int:
    return sum(1 for path in sorted(folder.rglob(f"*{ending}")) for line in path.read_text().splitlines() if line.strip())


def count_of(folder: Path, pattern: str) -> int:
    return sum(len(re.findall(pattern, path.read_text(), re.M)) for path in folder.rglob("*.rt"))


def row(name: str) -> dict[str, int]:
    crate = ROOT / "crates" / name
    return {
        "code": lines_of(crate / "src", ".rt"),
        "specs": lines_of(crate / "specs", ".antt"),
        "proofs": lines_of(crate / "proofs", ".antt"),
        "public functions": count_of(crate / "src", r"^\s*pub (?:const )?fn "),
        "must-fail edits": len(list((crate / "must-fail").glob("*.edit"))),
        "tests": count_of(crate / "src", r"^\s*#\[test\]"),
    }


def table_of_crates(heads: list[str]) -> list[str]:
    """The crates that have any of these, and the sums of all."""
    lines = ["| crate | " + " | ".join(heads) + " |", "|---|" + "---|" * len(heads)]
    rows = {name: [row(name)[head] for head in heads] for name in uses_by_crate()}
    rows["all"] = [sum(column) for column in zip(*rows.values())]
    return lines + [f"| {name} | " + " | ".join(map(str, counts)) + " |" for name, counts in rows.items() if any(counts)]


def table_in(page: list[str], head: str) -> tuple[int, int]:
    """Where the table with the first two columns of this head begins in the page, and the place behind its end."""
    front = "|".join(head.split("|")[:3]) + "|"
    begin = next((at for at, line in enumerate(page) if line.startswith(front)), len(page))
    end = next((at for at in range(begin, len(page)) if not page[at].startswith("|")), len(page))
    return begin, end


def other_lines(page: list[str], wanted: list[str]) -> list[str]:
    """The lines of a table that the page has otherwise, or lacks; and those that it has too many."""
    begin, end = table_in(page, wanted[0])
    has = page[begin:end]
    return [line for line in wanted if line not in has] + [line for line in has if line not in wanted]


def otherwise() -> list[str]:
    """What the page has otherwise, a line for each."""
    other = other_lines(PAGE.read_text().splitlines(), table_of_crates(COUNTED))
    return [f"{PAGE.relative_to(ROOT)}: otherwise: {line}" for line in other]


def write() -> None:
    page, wanted = PAGE.read_text().splitlines(), table_of_crates(COUNTED)
    begin, end = table_in(page, wanted[0])
    page[begin:end] = wanted
    PAGE.write_text("\n".join(page) + "\n")


def main() -> int:
    parser = argparse.ArgumentParser(description=(__doc__ or "").splitlines()[0])
    parser.add_argument("--check", action="store_true", help="compare the page's table")
    parser.add_argument("--write", action="store_true", help="put the table into the page")
    words = parser.parse_args()
    if words.check:
        other = otherwise()
        for line in other:
            print(line)
        return 1 if other else 0
    if words.write:
        write()
    else:
        print("\n".join(table_of_crates(LINES + COUNTED)))
    return 0


if __name__ == "__main__":
    sys.exit(main())
