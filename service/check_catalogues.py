#!/usr/bin/python3
"""Checks random catalogues, most of them at fault, and looks at what `jobhost catalogue check` tells of them.

    service/check_catalogues.py [--count 5000] [--seed 1]

The first fault must be batchctl's, each must have a place, and with all repairs that the check makes, a catalogue must be good.
It prints how often each fault came first, and ends with status 1 if something is told wrongly.
"""

from __future__ import annotations

import argparse
import random
import sys
from collections import Counter
from pathlib import Path

sys.path.insert(0, str(Path(__file__).resolve().parent))
sys.path.insert(0, str(Path(__file__).resolve().parent / "tests"))

from random_catalogues import random_catalogue  # noqa: E402
from told_faults import told_wrongly  # noqa: E402

from job_host.commands.program import find_batchctl  # noqa: E402


def main() -> int:
    parser = argparse.ArgumentParser(description="Looks at what the check tells of random catalogues.")
    parser.add_argument("--count", type=int, default=5000)
    parser.add_argument("--seed", type=int, default=1)
    parser.add_argument("--batchctl")
    given = parser.parse_args()
    batchctl = find_batchctl(given.batchctl)
    counts, ways, wrongs = Counter[str](), Counter[str](), 0
    for number in range(given.count):
        made = random_catalogue(random.Random(f"{given.seed}-{number}"))
        name, wrong = told_wrongly(batchctl, made.data)
        counts[name] += 1
        ways.update(made.ways or ["as it should be"])
        if wrong:
            wrongs += 1
            print(f"{number} ({', '.join(made.ways)}): {wrong}\n    {made.data[:2000]!r}")
    print("first fault: " + ", ".join(f"{name} {count}" for name, count in counts.most_common()))
    print("broken by: " + ", ".join(f"{name} {count}" for name, count in ways.most_common()))
    print(f"{given.count} catalogues, {wrongs} told wrongly")
    return 1 if wrongs else 0


if __name__ == "__main__":
    sys.exit(main())
