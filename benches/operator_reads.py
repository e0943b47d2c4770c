"""Runs `benches/operator_reads`: threads read one operator by its read copies, while another writes and publishes after each
1,000 writes. Printed are writes and reads a second, with 1 and 4 copies and with 0, 1, 2 and 4 readers.

    python3 benches/operator_reads.py [WRITES]

A run has 100,000 writes if no number is given, all of which cost the same, and lasts as long as the writer does.
"""

from __future__ import annotations

import sys

from outside_the_gate import run

if __name__ == "__main__":
    sys.exit(run("operator_reads", sys.argv[1:]))
