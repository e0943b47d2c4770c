"""Proves, builds and runs `benches/host`, the complete host of docs/OPERATOR.md. It prints the number, batch status and exit
status of three job executions.

    python3 benches/host.py
"""

from __future__ import annotations

import sys

from outside_the_gate import LIBRARIES, run

if __name__ == "__main__":
    sys.exit(run("host", sys.argv[1:], LIBRARIES | {"built_in_artifacts", "job_threads", "batch_history"}))
