"""Runs `benches/operator_soak`: threads start, claim and finish work on one operator, and the history is compared with what
they were answered. Printed are operations a second with 1, 2, 4 and 8 threads.

    python3 benches/operator_soak.py [OPERATIONS]
    python3 benches/operator_soak.py copies [OPERATIONS]

OPERATIONS is 2,000 if it is not given.
With `copies` four threads write, four read by the read copies, and one publishes, 200,000 operations if no number is given: it
ends with an error where a reader finds less than it had found, or where a copy answers otherwise than the book in the end.
"""

from __future__ import annotations

import sys

from outside_the_gate import run

if __name__ == "__main__":
    sys.exit(run("operator_soak", sys.argv[1:]))
