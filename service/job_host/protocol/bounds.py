"""Bounds that both ends know. Counts and bytes."""

from __future__ import annotations

# The greatest number of a line.
MOST_NUMBER = 2**64 - 1
# Rows of a page at most, and of a page whose rows hold lists or long texts.
PAGE_SIZE, PAGE_OF_LARGE_ROWS = 1_000, 100
# Requests of one client that may be in hand at a time.
REQUESTS_AT_ONCE = 64
# Names of artifacts that a worker tells, and the characters of a name, at most.
MOST_ARTIFACTS, ARTIFACT_CHARACTERS = 1_000, 255
# Reports of a worker in one request, at most.
MOST_REPORTS = 32
# The log of a work item: its last bytes.
LOG_BYTES = 65_536
