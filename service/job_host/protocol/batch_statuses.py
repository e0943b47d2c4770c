"""Batch statuses, as Jakarta Batch names them."""

from __future__ import annotations

STOPPING = "STOPPING"
UNFINISHED = ("STARTING", "STARTED", STOPPING)
STATUSES = (*UNFINISHED, "STOPPED", "FAILED", "COMPLETED", "ABANDONED")
