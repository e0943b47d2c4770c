"""What a service is told at its start, and the bounds of everything that a client may send."""

from __future__ import annotations

from collections.abc import Mapping
from dataclasses import dataclass, field
from datetime import time
from pathlib import Path

from job_host.catalogue.queues import DEFAULT_QUEUE, QueueBounds
from job_host.protocol.addresses import DEFAULT_PORT
from job_host.protocol.bounds import LOG_BYTES, PAGE_OF_LARGE_ROWS, PAGE_SIZE, REQUESTS_AT_ONCE


@dataclass(frozen=True)
class HistoryBounds:
    """How many operations a history holds, and from how many on the service warns, and starts and restarts nothing."""

    most: int
    warn_from: int
    refuse_from: int


LOG_BOUNDS = HistoryBounds(4_294_967_296, 4_200_000_000, 4_290_000_000)


@dataclass(frozen=True)
class Bounds:
    """The bounds of a client. Seconds, bytes and counts."""

    body_bytes: int = 1_048_576
    name_bytes: int = 128
    key_bytes: int = 128
    log_bytes: int = LOG_BYTES
    requests_at_once: int = REQUESTS_AT_ONCE
    connections: int = 1_024
    watchers: int = 64
    clients: int = 100_000
    name_seconds: float = 86_400.0
    page_size: int = PAGE_SIZE
    page_of_large_rows: int = PAGE_OF_LARGE_ROWS
    listed: int = 10_000
    longest_poll: float = 60.0
    slow_after: float = 10.0
    gone_after: float = 5.0
    handshake: float = 10.0
    at_least_seconds: float = 5.0
    days_of_keys: int = 7

    @property
    def waits(self) -> int:
        """How many claims may wait: callers who start, stop and read have room beside them."""
        return max(1, self.connections * 3 // 4)


@dataclass(frozen=True)
class ServeSettings:
    """A service. `postgres` holds the DSN of each server that may be the primary; if it is empty, the service is embedded.

    `catalogue` is a file, or with `is_folder` a folder of job files. `allow` names the forms of JSL to leave out there.
    """

    catalogue: Path
    batchctl: tuple[str, ...]
    is_folder: bool = False
    allow: tuple[str, ...] = ()
    data: Path = Path("jobhost-data")
    postgres: tuple[str, ...] = ()
    host: str = "127.0.0.1"
    port: int = DEFAULT_PORT
    advertise: str = ""
    tokens: Path | None = None
    certificate: Path | None = None
    certificate_key: Path | None = None
    lease: float = 30.0
    takeover_after: float = 5.0
    commit_timeout: float = 30.0
    other_history: HistoryBounds | None = None
    # Job instances that are over are purged after so many days, and those that may be restarted. None are without a number.
    keep_days: int | None = None
    keep_failed_days: int | None = None
    archive: Path | None = None
    # The time of each day at which the history is compacted. Without one it is compacted by itself alone.
    compact_at: time | None = None
    # The URL of whoever is told of events, the file of the secret that signs, and whether its name may have private addresses.
    notify: str = ""
    notify_secret: Path | None = None
    notify_private: bool = False
    # Goes on though the file beside the log doesn't know what is before the log's base.
    forget_keys: bool = False
    # Chains the operations of the log by their hashes.
    chain: bool = False
    # The queues with their bounds, the default one first. Without any there is that one alone, and it has no bounds.
    queues: Mapping[str, QueueBounds] = field(default_factory=dict)
    bounds: Bounds = field(default_factory=Bounds)

    @property
    def queue_names(self) -> tuple[str, ...]:
        """The queues that a job may have."""
        return tuple(self.queues) or (DEFAULT_QUEUE,)

    @property
    def history(self) -> HistoryBounds:
        """The bounds of the history: those of a log of batchctl."""
        return self.other_history or LOG_BOUNDS
