"""File descriptors: as many as the system gives, and no more connections than they suffice for."""

from __future__ import annotations

import logging
import resource
from contextlib import suppress
from dataclasses import replace

from job_host.service.http.room import MOST_BESIDE
from job_host.service.settings import ServeSettings

log = logging.getLogger(__name__)

# What a service has open beside its callers' connections: strangers, and its own files, pipes and databases.
OTHERS = MOST_BESIDE + 64


def raise_limit() -> int:
    """Raises this process's limit to the hard one. Returns the limit that it has then."""
    _, hard = resource.getrlimit(resource.RLIMIT_NOFILE)
    with suppress(OSError, ValueError):
        resource.setrlimit(resource.RLIMIT_NOFILE, (hard, hard))
    return resource.getrlimit(resource.RLIMIT_NOFILE)[0]


def fitted(settings: ServeSettings, limit: int) -> ServeSettings:
    """The settings, with so few connections that this limit suffices. It says so if these are fewer."""
    bounds = settings.bounds
    most = max(1, limit - OTHERS)
    if limit == resource.RLIM_INFINITY or most >= bounds.connections:
        return settings
    told = "%d file descriptors suffice for %d connections, and not for %d: the hard limit has to be raised for more"
    log.warning(told, limit, most, bounds.connections)
    return replace(settings, bounds=replace(bounds, connections=most))
