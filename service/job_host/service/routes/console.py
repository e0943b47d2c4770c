"""The console's files, and the stream of events by which it follows."""

from __future__ import annotations

import asyncio
import hashlib
import json
import time
from importlib import resources
from typing import Any

from aiohttp import web

from job_host.service.history.engine import Engine
from job_host.service.http.browsers import Browsers
from job_host.service.http.requests import Asked
from job_host.service.ids import told_outside
from job_host.service.keepers.keeper import Keeper
from job_host.service.problems import Problem
from job_host.service.queues.queues import Queues

PAGE = "index.html"
TOKEN_PLACE = "{forgery-token}"
KINDS = {".css": "text/css", ".js": "text/javascript", ".svg": "image/svg+xml"}
EVENTS_PATH = "/batch/events"
LOOK_SECONDS = 0.2
QUIET_SECONDS = 10.0

# Nothing comes from elsewhere, no script or style stands in the page, and no text becomes markup.
CONTENT_POLICY = "; ".join(
    [
        "default-src 'none'",
        "script-src 'self'",
        "style-src 'self'",
        "img-src 'self'",
        "connect-src 'self'",
        "base-uri 'none'",
        "form-action 'none'",
        "frame-ancestors 'none'",
        "require-trusted-types-for 'script'",
        "trusted-types 'none'",
    ]
)
HEADERS = {
    "Content-Security-Policy": CONTENT_POLICY,
    "Cross-Origin-Opener-Policy": "same-origin",
    "Cross-Origin-Resource-Policy": "same-origin",
    "Referrer-Policy": "no-referrer",
    "X-Content-Type-Options": "nosniff",
    "X-Frame-Options": "DENY",
}


class ConsoleFiles:
    """The files of the folder `service/console`. They hold no data, so they need no token."""

    def __init__(self, browsers: Browsers) -> None:
        self._files: dict[str, tuple[bytes, str]] = {}
        for file in resources.files("job_host.service").joinpath("console").iterdir():
            kind = KINDS.get("." + file.name.rpartition(".")[2])
            if kind is not None:
                self._files[file.name] = (file.read_bytes(), kind)
        page = resources.files("job_host.service").joinpath("console", PAGE).read_text("utf-8")
        self._page = page.replace(TOKEN_PLACE, browsers.token)

    async def show_page(self, request: web.Request) -> web.StreamResponse:
        return web.Response(text=self._page, content_type="text/html", headers={**HEADERS, "Cache-Control": "no-store"})

    async def show_file(self, request: web.Request) -> web.StreamResponse:
        found = self._files.get(request.match_info["name"])
        if found is None:
            raise Problem("NotFound", 404)
        content, kind = found
        tag = f'"{hashlib.sha256(content).hexdigest()[:32]}"'
        headers = {**HEADERS, "Cache-Control": "no-cache", "ETag": tag}
        if request.headers.get("If-None-Match") == tag:
            return web.Response(status=304, headers=headers)
        return web.Response(body=content, content_type=kind, charset="utf-8", headers=headers)


def state_of(queues: Queues) -> dict[str, Any]:
    """How the default queue is; of several ones, what is kept in all of them."""
    keeper = queues.default.keeper
    if queues.are_plain:
        return {"operations": keeper.committed, "role": keeper.role, "epoch": keeper.epoch}
    return {"operations": sum(queues.committed), "role": queues.role, "epoch": sum(one.epoch for one in queues.keepers)}


def health_of(queues: Queues) -> dict[str, Any]:
    state = state_of(queues)
    return {name: state[name] for name in ("role", "epoch", "operations")}


class Changed:
    """Names what one stream of events hasn't told yet of a queue, as long as the history goes on by one engine."""

    def __init__(self) -> None:
        self._engine: Engine | None = None
        self._told = 0

    def names(self, keeper: Keeper, operations: int) -> dict[str, Any]:
        """The job executions that have changed since the last call, if they are known. Before the first one none are."""
        engine, told = self._engine, self._told
        self._engine, self._told = keeper.engine, operations
        if engine is None or engine is not keeper.engine:
            return {}
        executions = engine.changes.between(told, operations)
        return {} if executions is None else {"executions": executions}


class ChangedInQueues:
    """The same of all queues, with the numbers of job executions as they are outside."""

    def __init__(self, queues: Queues) -> None:
        self._queues = queues
        self._changed = [Changed() for _ in queues]

    def names(self) -> dict[str, Any]:
        told = [of.names(one.keeper, one.keeper.committed) for one, of in zip(self._queues, self._changed, strict=True)]
        if not all(told):
            return {}
        named = [told_outside(one, queue.number)["executions"] for one, queue in zip(told, self._queues)]
        return {"executions": [number for some in named for number in some]}


async def show_events(asked: Asked) -> web.StreamResponse:
    """Says how many operations there are, at once and after each growth (server-sent events). Ends if the client is gone.

    Each event but the first names the job executions that have changed since the one before it.
    """
    response = web.StreamResponse(headers={**HEADERS, "Content-Type": "text/event-stream", "Cache-Control": "no-store"})
    await response.prepare(asked.request)
    told: dict[str, Any] = {}
    changed, last = ChangedInQueues(asked.host.queues), 0.0
    try:
        while not asked.is_gone() and not asked.host.ending.is_set():
            state, now = state_of(asked.host.queues), time.monotonic()
            if state != told:
                event = {**state, **changed.names()}
                await response.write(f"data: {json.dumps(event)}\n\n".encode())
            elif now - last >= QUIET_SECONDS:
                await response.write(b":\n\n")
            else:
                await asyncio.sleep(LOOK_SECONDS)
                continue
            told, last = state, now
    except ConnectionError:
        return response
    return response
