"""Finds the route of a request by its path, and hands the request to it.

aiohttp looks through all routes in turn, and wraps their handlers anew for each request.
"""

from __future__ import annotations

from collections.abc import Awaitable, Callable, Iterator
from typing import Any, cast

from aiohttp import web
from aiohttp.abc import AbstractMatchInfo
from aiohttp.web_urldispatcher import AbstractResource

Handler = Callable[[web.Request], Awaitable[web.StreamResponse]]
# Answers a request by the handler of its route, whatever that raises.
Answer = Callable[[web.Request, Handler], Awaitable[web.StreamResponse]]

PLACEHOLDER = "{"


def prefixes_of(path: str) -> Iterator[str]:
    """The beginnings of a path, up to each of its slashes."""
    end = path.find("/")
    while end >= 0:
        yield path[: end + 1]
        end = path.find("/", end + 1)


class Dispatch:
    """The routes of a frozen application. Which of them is taken, and what is answered if none is, aiohttp decides."""

    def __init__(self, application: web.Application, answer: Answer) -> None:
        self._application = application
        self._answer = answer
        # Resources by their paths, or by what stands before their first placeholder, with their places in the written order.
        self._whole: dict[str, list[tuple[int, AbstractResource]]] = {}
        self._begun: dict[str, list[tuple[int, AbstractResource]]] = {}
        for place, resource in enumerate(application.router.resources()):
            before, has_placeholder, _ = resource.canonical.partition(PLACEHOLDER)
            paths = self._begun if has_placeholder else self._whole
            paths.setdefault(before, []).append((place, resource))

    async def handle(self, request: web.Request) -> web.StreamResponse:
        found = await self._resolve(request)
        found.add_app(self._application)
        found.freeze()
        request._match_info = found  # type: ignore[assignment]
        if request.headers.get("Expect"):
            refusal: web.StreamResponse | None = await cast(Any, found).expect_handler(request)
            await request.writer.drain()
            if refusal is not None:
                return refusal
        return await self._answer(request, found.handler)

    async def _resolve(self, request: web.Request) -> AbstractMatchInfo:
        path = request.rel_url.raw_path
        found = list(self._whole.get(path, ()))
        for prefix in prefixes_of(path):
            found += self._begun.get(prefix, ())
        for _, resource in sorted(found, key=lambda one: one[0]):
            match, _ = await resource.resolve(request)
            if match is not None:
                return match
        # None has it, or not by this method: aiohttp says which.
        return await self._application.router.resolve(request)
