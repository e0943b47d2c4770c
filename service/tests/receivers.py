"""A receiver of notifications under test, and services that tell it."""

from __future__ import annotations

import hashlib
import hmac
import json
from collections.abc import AsyncIterator
from contextlib import asynccontextmanager
from pathlib import Path
from typing import Any

from aiohttp import web
from instances import SHORT_PAUSE, until

SECRET = "a secret of the tests"


class Receiver:
    """Takes notifications, or answers a status that refuses them. `taken` are the bodies in the order of their coming."""

    def __init__(self) -> None:
        self.status = 200
        self.refused: str | None = None
        self.taken: list[dict[str, Any]] = []
        self.attempts: list[dict[str, Any]] = []
        self.redirected = 0
        self.url = ""

    async def take(self, request: web.Request) -> web.StreamResponse:
        body = await request.read()
        signature = hmac.new(SECRET.encode(), body, hashlib.sha256).hexdigest()
        told = json.loads(body)
        assert request.headers["Batch-Signature"] == f"sha256={signature}"
        assert request.headers["Batch-Notification"] == told["id"] and request.content_type == "application/json"
        self.attempts.append(told)
        status = 400 if self.refused is not None and self.refused in told["id"] else self.status
        if status == 200:
            self.taken.append(told)
        return web.Response(status=status, headers={"Location": f"{self.url}/elsewhere"} if status == 307 else {})

    async def take_redirected(self, request: web.Request) -> web.StreamResponse:
        self.redirected += 1
        return web.Response()

    @property
    def kinds(self) -> list[tuple[str, int]]:
        """What was taken, each with its job execution, or 0."""
        return [(one["kind"], one.get("executionId", 0)) for one in self.taken]

    async def until_taken(self, count: int) -> None:
        async def are_taken() -> bool:
            return len(self.taken) >= count

        await until(are_taken, longest=SHORT_PAUSE)

    async def until_attempts(self, count: int) -> None:
        async def are_made() -> bool:
            return len(self.attempts) >= count

        await until(are_made, longest=SHORT_PAUSE)


@asynccontextmanager
async def receiving() -> AsyncIterator[Receiver]:
    receiver = Receiver()
    application = web.Application()
    application.router.add_post("/", receiver.take)
    application.router.add_route("*", "/elsewhere", receiver.take_redirected)
    runner = web.AppRunner(application)
    await runner.setup()
    try:
        await web.TCPSite(runner, "127.0.0.1", 0).start()
        receiver.url = f"http://127.0.0.1:{runner.addresses[0][1]}"
        yield receiver
    finally:
        await runner.cleanup()


def words(folder: Path, receiver: Receiver) -> dict[str, Any]:
    """Settings of a service that tells a receiver."""
    path = folder / "secret"
    path.write_text(f"{SECRET}\n")
    return {"notify": receiver.url, "notify_secret": path}
