"""A client over HTTP that costs little itself, so that a figure is the service's: one connection, one call at a time."""

from __future__ import annotations

import asyncio
import json
import uuid
from typing import Any

HEAD_END = b"\r\n\r\n"
LENGTH = b"content-length: "


class LeanClient:
    """One client under one name. Each of its calls has a request key of its own."""

    def __init__(self, port: int, name: str) -> None:
        self._port = port
        self._head = f" HTTP/1.1\r\nHost: 127.0.0.1:{port}\r\nBatch-Client: {name}\r\nContent-Type: application/json\r\n"
        self._streams: tuple[asyncio.StreamReader, asyncio.StreamWriter] | None = None

    async def open(self) -> None:
        self._streams = await asyncio.open_connection("127.0.0.1", self._port)

    def close(self) -> None:
        if self._streams is not None:
            self._streams[1].close()

    async def ask(self, method: str, path: str, body: Any) -> Any:
        """Makes an operation. Raises RuntimeError with its problem document if it is refused."""
        assert self._streams is not None
        reader, writer = self._streams
        text = json.dumps(body)
        more = f"Idempotency-Key: {uuid.uuid4().hex}\r\nContent-Length: {len(text)}\r\n\r\n{text}"
        writer.write(f"{method} {path}{self._head}{more}".encode())
        head = (await reader.readuntil(HEAD_END)).lower()
        begin = head.index(LENGTH) + len(LENGTH)
        told = json.loads(await reader.readexactly(int(head[begin : head.index(b"\r", begin)])))
        if int(head[9:12]) >= 400:
            raise RuntimeError(told)
        return told
