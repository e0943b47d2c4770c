"""An answer's head is sent with its body, by one call of the system, and comes to the client at once."""

from __future__ import annotations

from aiohttp.http_writer import StreamWriter
from multidict import CIMultiDict

# A longer body isn't copied behind the head.
MOST_BYTES = 65_536


class HeadWithBody(StreamWriter):
    """Holds back the head of an answer whose length is known until its body comes, or its end."""

    _held = b""
    _is_held_back = False

    async def write_headers(self, status_line: str, headers: CIMultiDict[str]) -> None:
        self._is_held_back = "Content-Length" in headers
        await super().write_headers(status_line, headers)

    def _write(self, chunk: bytes) -> None:
        held, self._held = self._held, b""
        if self._is_held_back:
            self._held, self._is_held_back = chunk, False
        elif held and len(chunk) <= MOST_BYTES:
            super()._write(held + chunk)
        else:
            if held:
                super()._write(held)
            super()._write(chunk)

    async def drain(self) -> None:
        """Whoever waits until what was written is taken has nothing held back."""
        held, self._held = self._held, b""
        if held:
            super()._write(held)
        await super().drain()
