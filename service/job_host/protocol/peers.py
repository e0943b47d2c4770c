"""The other side of a connection that is gone without a word, as a machine without power: TCP notices by itself.

On a connection that is silent it asks the other side's machine, whose kernel answers at once, whatever the program there does.
"""

from __future__ import annotations

import socket
from typing import Any

# A connection that is silent for so long is asked, and again after each second.
IDLE_SECONDS = 2
AGAIN_SECONDS = 1
# The place of a count in TCP_INFO: what was asked since the other side was heard last.
ASKED_PLACE = 3


def notice_gone(connection: Any, seconds: float) -> None:
    """A connection ends if the other side acknowledges nothing for so long: what was sent to it, or what it was asked."""
    given = [
        (socket.SOL_SOCKET, socket.SO_KEEPALIVE, 1),
        (socket.IPPROTO_TCP, socket.TCP_KEEPIDLE, IDLE_SECONDS),
        (socket.IPPROTO_TCP, socket.TCP_KEEPINTVL, AGAIN_SECONDS),
        (socket.IPPROTO_TCP, socket.TCP_KEEPCNT, max(1, int(seconds) - IDLE_SECONDS)),
        (socket.IPPROTO_TCP, socket.TCP_USER_TIMEOUT, int(seconds * 1000)),  # type: ignore[attr-defined]
    ]
    for level, option, value in given:
        connection.setsockopt(level, option, value)


def is_unheard(connection: Any) -> bool:
    """Whether the other side was asked, and hasn't answered yet."""
    told: bytes = connection.getsockopt(socket.IPPROTO_TCP, socket.TCP_INFO, ASKED_PLACE + 1)
    return told[ASKED_PLACE] > 0
