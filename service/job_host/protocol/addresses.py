"""Where a service listens, and where it is looked for, if nothing else is said."""

from __future__ import annotations

DEFAULT_PORT = 8570
DEFAULT_URL = f"http://127.0.0.1:{DEFAULT_PORT}"
