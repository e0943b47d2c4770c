"""Parameters as people read them."""

from __future__ import annotations

from collections.abc import Mapping


def parameter_text(parameters: Mapping[str, str], most: int) -> str:
    """Parameters as one text of at most so many characters."""
    return shortened(", ".join(f"{name}={value}" for name, value in parameters.items()), most)


def shortened(text: str, most: int) -> str:
    return text if len(text) <= most else text[: most - 1] + "\u2026"
