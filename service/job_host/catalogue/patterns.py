"""Patterns of exit statuses, as the `on` of a transition element: `*` takes any characters, also none, and `?` takes one."""

from __future__ import annotations

ANYTHING, ANY_CHARACTER = "*", "?"


def matches(pattern: str, text: str) -> bool:
    """Whether a pattern takes a whole text, letter by letter. The cost is at most the product of their lengths."""
    at, begun, star, after = 0, 0, -1, 0
    while begun < len(text):
        if at < len(pattern) and pattern[at] == ANYTHING:
            star, after, at = at, begun, at + 1
        elif at < len(pattern) and pattern[at] in (ANY_CHARACTER, text[begun]):
            at, begun = at + 1, begun + 1
        elif star >= 0:
            # The last `*` takes one character more.
            at, after = star + 1, after + 1
            begun = after
        else:
            return False
    return all(one == ANYTHING for one in pattern[at:])
