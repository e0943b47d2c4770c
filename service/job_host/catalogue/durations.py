"""Durations of ISO 8601 in whole seconds: weeks, or days, hours, minutes and seconds. Years and months have no length."""

from __future__ import annotations

import re

DURATION = re.compile(r"P(?:(\d+)W|(?:(\d+)D)?(?:T(?=\d)(?:(\d+)H)?(?:(\d+)M)?(?:(\d+)S)?)?)", re.ASCII)
SECONDS_OF = (604_800, 86_400, 3_600, 60, 1)
MOST_CHARACTERS = 64


def seconds_of(text: str) -> int | None:
    """The seconds of a duration as `PT1H30M`. None if the text is none."""
    found = DURATION.fullmatch(text) if len(text) <= MOST_CHARACTERS else None
    if found is None or not any(found.groups()):
        return None
    return sum(int(count) * seconds for count, seconds in zip(found.groups(), SECONDS_OF) if count)
