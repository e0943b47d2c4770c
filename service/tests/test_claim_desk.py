"""The desk of waiting claims: nobody waits for ever after it has ended."""

from __future__ import annotations

import asyncio
from collections.abc import Callable
from types import SimpleNamespace
from typing import Any, cast

import pytest

from job_host.service.problems import Problem, unavailable
from job_host.service.server import Service
from job_host.service.terms.calls import Call, Item
from job_host.service.terms.claims import ClaimDesk

ENDED = unavailable("Starting", "this instance begins again")


async def never(call: Call) -> Item:
    """A claim that is never handed over."""
    await asyncio.Event().wait()
    raise AssertionError


def claim(name: str) -> Call:
    return Call(name, "claim", {}, wait=60.0)


@pytest.mark.parametrize("is_told_first", [False, True])
async def test_a_claim_that_is_being_made_is_answered(is_told_first: bool) -> None:
    """The desk stops serving, and is told why, in either order."""
    desk = ClaimDesk(never)
    serving = asyncio.create_task(desk.serve())
    claims = [asyncio.create_task(desk.claim(claim(name))) for name in ("first", "second")]
    await asyncio.sleep(0.05)
    assert desk.waiting == 1
    if is_told_first:
        desk.fail(ENDED)
    serving.cancel()
    await asyncio.gather(serving, return_exceptions=True)
    desk.fail(ENDED)
    for one in claims:
        with pytest.raises(Problem, match="begins again"):
            await asyncio.wait_for(one, 1.0)


async def test_a_claim_that_comes_after_the_end_is_answered_at_once() -> None:
    desk = ClaimDesk(never)
    desk.fail(ENDED)
    with pytest.raises(Problem, match="begins again"):
        await asyncio.wait_for(desk.claim(claim("late")), 1.0)


async def test_claims_that_wait_end_with_the_service(idle: Callable[..., Service]) -> None:
    service, desk = idle(), ClaimDesk(never)
    service.keeper.term = cast(Any, SimpleNamespace(desk=desk))
    waiting = asyncio.create_task(desk.claim(claim("first")))
    await asyncio.sleep(0.05)
    await service.end_serving()
    with pytest.raises(Problem, match="this instance ends"):
        await asyncio.wait_for(waiting, 1.0)
