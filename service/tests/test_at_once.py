"""A call by a new key is handed over at once, unless something has to be asked or waited for before."""

from __future__ import annotations

import asyncio
from collections.abc import Callable, Sequence
from typing import Any

import pytest
from instances import Instance, running, until

from job_host.protocol.lines import fingerprint
from job_host.service.settings import ServeSettings
from job_host.service.terms.calls import Call, Item
from job_host.service.terms.term import Term

Make = Callable[..., ServeSettings]


def start(client: str, key: str, job: str = "short", **more: Any) -> Call:
    members = {"job": job, "parameters": {}}
    return Call(client, "start", members, key, fingerprint("start", members), **more)


async def term_of(instance: Instance) -> Term:
    """The term, after it knows the keys of the store."""

    async def is_whole() -> bool:
        term = instance.service.keeper.term
        return term is not None and term.keys.is_whole

    await until(is_whole)
    return instance.service.keeper.leading()


@pytest.fixture
def looked_up(monkeypatch: pytest.MonkeyPatch) -> list[str]:
    """The keys of calls that weren't handed over at once."""
    keys: list[str] = []
    once = Term._once

    async def note(term: Term, call: Call, key: str) -> Any:
        keys.append(key)
        return await once(term, call, key)

    monkeypatch.setattr(Term, "_once", note)
    return keys


async def test_a_new_key_of_a_known_client_is_handed_over_at_once(either: Make, looked_up: list[str]) -> None:
    async with running(either()) as instance:
        term = await term_of(instance)
        replies = [(await term.submit(start("c", key))).told() for key in ("first", "a", "b", "a")]
        assert [reply["execution"] for reply in replies] == [1, 2, 3, 2]
        assert looked_up == ["first", "a"]


async def test_what_has_to_be_asked_or_waited_for_is_not_handed_over_at_once(either: Make, looked_up: list[str]) -> None:
    async with running(either()) as instance:
        term = await term_of(instance)
        await term.submit(start("c", "first"))

        async def members() -> Any:
            return {"job": "wide", "parameters": {}}

        async def confirm() -> None:
            assert term.engine.turn.locked()

        async def made(call: Call) -> bytes:
            return b'{"made":true}'

        await term.submit(Call("c", "claim", {}, "claim", b""))
        await term.submit(start("c", "resolve", resolve=members))
        await term.submit(start("c", "confirm", confirm=confirm))
        assert (await term.submit(start("c", "make", make=made))).told() == {"made": True}
        async with term.engine.turn:
            waiting = asyncio.create_task(term.submit(start("c", "turn")))
            await asyncio.sleep(0.05)
            assert not waiting.done()
        await waiting
        assert looked_up == ["first", "claim", "resolve", "confirm", "make", "turn"]


async def test_one_key_at_once_is_one_call(either: Make) -> None:
    async with running(either()) as instance:
        term = await term_of(instance)
        await term.submit(start("c", "first"))
        told = await asyncio.gather(*(term.submit(start("c", "a")) for _ in range(5)))
        assert {kept.told()["execution"] for kept in told} == {2} and term.engine.entered == 2
        other = term.submit(start("c", "b")), term.submit(start("c", "b", job="wide"))
        first, refused = await asyncio.gather(*other, return_exceptions=True)
        assert (getattr(first, "seen", None), getattr(refused, "name", None)) == (3, "RequestKeyReused")


async def test_a_call_is_in_hand_until_it_is_kept(settings: Make, monkeypatch: pytest.MonkeyPatch) -> None:
    async with running(settings()) as instance:
        term = await term_of(instance)
        await term.submit(start("c", "first"))
        keep, may_keep = term.keep, asyncio.Event()

        async def held(items: Sequence[Item]) -> None:
            await may_keep.wait()
            await keep(items)

        monkeypatch.setattr(term, "keep", held)
        given_up = asyncio.create_task(term.submit(start("c", "a")))
        await asyncio.sleep(0.05)
        given_up.cancel()
        await asyncio.wait([given_up])
        assert "c" in term.sessions._in_hand and ("c", "a") in term._under_way
        may_keep.set()
        assert (await term.submit(start("c", "a"))).told()["execution"] == 2

        async def is_over() -> bool:
            return "c" not in term.sessions._in_hand and not term._under_way

        await until(is_over)


async def test_a_call_that_is_refused_before_its_line_leaves_nothing_in_hand(either: Make) -> None:
    async with running(either()) as instance:
        term = await term_of(instance)
        await term.submit(start("c", "first"))
        bad = Call("c", "start", {"job": float("nan")}, "bad", b"")
        with pytest.raises(Exception, match="BadLine"):
            await term.submit(bad)
        assert "c" not in term.sessions._in_hand and not term._under_way
        assert (await term.submit(start("c", "bad"))).told()["execution"] == 2
