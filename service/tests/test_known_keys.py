"""Which request keys may be kept: a filter that forgets none, and that is asked in place of the store."""

from __future__ import annotations

from collections.abc import Callable, Sequence

import pytest
from instances import Caller, running

from job_host.service.settings import ServeSettings
from job_host.service.terms.known_keys import Filter, KeptKey, KnownKeys
from job_host.service.terms.term import Term

Make = Callable[..., ServeSettings]
KEYS = [(session, f"key-{number}") for session in (0, 1, 2**40) for number in range(2_000)]


def test_a_filter_forgets_no_key_and_takes_few_others_for_known() -> None:
    one = Filter(2**17)
    room = one.room
    for session, key in KEYS:
        one.add(session, key)
    assert all(one.has(session, key) for session, key in KEYS) and one.room == room - len(KEYS)
    others = sum(one.has(session + 7, key) for session, key in KEYS)
    # A key in 12 bits, of which 5 are set, is taken for known by less than one in a hundred.
    assert others < 0.01 * len(KEYS)


def test_any_key_may_be_known_until_all_of_the_store_are() -> None:
    keys = KnownKeys()
    assert keys.may_have(2, "a")
    keys.add(2, "a")
    keys.is_whole = True
    assert keys.may_have(2, "a") and not keys.may_have(3, "a") and not keys.may_have(2, "b")


def test_keys_beyond_the_room_of_a_filter_have_another_one() -> None:
    keys = KnownKeys(first_bits=2**10)
    for session, key in KEYS:
        keys.add(session, key)
    keys.is_whole = True
    assert [len(one._bits) for one in keys._filters] == [2**7, 2**9, 2**11, 2**13]
    assert all(keys.may_have(session, key) for session, key in KEYS)
    assert sum(keys.may_have(session + 7, key) for session, key in KEYS) < 0.03 * len(KEYS)


async def test_the_keys_of_the_store_are_read_page_by_page() -> None:
    kept = [KeptKey(float(number // 3), 2, f"{number:03}") for number in range(25)]
    pages = list[tuple[KeptKey | None, int]]()

    async def read_page(last: KeptKey | None, most: int) -> Sequence[KeptKey]:
        pages.append((last, most))
        return [one for one in kept if last is None or one > last][:most]

    keys = KnownKeys()
    await keys.read(read_page, 10)
    assert pages == [(None, 10), (kept[9], 10), (kept[19], 10), (kept[24], 10)]
    assert keys.is_whole and all(keys.may_have(2, one.key) for one in kept) and not keys.may_have(2, "025")


@pytest.fixture
def finds(monkeypatch: pytest.MonkeyPatch) -> list[str]:
    """The keys that the store was asked for."""
    found: list[str] = []

    def noting(kind: type[Term]) -> None:
        find = kind.find

        async def note(term: Term, session: int, key: str) -> object:
            found.append(key)
            return await find(term, session, key)

        monkeypatch.setattr(kind, "find", note)

    from job_host.service.keepers.embedded_term import EmbeddedTerm
    from job_host.service.keepers.postgres_term import PostgresTerm

    noting(EmbeddedTerm)
    noting(PostgresTerm)
    return found


async def until_known(instance: object) -> Term:
    from instances import until

    async def is_whole() -> bool:
        term = instance.service.keeper.term  # type: ignore[attr-defined]
        return term is not None and term.keys.is_whole

    await until(is_whole)
    term: Term = instance.service.keeper.term  # type: ignore[attr-defined]
    return term


async def test_the_store_is_asked_for_a_key_that_was_used_alone(either: Make, finds: list[str]) -> None:
    async with running(either()) as instance:
        await until_known(instance)
        caller = Caller(instance.url)
        await caller.start("short", key="a")
        await caller.start("short", key="b")
        assert finds == []
        assert (await caller.start("short", key="a")).told["executionId"] == 1
        assert (await caller.start("short", key="a", date="1")).name == "RequestKeyReused"
        assert finds == ["a", "a"]
    async with running(either()) as instance:
        await until_known(instance)
        finds.clear()
        caller = Caller(instance.url)
        assert (await caller.start("short", key="b")).told["executionId"] == 2
        assert (await caller.start("short", key="c")).told["executionId"] == 3
        assert finds == ["b"]
        assert (await Caller(instance.url, "other").start("short", key="b")).told["executionId"] == 4


async def test_more_keys_than_a_page_are_read_of_the_store(either: Make, finds: list[str]) -> None:
    async with running(either()) as instance:
        caller = Caller(instance.url)
        for number in range(12):
            await caller.start("short", key=f"k{number}")
        term = await until_known(instance)
        last, read = None, list[str]()
        while page := await term.keys_behind(last, 5):
            assert len(page) <= 5
            read += [one.key for one in page]
            last = page[-1]
        assert sorted(read) == sorted(f"k{number}" for number in range(12))
