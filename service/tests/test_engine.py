"""An engine over a co-process that isn't there: its replies are handed in."""

from __future__ import annotations

import asyncio

import pytest

from job_host.service.history.coprocess import CoProcess
from job_host.service.history.engine import STATE, Engine, Record, ReplayDiffers

START = b'{"do":"start","by":3,"at":%d,"job":"short"}'
CLAIM = b'{"do":"claim","by":4,"at":30}'
CLAIMED = b'{"work":{"element":"only","execution":1,"kind":"batchlet","ref":"only","work":1}}'
KEPT = [
    Record(1, START % 10, b'{"execution":1}'),
    Record(2, START % 20, b'{"execution":2}'),
    Record(3, CLAIM, CLAIMED),
]


async def test_a_query_behind_a_replay_has_seen_all_of_it() -> None:
    """All replies come at once, and so before the replay's caller goes on."""
    engine = Engine(CoProcess())
    before = engine.ask(STATE)
    replaying = asyncio.ensure_future(engine.replay(KEPT))
    await asyncio.sleep(0)
    behind = engine.ask(STATE)
    told = [b'{"counts":{}}', b'{"names":[]}', *(record.reply for record in KEPT), b'{"counts":{}}', b'{"names":[]}']
    engine.process.pipe_data_received(1, b"\n".join(told) + b"\n")
    assert [(await one).seen for one in (before, behind)] == [0, 3]
    await replaying
    assert (engine.entered, engine.last_moment, engine.last_session, engine.executions.last) == (3, 30, 4, 2)
    assert (list(engine.held), list(engine.recent), engine.is_whole) == ([1], KEPT[-1:], True)


@pytest.mark.parametrize("kept", [KEPT[1]._replace(reply=b'{"execution":9}'), KEPT[1]._replace(number=3)])
async def test_a_reply_or_a_number_that_differs(kept: Record) -> None:
    engine = Engine(CoProcess())
    replaying = asyncio.ensure_future(engine.replay([KEPT[0], kept, KEPT[2]]))
    await asyncio.sleep(0)
    engine.process.pipe_data_received(1, b"".join(record.reply + b"\n" for record in KEPT))
    with pytest.raises(ReplayDiffers, match=f"operation {kept.number}, "):
        await replaying
    assert (engine.entered, engine.is_whole) == (0, False)


async def test_what_is_kept_leaves_recent_but_for_the_last() -> None:
    engine = Engine(CoProcess())
    for record in KEPT:
        engine.command(record.line, lambda reply, number, seen: None)
    engine.process.pipe_data_received(1, b"".join(record.reply + b"\n" for record in KEPT))
    left = []
    for number in range(4):
        engine.note_kept(number)
        left.append([record.number for record in engine.recent])
    assert left == [[1, 2, 3], [1, 2, 3], [2, 3], [3]]
