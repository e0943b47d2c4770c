"""HTTP: the paths and words of Open Liberty, problem documents, bounds, tokens, long polls, leases and metrics."""

from __future__ import annotations

import asyncio
import json
import ssl
import subprocess
import time
from collections.abc import Callable
from pathlib import Path
from typing import Any, cast

import aiohttp
import pytest
from instances import Caller, Instance, running, until

from job_host.service.http.access import Access, SettingsRefused
from job_host.service.settings import Bounds, HistoryBounds, ServeSettings
from job_host.service.terms.term import Term

Make = Callable[..., ServeSettings]
READER, OPERATOR, WORKER = ("r" * 20, "o" * 20, "w" * 20)


async def test_a_night_in_the_words_of_open_liberty(settings: Make) -> None:
    async with running(settings()) as instance:
        caller = Caller(instance.url)
        begun = await caller.ask("POST", "/batch/jobinstances", {"jobXMLName": "nightly", "jobParameters": {"date": "today"}})
        assert begun.told["jobName"] == "nightly" and begun.told["instanceId"] == 1 and begun.told["executionId"] == 1
        claimed = (await caller.claim()).told
        assert claimed["work"] == {"element": "load", "execution": 1, "kind": "batchlet", "ref": "load", "work": 1}
        assert (claimed["jobName"], claimed["instanceId"], claimed["jobParameters"]) == ("nightly", 1, {"date": "today"})
        await caller.finish(1, "FAILED", exit="DISK FULL", metrics={"ROLLBACK_COUNT": 1}, log="no space left")
        execution = (await caller.ask("GET", "/batch/jobexecutions/1")).told
        assert (execution["batchStatus"], execution["exitStatus"]) == ("FAILED", "FAILED")
        assert execution["jobParameters"] == {"date": "today"}
        step = (await caller.ask("GET", "/batch/jobexecutions/1/stepexecutions")).told
        assert step == execution["stepExecutions"]
        assert (step[0]["stepName"], step[0]["exitStatus"], step[0]["metrics"]) == ("load", "DISK FULL", {"ROLLBACK_COUNT": 1})
        text = await caller.ask("GET", "/batch/jobexecutions/1/joblogs?type=text")
        assert text.told == "# work item 1, load\nno space left\n"
        again = (await caller.ask("PUT", "/batch/jobinstances/1?action=restart", {"jobParameters": {"date": "again"}})).told
        assert (again["executionId"], again["instanceId"]) == (2, 1)
        executions = (await caller.ask("GET", "/batch/jobinstances/1/jobexecutions")).told
        assert [(one["executionId"], one["jobParameters"]["date"]) for one in executions] == [(2, "again"), (1, "today")]
        assert (await caller.change(2, "stop")).status == 200
        assert (await caller.ask("GET", "/batch/jobinstances/1")).told["batchStatus"] == "STOPPED"
        assert (await caller.change(2, "abandon")).status == 200
        assert (await caller.change(2, "restart")).name == "JobRestartException"
        assert (await caller.ask("DELETE", "/batch/jobinstances/1")).told == {"instance": 1, "purged": True}
        assert (await caller.ask("GET", "/batch/jobinstances/1")).name == "NoSuchJobInstanceException"


async def test_job_instances_page_by_page(settings: Make) -> None:
    async with running(settings()) as instance:
        caller = Caller(instance.url)
        for job in ("nightly", "short", "short", "nightly", "short"):
            await caller.start(job)

        async def numbers(path: str) -> list[int]:
            return [one["instanceId"] for one in (await caller.ask("GET", "/batch/jobinstances" + path)).told]

        assert await numbers("") == [5, 4, 3, 2, 1]
        assert await numbers("?page=1&pageSize=2") == [3, 2]
        assert await numbers("?page=0&pageSize=2&jobName=short") == [5, 3]
        assert await numbers("?page=1&pageSize=2&jobName=short") == [2]
        assert (await caller.ask("GET", "/batch/jobinstances?jobName=none")).name == "NoSuchJobException"
        assert (await caller.ask("GET", "/batch/jobinstances?pageSize=100000")).status == 400
        assert (await caller.ask("GET", "/batch/jobs")).told == {
            "jobNames": ["nightly", "short"],
            "statusCounts": {"STARTING": 5},
        }


async def test_a_key_gives_the_first_reply_again(settings: Make) -> None:
    async with running(settings()) as instance:
        one, other = Caller(instance.url, "one"), Caller(instance.url, "other")
        answers = await asyncio.gather(*(one.start(key="a") for _ in range(10)))
        assert {answer.told["executionId"] for answer in answers} == {1}
        assert (await one.start("short", key="a")).name == "RequestKeyReused"
        assert (await other.start(key="a")).told["executionId"] == 2
        assert (await one.change(1, "restart", key="b")).name == "JobRestartException"
        await one.change(1, "stop")
        assert (await one.change(1, "restart", key="b")).name == "JobRestartException"
        assert (await one.change(1, "restart", key="c")).told["executionId"] == 3
        assert (await one.claim(key="d")).told == (await one.claim(key="d")).told
        assert instance.service.keeper.operations == 5


async def test_a_claim_waits_for_work(settings: Make) -> None:
    async with running(settings()) as instance:
        workers = [Caller(instance.url, f"worker-{number}") for number in range(3)]
        claims = [asyncio.create_task(worker.claim(wait=20)) for worker in workers]
        await asyncio.sleep(0.3)
        assert not any(claim.done() for claim in claims)
        await workers[0].start("wide")
        answers = [await claim for claim in claims]
        assert sorted(answer.told["work"]["partition"] for answer in answers) == [0, 1, 2]
        begun = time.monotonic()
        assert (await Caller(instance.url, "short").claim(wait=0)).told["work"]["partition"] == 3
        assert time.monotonic() - begun < 5


async def test_a_claim_without_work_is_answered_nothing_in_the_end(settings: Make) -> None:
    async with running(settings()) as instance:
        begun = time.monotonic()
        assert (await Caller(instance.url).claim(wait=0.5)).told == {"nothing": True}
        assert time.monotonic() - begun >= 0.5


async def test_a_client_that_is_gone_is_given_no_work(settings: Make) -> None:
    async with running(settings()) as instance:
        with pytest.raises(asyncio.TimeoutError):
            await asyncio.wait_for(Caller(instance.url, "gone").claim(wait=20), 0.5)
        caller = Caller(instance.url, "here")
        await caller.start()
        assert (await caller.claim(wait=5)).told["work"]["work"] == 1
        held = (await caller.ask("GET", "/batch/work")).told
        assert [(one["work"], one["client"], one["stepName"]) for one in held] == [(1, "here", "load")]


async def test_a_claim_that_is_withdrawn_is_never_made(settings: Make) -> None:
    async with running(settings()) as instance:
        caller = Caller(instance.url)
        waiting = asyncio.create_task(caller.claim(wait=20, key="a"))
        await instance.until_claims_wait(1)
        assert (await caller.withdraw("a")).told == {"withdrawn": True}
        assert ((await waiting).status, (await waiting).name) == (409, "ClaimWithdrawn")
        await caller.start("short")
        for late in (await caller.claim(wait=20, key="a"), await caller.claim(key="a")):
            assert late.name == "ClaimWithdrawn"
        again = await caller.withdraw("a")
        assert (again.told, again.operations) == ({"withdrawn": True}, 1)
        assert (await caller.ask("GET", "/batch/work")).told == []
        assert (await caller.claim(wait=20, key="b")).told["work"]["work"] == 1


async def test_a_claim_that_is_withdrawn_while_it_is_made_comes_to_one_of_both(settings: Make) -> None:
    async with running(settings()) as instance:
        caller, term = Caller(instance.url), cast(Term, instance.service.keeper.term)
        await caller.start("short")

        async def is_first() -> bool:
            return ("tester", "a") in term._under_way and term.desk.waiting == 0

        async def is_known() -> bool:
            return ("tester", "a") in term.desk._withdrawn

        async with term.engine.turn:
            claiming = asyncio.create_task(caller.claim(wait=20, key="a"))
            await until(is_first)
            withdrawing = asyncio.create_task(caller.withdraw("a"))
            await until(is_known)
        assert ((await withdrawing).told, (await claiming).name) == ({"withdrawn": True}, "ClaimWithdrawn")
        assert instance.service.keeper.operations == 1


async def test_a_claim_that_was_made_is_told_to_those_who_withdraw_it(settings: Make) -> None:
    async with running(settings()) as instance:
        caller = Caller(instance.url)
        await caller.start("wide", key="s")
        claimed = await caller.claim(wait=20, key="a")
        withdrawn = await caller.withdraw("a")
        assert (withdrawn.told, withdrawn.operations) == (claimed.told, claimed.operations)
        assert claimed.told["work"]["work"] == 1 and claimed.told["lease"] == 10.0
        assert (await Caller(instance.url, "other").withdraw("a")).told == {"withdrawn": True}
        assert (await caller.withdraw("s")).name == "RequestKeyReused"
        assert (await caller.ask("DELETE", "/batch/work")).name == "BadRequest"
        assert instance.service.keeper.operations == 2


async def test_a_lease_that_runs_out_loses_the_work_item(settings: Make) -> None:
    async with running(settings(lease=0.6)) as instance:
        caller = Caller(instance.url)
        await caller.start("short")
        await caller.claim()
        for _ in range(6):
            await asyncio.sleep(0.25)
            assert (await caller.ask("PUT", "/batch/work/1?action=heartbeat")).told["stop"] is False
        assert await caller.status(1) == "STARTED"
        await asyncio.sleep(1.5)
        assert await caller.status(1) == "FAILED"
        assert (await caller.finish(1)).name == "WorkNotRunning"
        assert (await caller.ask("PUT", "/batch/work/1?action=heartbeat")).name == "NoLease"


async def test_a_heartbeat_tells_of_a_stop_and_keeps_the_log(settings: Make) -> None:
    async with running(settings()) as instance:
        caller = Caller(instance.url)
        await caller.start("short")
        await caller.claim()
        await caller.change(1, "stop")
        beat = await caller.ask("PUT", "/batch/work/1?action=heartbeat", {"log": "half done\ud800\0"})
        assert beat.told["stop"] is True
        other = Caller(instance.url, "other")
        assert (await other.ask("PUT", "/batch/work/1?action=heartbeat")).name == "NoLease"
        logs = (await caller.ask("GET", "/batch/jobexecutions/1/joblogs")).told
        assert logs[0]["log"].startswith("half done")
        await caller.finish(1, "STOPPED", log="x" * 100_000)
        assert len((await caller.ask("GET", "/batch/jobexecutions/1/joblogs")).told[0]["log"]) == 65_536


async def test_a_history_that_fills_refuses_what_begins(settings: Make) -> None:
    async with running(settings(other_history=HistoryBounds(1_000_000, 2, 4))) as instance:
        caller = Caller(instance.url)
        assert "warning" not in (await caller.ask("GET", "/health/live")).told
        for _ in range(3):
            await caller.start("short")
        assert (await caller.ask("GET", "/health/live")).told["warning"] == "HistoryAlmostFull"
        await caller.claim()
        refused = await caller.start("short")
        assert (refused.status, refused.name) == (503, "HistoryAlmostFull")
        assert (await caller.finish(1, "FAILED")).status == 200
        assert (await caller.change(1, "restart")).name == "HistoryAlmostFull"
        assert (await caller.change(2, "stop")).status == 200


async def test_what_a_client_sends_has_bounds(settings: Make) -> None:
    bounds = Bounds(requests_at_once=3, slow_after=1.0)
    async with running(settings(bounds=bounds)) as instance:
        caller = Caller(instance.url)
        large = await caller.ask("POST", "/batch/jobinstances", {"jobName": "x" * 1_100_000})
        assert (large.status, large.name) == (413, "RequestEntityTooLarge")
        assert (await caller.start("x" * 257)).name == "TextTooLong"
        assert (await Caller(instance.url, "x" * 129).start()).status == 400
        assert (await caller.start(key="x" * 129)).status == 400
        assert (await caller.ask("GET", "/batch/jobexecutions/99999999999999999999999")).status == 400
        claims = [asyncio.create_task(caller.claim(wait=2)) for _ in range(5)]
        answers = [await claim for claim in claims]
        assert sorted(answer.status for answer in answers) == [200, 200, 200, 429, 429]
        assert (await caller.start()).status == 201


async def test_a_slow_client_is_dropped(settings: Make) -> None:
    async with running(settings(bounds=Bounds(slow_after=0.5))) as instance:
        port = instance.service.port
        for text in (
            b"",
            b"GET /batch/jobs HT",
            b"POST /batch/jobinstances HTTP/1.1\r\nHost: localhost\r\nContent-Length: 9\r\n\r\n{",
        ):
            reader, writer = await asyncio.open_connection("127.0.0.1", port)
            writer.write(text)
            told = await asyncio.wait_for(read_to_end(reader), 5)
            assert told == b"" or b" 408 " in told
            writer.close()


async def read_to_end(reader: asyncio.StreamReader) -> bytes:
    try:
        return await reader.read()
    except ConnectionError:
        return b""


async def test_bodies_are_objects_of_json(settings: Make) -> None:
    async with running(settings()) as instance:
        async with aiohttp.ClientSession() as session:

            async def post(data: bytes, kind: str = "application/json") -> int:
                url = instance.url + "/batch/jobinstances"
                async with session.post(url, data=data, headers={"Content-Type": kind}) as response:
                    assert response.content_type == "application/problem+json"
                    return response.status

            assert await post(b'{"jobName":"short"}', "text/plain") == 415
            bad = (b"{", b"[]", b"7", b"[" * 100_000, b'{"jobName":NaN}', b'{"jobName":' + b"9" * 5_000 + b"}", b"\xff")
            assert [await post(data) for data in bad] == [400] * len(bad)
            assert await post(b'{"jobName":"short","jobParameter":{}}') == 400
            assert await post(b'{"jobName":{"a":1}}') == 400
            assert await post(b'{"jobName":"\\ud800"}') == 400
            assert await post(b'{"jobName":"short","jobParameters":{"a":1}}') == 400
        assert instance.service.keeper.operations == 0


@pytest.fixture
def tokens(tmp_path: Path) -> Path:
    path = tmp_path / "tokens"
    path.write_text(f"# role name token\nreader desk {READER}\noperator ops {OPERATOR}\nworker farm {WORKER}\n")
    return path


async def test_a_token_allows_what_its_role_does(settings: Make, tokens: Path) -> None:
    async with running(settings(tokens=tokens), "leader") as instance:
        nobody, wrong = Caller(instance.url), Caller(instance.url, token="x" * 20)
        reader, operator, worker = [Caller(instance.url, token=token) for token in (READER, OPERATOR, WORKER)]
        for caller in (nobody, wrong):
            for path in ("/batch/jobs", "/metrics", "/health/live", "/nowhere"):
                answer = await caller.ask("GET", path)
                assert (answer.status, answer.told) == (401, "")
        assert [(await caller.start("short")).status for caller in (reader, worker, operator)] == [403, 403, 201]
        assert [(await caller.claim()).status for caller in (reader, operator, worker)] == [403, 403, 200]
        assert [(await caller.finish(1)).status for caller in (reader, operator, worker)] == [403, 403, 200]
        assert [(await caller.ask("GET", "/batch/jobs")).status for caller in (reader, operator, worker)] == [200] * 3
        assert (await reader.ask("DELETE", "/batch/jobinstances/1")).status == 403
        assert instance.service.keeper.operations == 3


async def test_a_token_speaks_for_its_own_clients_alone(settings: Make, tmp_path: Path) -> None:
    path = tmp_path / "tokens"
    path.write_text(f"worker one {WORKER}\nworker two {READER}\noperator ops {OPERATOR}\n")
    async with running(settings(tokens=path)) as instance:
        await Caller(instance.url, token=OPERATOR).start("short")
        await Caller(instance.url, "w", WORKER).claim()
        assert (await Caller(instance.url, "w", READER).finish(1)).name == "NotClaimer"
        held = (await Caller(instance.url, "w", READER).ask("GET", "/batch/work")).told
        assert held[0]["client"] == "one/w"


def test_elsewhere_than_on_loopback_tokens_and_tls_are_needed(settings: Make, tokens: Path, tmp_path: Path) -> None:
    given: list[dict[str, Any]] = [{}, {"tokens": tokens}, {"certificate": tmp_path, "certificate_key": tmp_path}]
    for more in given:
        with pytest.raises(SettingsRefused):
            Access(settings(host="0.0.0.0", **more))
    Access(settings(host="0.0.0.0", tokens=tokens, certificate=tmp_path, certificate_key=tmp_path))


@pytest.mark.parametrize("name", ["certificate", "certificate_key"])
def test_a_certificate_and_its_key_belong_together(settings: Make, tmp_path: Path, name: str) -> None:
    """On loopback, too: one of them alone would serve without TLS under an https URL."""
    with pytest.raises(SettingsRefused, match="belong together"):
        Access(settings(**{name: tmp_path}))


def test_a_token_file_with_a_mistake_is_refused(settings: Make, tmp_path: Path) -> None:
    path = tmp_path / "tokens"
    for text in ("", "# nothing\n", "reader a short\n", f"admin a {READER}\n", f"reader {READER}\n", f"reader a/b {READER}\n"):
        path.write_text(text)
        with pytest.raises(SettingsRefused):
            Access(settings(tokens=path))


async def test_tls_by_certificate_files(settings: Make, tokens: Path, tmp_path: Path) -> None:
    certificate, key = tmp_path / "certificate", tmp_path / "key"
    words = ["openssl", "req", "-x509", "-newkey", "rsa:2048", "-nodes", "-days", "2", "-subj", "/CN=localhost"]
    words += ["-addext", "subjectAltName=IP:127.0.0.1", "-keyout", str(key), "-out", str(certificate)]
    subprocess.run(words, check=True, capture_output=True)
    made = settings(tokens=tokens, certificate=certificate, certificate_key=key)
    async with running(made) as instance:
        url = f"https://127.0.0.1:{instance.service.port}/health/live"
        context = ssl.create_default_context(cafile=str(certificate))
        async with aiohttp.ClientSession(headers={"Authorization": f"Bearer {READER}"}) as session:
            async with session.get(url, ssl=context) as response:
                assert (response.status, (await response.json())["role"]) == (200, "leader")
            with pytest.raises(aiohttp.ClientConnectorCertificateError):
                await session.get(url)


async def test_a_page_of_a_browser_is_not_served(settings: Make) -> None:
    async with running(settings()) as instance:
        answer = await Caller(instance.url).ask("GET", "/batch/jobs", Host="evil.example")
        assert (answer.status, answer.name) == (421, "NotThisHost")


async def test_metrics_say_how_things_stand(settings: Make) -> None:
    async with running(settings()) as instance:
        caller = Caller(instance.url)
        await caller.start("short")
        await caller.start("short")
        await caller.claim()
        text = (await caller.ask("GET", "/metrics")).told
    lines = set(text.splitlines())
    wanted = ['jobhost_job_executions{status="STARTED"} 1.0', 'jobhost_job_executions{status="STARTING"} 1.0']
    wanted += [
        "jobhost_operations 3.0",
        f"jobhost_history_full_ratio {3 / 4_294_967_296}",
        "jobhost_leads 1.0",
        "jobhost_work_items_held 1.0",
    ]
    assert set(wanted) <= lines
    commits = [line for line in lines if line.startswith("jobhost_commit_seconds_count")]
    assert float(commits[0].split()[1]) >= 3


async def test_health_is_told(settings: Make) -> None:
    one = settings(advertise="http://one")
    async with running(one) as leader, running(settings(), "follower") as follower:

        async def statuses(instance: Instance) -> list[int]:
            paths = ("/health/live", "/health/ready", "/health/leader")
            return [(await Caller(instance.url).ask("GET", path)).status for path in paths]

        assert await statuses(leader) == [200, 200, 200]
        assert await statuses(follower) == [200, 200, 503]
        told = (await Caller(follower.url).ask("GET", "/health/live")).told
        assert (told["role"], told["leader"], json.dumps(told["operations"])) == ("follower", "http://one", "0")


async def test_paths_that_are_not_known(settings: Make) -> None:
    async with running(settings()) as instance:
        caller: Any = Caller(instance.url)
        answers = [await caller.ask(*words) for words in (("GET", "/x"), ("PATCH", "/batch/jobs"), ("GET", "/batch/work/1"))]
    assert [(answer.status, answer.name) for answer in answers] == [
        (404, "NotFound"),
        (405, "MethodNotAllowed"),
        (405, "MethodNotAllowed"),
    ]
