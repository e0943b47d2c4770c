"""The chain over the operations of a log: what is changed, dropped, moved, doubled or added is named, and nothing else."""

from __future__ import annotations

import asyncio
import shutil
from collections.abc import Callable
from pathlib import Path
from typing import Any

import pytest
from based import compact
from chained import Operations, Plant, accepts, forge, make_chained
from conftest import Say
from instances import Caller, running
from job_versions import job_file, write_jobs
from kept import engine_of, make_some, until_epoch

from job_host.commands.command_line import main
from job_host.service.history import chain as chains
from job_host.service.history import log_file
from job_host.service.history.chain import CHAIN_NAME, NO_BASE, ZERO, KeptChain, Start, link, read_chain, written
from job_host.service.history.chain_compared import compare
from job_host.service.keepers.chaining import Chaining
from job_host.service.keepers.embedded import LOG_NAME
from job_host.service.keepers.keeper import Fatal
from job_host.service.problems import Problem, unavailable
from job_host.service.settings import ServeSettings

Make = Callable[..., ServeSettings]

COUNT = 2_000


@pytest.fixture(scope="module")
def made(tmp_path_factory: pytest.TempPathFactory, has_log: None) -> Path:
    return make_chained(tmp_path_factory.mktemp("chained") / "made", COUNT)


@pytest.fixture
def log(made: Path, tmp_path: Path) -> Path:
    """A copy of a log of 2,000 operations with its chain."""
    shutil.copytree(made.parent, tmp_path / "data")
    return tmp_path / "data" / LOG_NAME


def verified(log: Path, capsys: pytest.CaptureFixture[str], *words: str) -> tuple[int, list[str]]:
    """The exit status of `jobhost verify`, and what it wrote."""
    capsys.readouterr()
    status = main(["verify", str(log.parent), *words])
    told = capsys.readouterr()
    return status, (told.out + told.err).splitlines()


def head_of(log: Path) -> str:
    kept = read_chain(log.with_name(CHAIN_NAME))
    assert kept is not None
    hash = kept.hash_at(kept.last)
    assert hash is not None
    return f"{kept.last}:{hash.hex()}"


def test_a_log_as_its_chain_has_it_is_told_so(log: Path, capsys: pytest.CaptureFixture[str]) -> None:
    head = head_of(log)
    before = {path.name: path.read_bytes() for path in log.parent.iterdir()}
    told = [f"{COUNT} operations up to {COUNT} are as the chain has them: the head is {head}"]
    assert verified(log, capsys) == verified(log, capsys, "--head", head) == (0, told)
    kept = read_chain(log.with_name(CHAIN_NAME))
    assert kept is not None
    for number in (0, 1, 700):
        assert verified(log, capsys, "--head", f"{number}:{(kept.hash_at(number) or b'').hex()}") == (0, told)
    assert {path.name: path.read_bytes() for path in log.parent.iterdir()} == before


def replaced(number: int, old: bytes, new: bytes) -> Plant:
    def plant(operations: Operations) -> None:
        assert old in operations[number - 1]
        operations[number - 1] = operations[number - 1].replace(old, new)

    return plant


def dropped(first: int, last: int) -> Plant:
    def plant(operations: Operations) -> None:
        del operations[first - 1 : last]

    return plant


def moved(number: int, place: int) -> Plant:
    return lambda operations: operations.insert(place - 1, operations.pop(number - 1))


def doubled(number: int, place: int) -> Plant:
    return lambda operations: operations.insert(place - 1, operations[number - 1])


def added(place: int) -> Plant:
    return lambda operations: operations.insert(place - 1, operations[place - 1].replace(b'"data":"', b'"data":"9'))


def both(one: Plant, other: Plant) -> Plant:
    def plant(operations: Operations) -> None:
        one(operations)
        other(operations)

    return plant


# What somebody did who mends all that batchctl checks, and what is told of it.
PLANTS: dict[str, tuple[Plant, str]] = {
    "another client": (replaced(700, b"farm/one", b"farm/two"), "operation 700 was changed"),
    "another token": (replaced(1, b"ops/anna", b"dev/anna"), "operation 1 was changed"),
    "another address": (replaced(1_500, b"=10.0.0.2", b"=10.0.0.3"), "operation 1500 was changed"),
    "no tag": (replaced(700, b"farm/one =10.0.0.2\t", b""), "operation 700 was changed"),
    "another moment": (replaced(700, b'"at":700,', b'"at":701,'), "operation 700 was changed"),
    "other data": (replaced(COUNT, b'"data":"2000"', b'"data":"2001"'), f"operation {COUNT} was changed"),
    "two changes": (
        both(replaced(700, b"farm/one", b"farm/two"), replaced(1_500, b"farm/one", b"farm/two")),
        "operation 700 was changed",
    ),
    "one dropped": (dropped(700, 700), "operation 700 was dropped"),
    "the third dropped": (dropped(3, 3), "operation 3 was dropped"),
    "some dropped": (dropped(700, 720), "operations 700 to 720 were dropped"),
    "the last dropped": (dropped(COUNT, COUNT), f"operation {COUNT} was dropped: the log ends before"),
    "the end dropped": (dropped(1_990, COUNT), f"operations 1990 to {COUNT} were dropped: the log ends before"),
    "moved behind": (moved(700, 900), "operation 700 was moved: it stands at place 900"),
    "moved ahead": (moved(900, 700), "operation 900 was moved: it stands at place 700"),
    "moved by one": (moved(700, 701), "operation 700 was moved: it stands at place 701"),
    "moved to the end": (moved(3, COUNT), f"operation 3 was moved: it stands at place {COUNT}"),
    "doubled at once": (doubled(700, 701), "operation 700 was doubled: it stands at place 701, too"),
    "doubled behind": (doubled(700, 900), "operation 700 was doubled: it stands at place 900, too"),
    "doubled ahead": (doubled(900, 700), "operation 900 was doubled: it stands at place 700, too"),
    "added": (added(700), "an operation was added at place 700, before operation 700"),
    "added at the end": (doubled(700, COUNT + 1), f"operation {COUNT + 1} stands behind the end of the chain"),
}


@pytest.mark.parametrize("name", PLANTS)
def test_what_batchctl_accepts_the_chain_names(
    log: Path, capsys: pytest.CaptureFixture[str], monkeypatch: pytest.MonkeyPatch, name: str
) -> None:
    monkeypatch.setattr("job_host.service.history.verified.CHAINED_SECONDS", 0.0)
    plant, told = PLANTS[name]
    forge(log, plant)
    assert accepts(log)
    assert verified(log, capsys) == (1, [told])


def test_a_log_that_is_forged_without_a_plant_is_the_same(log: Path) -> None:
    """So each plant above is refused for its own sake."""
    before = log.read_bytes()
    forge(log, lambda operations: None)
    assert log.read_bytes()[:-3] == before[:-3]


def test_what_batchctl_refuses_is_told_with_its_operation(log: Path, capsys: pytest.CaptureFixture[str]) -> None:
    data = log.read_bytes()
    log.write_bytes(data.replace(b'"data":"700"', b'"data":"701"'))
    status, told = verified(log, capsys)
    assert status == 1 and told[0] == "operation 700 was changed"
    assert told[1].startswith("batchctl refuses the log at operation 700: ") and '"fault":"LogDamaged"' in told[1]
    log.write_bytes(data)
    forge(log, lambda operations: operations.__setitem__(699, b"00000000" + operations[699][8:]))
    status, told = verified(log, capsys)
    assert status == 1 and told[0] == "operation 700 was changed"
    assert told[1].startswith("batchctl refuses the log at operation 700: ") and '"fault":"LogOtherReply"' in told[1]


def test_who_makes_the_chain_anew_is_found_by_a_head_that_was_kept_elsewhere(
    log: Path, capsys: pytest.CaptureFixture[str]
) -> None:
    head, early = head_of(log), head_of(log)
    kept = read_chain(log.with_name(CHAIN_NAME))
    assert kept is not None
    early = f"600:{(kept.hash_at(600) or b'').hex()}"
    forge(log, replaced(700, b"farm/one", b"farm/two"))
    log.with_name(CHAIN_NAME).unlink()
    Chaining(log).begin()
    assert verified(log, capsys)[0] == 0
    told = f"operation {COUNT} has another hash than the head: one up to it was changed, with the chain"
    assert verified(log, capsys, "--head", head) == (1, [told])
    assert verified(log, capsys, "--head", early)[0] == 0
    forge(log, dropped(1_990, COUNT))
    log.with_name(CHAIN_NAME).unlink()
    Chaining(log).begin()
    told = f"operations 1990 to {COUNT} were dropped: the log and its chain end before the head"
    assert verified(log, capsys, "--head", head) == (1, [told])


def test_what_cannot_be_told_is_said(log: Path, capsys: pytest.CaptureFixture[str], monkeypatch: pytest.MonkeyPatch) -> None:
    monkeypatch.setattr("job_host.service.history.verified.CHAINED_SECONDS", 0.0)
    chain = log.with_name(CHAIN_NAME)
    data = chain.read_bytes()
    chain.write_bytes(data[: -1_000 * chains.LINE_BYTES - 7])
    assert verified(log, capsys) == (1, ["operations 1000 to 2000 stand behind the end of the chain"])
    chain.write_bytes(b"jobhost-chain 2" + data[15:])
    assert verified(log, capsys) == (3, [f"jobhost verify: {chain} doesn't begin as a chain of this version does"])
    chain.unlink()
    told = f"jobhost verify: {chain} isn't there: no chain was kept (--chain of `jobhost serve`)"
    assert verified(log, capsys) == (3, [told])
    chain.write_bytes(data)
    status, lines = verified(log, capsys, "--batchctl", "/nowhere")
    assert status == 3 and lines[0].startswith("jobhost verify: there is no program /nowhere: ")
    log.unlink()
    status, lines = verified(log, capsys)
    assert status == 3 and "No such file" in lines[0]


@pytest.mark.parametrize("head", ["", "1", "1:abc", f"-1:{'0' * 64}", f"1:{'0' * 63}g", f"1:{'0' * 64} "])
def test_a_head_that_is_none_is_refused(head: str, capsys: pytest.CaptureFixture[str]) -> None:
    with pytest.raises(SystemExit) as raised:
        main(["verify", "folder", f"--head={head}"])
    assert raised.value.code == 2 and "is no head, NUMBER:HASH" in capsys.readouterr().err


def test_the_hash_is_that_of_the_page() -> None:
    """SHA-256 of the hash before, and of what the record has from the reply's check on. docs/SERVICE.md says so."""
    one = link(ZERO, b'68bf72dc {"do":"start"}')
    assert one.hex() == "a21d5bbbc50902e5a8d1d58e5eb4060270d9b528b6f2ad4162e1a539f5f505b6"
    based = Start(5, one, "ab" * 32)
    assert based.begun == link(one, b" base " + b"ab" * 32) and Start(5, one).begun == one
    assert based.line() == b"jobhost-chain 1 5 %b %b\n" % (one.hex().encode(), b"ab" * 32)
    assert Start(0, ZERO).line() == b"jobhost-chain 1 0 %b %b\n" % (b"0" * 64, NO_BASE.encode())
    assert KeptChain(based, written(one)).line_at(6) == written(one) and KeptChain(based, b"").line_at(6) is None


def begun(log: Path) -> str:
    """Why a service doesn't begin over a log and its chain."""
    with pytest.raises(Fatal) as raised:
        Chaining(log).begin()
    return str(raised.value)


def test_a_service_does_not_go_on_over_a_log_that_is_not_its_chains(log: Path) -> None:
    chain, data = log.with_name(CHAIN_NAME), log.read_bytes()
    more = f"`jobhost verify {log.parent}` tells it, too"
    forge(log, replaced(700, b"farm/one", b"farm/two"))
    before = chain.read_bytes()
    assert begun(log) == f"{log} isn't as {chain} has it: operation 700 was changed: {more}"
    log.write_bytes(data)
    forge(log, dropped(1_000, COUNT))
    assert begun(log) == f"{log} isn't as {chain} has it: operations 1000 to {COUNT} were dropped: the log ends before: {more}"
    assert chain.read_bytes() == before
    chain.write_bytes(b"no chain\n")
    assert begun(log) == f"{chain} doesn't begin as a chain of this version does"


@pytest.mark.parametrize("lost", [1, 64, 65, 66, 1_000, 65 * COUNT])
def test_what_a_crash_left_out_of_the_chain_is_read_out_of_the_log(log: Path, lost: int) -> None:
    chain = log.with_name(CHAIN_NAME)
    data = chain.read_bytes()
    chain.write_bytes(data[:-lost])
    Chaining(log).begin()
    assert chain.read_bytes() == data


async def ask_head(caller: Caller) -> Any:
    answer = await caller.ask("GET", "/batch/audit/head")
    assert answer.status == 200, answer.told
    return answer.told


async def test_a_service_chains_what_it_keeps(
    embedded: Make, say: Say, capsys: pytest.CaptureFixture[str], monkeypatch: pytest.MonkeyPatch
) -> None:
    """While it runs and after it, also if batchctl is begun again, and after a start."""
    made = embedded(chain=True)
    log = made.data / LOG_NAME
    async with running(made) as instance:
        caller = Caller(instance.url, "one")
        assert await ask_head(caller) == {"operation": 0, "hash": "0" * 64, "begins": 0, "head": f"0:{'0' * 64}"}
        await make_some(instance.url)
        first = await ask_head(caller)
        assert (first["operation"], first["begins"]) == (10, 0) and first["head"] == head_of(log)
        assert await say(instance.url, "audit", "--head") == (0, first["head"] + "\n")
        assert (await asyncio.to_thread(verified, log, capsys, "--head", first["head"]))[0] == 0
        engine_of(instance).process.kill()
        await until_epoch(instance, 2)
        assert await ask_head(caller) == first
        await caller.start("short")
        second = await ask_head(caller)
        assert second["operation"] == 11
    async with running(made) as instance:
        assert await ask_head(Caller(instance.url)) == second
    for head in (first["head"], second["head"]):
        assert (await asyncio.to_thread(verified, log, capsys, "--head", head))[0] == 0
    assert log.with_name(CHAIN_NAME).stat().st_mode & 0o777 == 0o600


async def test_a_service_without_a_chain_says_so(embedded: Make, capsys: pytest.CaptureFixture[str]) -> None:
    async with running(embedded()) as instance:
        answer = await Caller(instance.url).ask("GET", "/batch/audit/head")
        told = "the operations aren't chained here: --chain of `jobhost serve` does that over a log"
        assert (answer.status, answer.name, answer.told["detail"]) == (404, "NoChain", told)
        assert not (embedded().data / CHAIN_NAME).exists()
    assert main(["serve", "--catalogue", "none", "--postgres", "dsn", "--chain"]) == 2
    assert "jobhost serve: --chain is for a log, and not for --postgres" in capsys.readouterr().err


async def test_a_chain_that_is_begun_late_covers_all_that_the_log_has(
    embedded: Make, capsys: pytest.CaptureFixture[str]
) -> None:
    made = embedded()
    async with running(made) as instance:
        await make_some(instance.url)
    async with running(embedded(chain=True)) as instance:
        assert (await ask_head(Caller(instance.url)))["operation"] == 10
    assert (await asyncio.to_thread(verified, made.data / LOG_NAME, capsys))[0] == 0


async def test_a_disk_that_fails_keeps_no_reply_from_being_chained(embedded: Make, monkeypatch: pytest.MonkeyPatch) -> None:
    made = embedded(chain=True)
    async with running(made) as instance:
        caller = Caller(instance.url, "one")
        append, fails = Chaining._append, [True]

        def fail(chaining: Chaining, lines: bytes) -> None:
            if lines and fails.pop():
                chaining._path.open("ab").write(lines[:30])
                fails.append(False)
                raise unavailable("StoreLost", "OSError: no space")
            fails.append(False)
            append(chaining, lines)

        monkeypatch.setattr(Chaining, "_append", fail)
        answer = await caller.start("short", key="a")
        assert (answer.status, answer.name) == (503, "StoreLost")
        await until_epoch(instance, 2)
        again = await caller.start("short", key="a")
        assert (again.told["executionId"], again.operations) == (1, 1)
        assert (await ask_head(caller))["operation"] == 1
    assert compare(made.data / LOG_NAME, kept_of(made)).told == ""


def kept_of(made: ServeSettings) -> KeptChain:
    kept = read_chain(made.data / CHAIN_NAME)
    assert kept is not None
    return kept


async def test_the_chain_goes_on_behind_a_base(compacting: Make, capsys: pytest.CaptureFixture[str]) -> None:
    """It covers the base's rows. A head from before is of no use, but for the one at the base."""
    made = compacting(chain=True)
    log, words = made.data / LOG_NAME, ("--batchctl", made.batchctl[0])
    async with running(made) as instance:
        caller = Caller(instance.url, "one")
        await caller.start("short")
        early = (await ask_head(caller))["head"]
        await make_some(instance.url)
        at_base = await ask_head(caller)
        await compact(instance)
        assert await ask_head(caller) == {**at_base, "begins": 11}
        await caller.start("wide")
        await caller.change(3, "stop")
        last = await ask_head(caller)
        assert (last["operation"], last["begins"]) == (13, 11)
    told = [
        f"2 operations up to 13 are as the chain has them: the head is {last['head']}",
        "the base behind operation 11 has the rows with which the chain goes on",
    ]
    for head in (at_base["head"], last["head"]):
        assert await asyncio.to_thread(verified, log, capsys, *words, "--head", head) == (0, told)
    status, lines = await asyncio.to_thread(verified, log, capsys, *words, "--head", early)
    assert (status, lines) == (
        3,
        [
            "jobhost verify: the head is of operation 1, and the log begins behind operation 11: "
            "a log from before that compaction is needed"
        ],
    )
    async with running(made) as instance:
        assert await ask_head(Caller(instance.url)) == last
        await compact(instance)
        assert await ask_head(Caller(instance.url)) == {**last, "begins": 13}


async def test_a_base_whose_rows_were_changed_is_found(compacting: Make, capsys: pytest.CaptureFixture[str]) -> None:
    made = compacting(chain=True)
    log, words = made.data / LOG_NAME, ("--batchctl", made.batchctl[0])
    async with running(made) as instance:
        await make_some(instance.url)
        await compact(instance)
        await Caller(instance.url).start("wide")
        head = (await ask_head(Caller(instance.url)))["head"]
    data = log.read_bytes()
    assert data.count(b'"date":"day-wide"') == 1
    log.write_bytes(data.replace(b'"date":"day-wide"', b'"date":"day-late"'))
    forge(log, lambda operations: None)
    status, lines = await asyncio.to_thread(verified, log, capsys, *words)
    assert (status, lines[0]) == (
        1,
        "the log has a base behind operation 10, and the chain begins behind operation 10, with other rows, or ends before",
    )
    assert f"{log} isn't as {made.data / CHAIN_NAME} has it: the log has a base behind operation 10" in begun(log)
    start = kept_of(made).start
    rows = log_file.known_base(log)
    assert rows is not None
    made.data.joinpath(CHAIN_NAME).write_bytes(start._replace(digest=rows.digest).line())
    Chaining(log).begin()
    assert (await asyncio.to_thread(verified, log, capsys, *words))[0] == 0
    told = "operation 11 has another hash than the head: one up to it was changed, with the chain"
    assert await asyncio.to_thread(verified, log, capsys, *words, "--head", head) == (1, [told])


async def test_a_crash_between_the_base_and_its_chain_loses_nothing(
    compacting: Make, capsys: pytest.CaptureFixture[str]
) -> None:
    made = compacting(chain=True)
    log, chain = made.data / LOG_NAME, made.data / CHAIN_NAME
    async with running(made) as instance:
        await make_some(instance.url)
        head, before = await ask_head(Caller(instance.url)), chain.read_bytes()
        await compact(instance)
    after = chain.read_bytes()
    chain.write_bytes(before)
    status, lines = await asyncio.to_thread(verified, log, capsys, "--batchctl", made.batchctl[0])
    assert (status, lines[1]) == (0, "the base behind operation 10 has rows that the chain doesn't cover yet")
    async with running(made) as instance:
        assert await ask_head(Caller(instance.url)) == {**head, "begins": 10}
    assert chain.read_bytes() == after
    chain.write_bytes(before[:-65])
    assert "and the chain begins behind operation 0, with other rows, or ends before" in begun(log)


async def test_the_chain_goes_on_as_jobs_come(embedded: Make, tmp_path: Path, capsys: pytest.CaptureFixture[str]) -> None:
    """Another batchctl makes the file anew then, and a catalogue stands between the operations."""
    folder = write_jobs(tmp_path / "jobs", nightly="one")
    made = embedded(chain=True, catalogue=folder, is_folder=True)
    async with running(made) as instance:
        caller = Caller(instance.url, "one")
        for number, which in enumerate(("two", "three"), 1):
            assert (await caller.start("nightly")).operations == 2 * number - 1
            assert (await caller.apply("nightly", job_file(which))).told["changed"]
            assert (await caller.start("nightly")).operations == 2 * number
        head = (await ask_head(caller))["head"]
    assert (await asyncio.to_thread(verified, made.data / LOG_NAME, capsys, "--head", head))[0] == 0
    assert head.startswith("4:")


def test_a_log_that_lacks_what_was_answered_is_noticed(log: Path) -> None:
    chaining = Chaining(log)
    chaining.begin()
    with pytest.raises(Problem, match="ends at operation 2000, and 2001 was answered"):
        chaining.follow(COUNT + 1)
    assert chaining.head is None
