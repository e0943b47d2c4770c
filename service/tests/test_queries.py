"""Queries: a word that isn't known is refused by its name, and Open Liberty's words are taken where they mean the same here."""

from __future__ import annotations

from collections.abc import Callable

from instances import Answer, Caller, running

from job_host.service.routes.table import ROUTES
from job_host.service.settings import ServeSettings

Make = Callable[..., ServeSettings]
OTHERS = ["/metrics", "/health/live", "/health/ready", "/health/leader", "/batch/events", "/", "/console/console.js"]
RESOURCES = [(method, path.replace("{id}", "1")) for method, path, *_ in ROUTES] + [("GET", path) for path in OTHERS]


def refused(answer: Answer) -> tuple[str, str]:
    """The name and the detail of a problem of status 400."""
    assert answer.status == 400, answer
    return answer.name, str(answer.told["detail"])


async def test_each_resource_names_a_word_that_is_not_known(settings: Make) -> None:
    async with running(settings()) as instance:
        caller = Caller(instance.url)
        for method, path in RESOURCES:
            answer = await caller.ask(method, path + "?instanceStatus=FAILED")
            assert refused(answer) == ("BadRequest", 'the query has words that aren\'t known here: ["instanceStatus"]'), path
        assert instance.service.keeper.operations == 0


async def test_a_word_that_comes_twice_is_refused(settings: Make) -> None:
    async with running(settings()) as instance:
        answer = await Caller(instance.url).ask("GET", "/batch/jobinstances?jobName=short&jobName=wide")
        assert refused(answer) == ("BadRequest", "jobName comes more than once")


async def test_job_instances_by_their_state(settings: Make) -> None:
    async with running(settings()) as instance:
        caller = Caller(instance.url)

        async def numbers(words: str) -> list[int]:
            return [one["instanceId"] for one in (await caller.ask("GET", "/batch/jobinstances" + words)).told]

        for job, outcome in [("short", "COMPLETED"), ("short", "FAILED"), ("chunky", "FAILED"), ("short", "FAILED")]:
            await caller.start(job)
            await caller.finish((await caller.claim()).told["work"]["work"], outcome)
        await caller.change(4, "restart")
        await caller.start("wide")
        assert await numbers("?instanceState=FAILED") == [3, 2]
        assert await numbers("?instanceState=COMPLETED") == [1]
        assert await numbers("?instanceState=FAILED&jobName=short") == [2]
        assert await numbers("?instanceState=FAILED&page=1&pageSize=1") == [2]
        assert await numbers("?instanceState=STARTING,COMPLETED") == [5, 4, 1]
        assert await numbers("?instanceState=STARTING&instanceState=COMPLETED") == [5, 4, 1]
        assert await numbers("?instanceState=STOPPED") == []
        for word in ("", "DISPATCHED"):
            answer = await caller.ask("GET", f"/batch/jobinstances?instanceState={word}")
            assert refused(answer)[1].endswith(f'ABANDONED, and not "{word}"')
        assert (await caller.ask("GET", "/batch/jobinstances?instanceState=FAILED&jobName=none")).name == "NoSuchJobException"


async def test_the_words_and_paths_of_open_liberty(settings: Make) -> None:
    async with running(settings()) as instance:
        caller, path = Caller(instance.url), "/ibm/api/batch/jobinstances"
        body = {"applicationName": "payroll", "jobXMLName": "short"}
        no_applications = (
            'aren\'t known here: ["applicationName"]; there are no applications here, and jobName alone names a job'
        )
        assert refused(await caller.ask("POST", path, body))[1] == f"the body has members that {no_applications}"
        answer = await caller.ask("GET", path + "?applicationName=payroll")
        assert refused(answer)[1] == f"the query has words that {no_applications}"
        assert (await caller.ask("POST", path, {"jobXMLName": "short"})).told["executionId"] == 1
        await caller.change(1, "stop")
        again = await caller.ask("PUT", path + "/1?action=restart", {})
        assert again.told["executionId"] == 2
        told = [await caller.ask("GET", f"/ibm/api/batch/jobexecutions/{number}/jobinstance") for number in (1, 2, 3)]
        instances = await caller.ask("GET", "/batch/jobinstances/1")
        assert [answer.told for answer in told[:2]] == [instances.told] * 2
        assert (told[0].operations, told[2].status, told[2].name) == (3, 404, "NoSuchJobExecutionException")
        assert (await caller.ask("GET", "/batch/jobexecutions/1/joblogs?type=zip")).name == "BadRequest"
        text = (await caller.ask("GET", "/metrics")).told
        assert 'jobhost_requests_total{method="GET",route="/batch/jobexecutions/{id}/jobinstance",status="200"} 2.0' in text
