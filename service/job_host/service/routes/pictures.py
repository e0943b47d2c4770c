"""The picture of a job of the catalogue, laid out for the console."""

from __future__ import annotations

import asyncio
import json
import re
from concurrent.futures import ThreadPoolExecutor
from functools import lru_cache

from aiohttp import web

from job_host.catalogue.picture import Wanted, drawn_job
from job_host.service.http.requests import Asked, Route
from job_host.service.problems import bad_request
from job_host.service.routes.lists import catalogue_job, catalogue_jobs

NUMBERS = re.compile(r"([0-9]{1,4}(,[0-9]{1,4})*)?")
KEPT_PICTURES = 64
# One picture is laid out at a time, so that calls go on beside it.
drawer = ThreadPoolExecutor(1, "picture")


def numbers_of(asked: Asked, word: str) -> frozenset[int]:
    """The numbers of elements that a word of the query has."""
    given = asked.request.query.get(word, "")
    if not NUMBERS.fullmatch(given):
        raise bad_request(f"{word} has numbers of elements, with commas between them")
    return frozenset(int(one) for one in given.split(",") if one)


@lru_cache(maxsize=KEPT_PICTURES)
def drawn(catalogue: bytes, name: str, wanted: Wanted) -> str:
    return json.dumps(drawn_job(catalogue_jobs(catalogue)[name], wanted))


async def show_picture(asked: Asked) -> web.StreamResponse:
    """A job's elements and ways with their places. A job has a picture for each folding of its flows and splits."""
    folded = numbers_of(asked, "folded") if "folded" in asked.request.query else None
    wanted = Wanted(folded, numbers_of(asked, "unfolded"), asked.query_flag("downwards"))
    name = asked.request.query.get("jobName")
    if name is None:
        raise bad_request("jobName is missing")
    catalogue, job = await catalogue_job(asked, name)
    text = await asyncio.get_running_loop().run_in_executor(drawer, drawn, catalogue, job, wanted)
    return web.Response(text=text, content_type="application/json")


WORDS = ("jobName", "version", "folded", "unfolded", "downwards", "atLeast")
ROUTES = [Route("GET", "/batch/catalogue/picture", "read", show_picture, WORDS)]
