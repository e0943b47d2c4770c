"""What guards the console: whose page asks, what the page may load, that no text becomes markup; and the contrast of texts."""

from __future__ import annotations

import math
import re
import ssl
import subprocess
from collections.abc import Callable
from pathlib import Path

import aiohttp
import pytest
from instances import Caller, running

from job_host.protocol.headers import FORGERY_TOKEN
from job_host.service.http.browsers import Browsers
from job_host.service.settings import ServeSettings

Make = Callable[..., ServeSettings]
CONSOLE = Path(__file__).resolve().parents[1] / "job_host" / "service" / "console"
READER, OPERATOR = "r" * 20, "o" * 20

ORIGINS: list[tuple[dict[str, str], int, str]] = [
    ({}, 201, ""),
    ({"Origin": "http://evil.example"}, 403, "ForeignOrigin"),
    ({"Origin": "null"}, 403, "ForeignOrigin"),
    ({"Origin": "http://localhost:1"}, 403, "ForeignOrigin"),
    ({"Sec-Fetch-Site": "cross-site", "Sec-Fetch-Mode": "navigate"}, 403, "ForeignOrigin"),
    ({"Sec-Fetch-Site": "same-site"}, 403, "ForeignOrigin"),
    ({"Sec-Fetch-Site": "same-origin"}, 403, "ForgedRequest"),
    ({"Origin": "OWN"}, 403, "ForgedRequest"),
    ({"Origin": "OWN", FORGERY_TOKEN: "wrong"}, 403, "ForgedRequest"),
    ({"Origin": "OWN", FORGERY_TOKEN: "TOKEN"}, 201, ""),
    ({"Origin": "OWN", "Sec-Fetch-Site": "same-origin", FORGERY_TOKEN: "TOKEN"}, 201, ""),
    ({"Origin": "http://evil.example", FORGERY_TOKEN: "TOKEN"}, 403, "ForeignOrigin"),
]


async def test_another_page_changes_nothing(settings: Make) -> None:
    async with running(settings()) as instance:
        caller, kept = Caller(instance.url), 0
        for headers, status, name in ORIGINS:
            given = {
                key: value.replace("OWN", instance.url).replace("TOKEN", instance.service.browsers.token)
                for key, value in headers.items()
            }
            answer = await caller.ask("POST", "/batch/jobinstances", {"jobName": "short"}, None, **given)
            kept += status == 201
            assert (answer.status, instance.service.keeper.operations) == (status, kept), headers
            assert status == 201 or answer.name == name


async def test_another_page_reads_nothing_but_may_lead_here(settings: Make) -> None:
    async with running(settings()) as instance:
        caller = Caller(instance.url)
        for path in ("/batch/jobs", "/batch/events", "/metrics", "/console/console.js"):
            assert (await caller.ask("GET", path, **{"Sec-Fetch-Site": "cross-site"})).name == "ForeignOrigin"
        link = {"Sec-Fetch-Site": "cross-site", "Sec-Fetch-Mode": "navigate"}
        assert (await caller.ask("GET", "/", **link)).status == 200
        assert (await caller.ask("GET", "/batch/jobs", **link)).status == 403
        assert (await caller.ask("GET", "/batch/jobs", **{"Sec-Fetch-Site": "none"})).status == 200


async def test_a_name_that_leads_to_loopback_shows_no_page(settings: Make) -> None:
    """A page can have a name of its own lead to this machine. It would read the page's token, if it were shown one."""
    async with running(settings()) as instance:
        caller = Caller(instance.url)
        for path in ("/", "/console/console.js", "/batch/caller"):
            answer = await caller.ask("GET", path, Host="evil.example")
            assert (answer.status, answer.name) == (421, "NotThisHost")


async def test_a_service_behind_another_name_has_that_origin_too(settings: Make) -> None:
    async with running(settings(advertise="https://batch.example")) as instance:
        caller = Caller(instance.url)
        given = {"Origin": "https://batch.example", FORGERY_TOKEN: instance.service.browsers.token}
        assert (await caller.ask("POST", "/batch/jobinstances", {"jobName": "short"}, None, **given)).status == 201


async def test_an_origin_over_tls(settings: Make, tmp_path: Path) -> None:
    certificate, key, tokens = tmp_path / "certificate", tmp_path / "key", tmp_path / "tokens"
    words = ["openssl", "req", "-x509", "-newkey", "rsa:2048", "-nodes", "-days", "2", "-subj", "/CN=localhost"]
    words += ["-addext", "subjectAltName=IP:127.0.0.1", "-keyout", str(key), "-out", str(certificate)]
    subprocess.run(words, check=True, capture_output=True)
    tokens.write_text(f"operator ops {OPERATOR}\n")
    context = ssl.create_default_context(cafile=str(certificate))
    async with running(settings(tokens=tokens, certificate=certificate, certificate_key=key)) as instance:
        place = f"127.0.0.1:{instance.service.port}"
        given = {"Authorization": f"Bearer {OPERATOR}", FORGERY_TOKEN: instance.service.browsers.token}
        statuses = []
        async with aiohttp.ClientSession() as session:
            for scheme in ("https", "http"):
                headers = {**given, "Origin": f"{scheme}://{place}"}
                url, body = f"https://{place}/batch/jobinstances", {"jobName": "short"}
                async with session.post(url, json=body, headers=headers, ssl=context) as answer:
                    statuses.append(answer.status)
        assert statuses == [201, 403]


def test_each_start_has_a_token_of_its_own() -> None:
    tokens = {Browsers("").token for _ in range(10)}
    assert len(tokens) == 10 and all(re.fullmatch(r"[A-Za-z0-9_-]{43}", token) for token in tokens)


@pytest.fixture
def with_tokens(settings: Make, tmp_path: Path) -> ServeSettings:
    path = tmp_path / "tokens"
    path.write_text(f"reader desk {READER}\n")
    return settings(tokens=path)


async def test_the_page_needs_no_token_and_has_a_strict_policy(with_tokens: ServeSettings) -> None:
    async with running(with_tokens) as instance, aiohttp.ClientSession() as session:
        async with session.get(instance.url + "/") as page:
            text, headers = await page.text(), page.headers
        assert f'content="{instance.service.browsers.token}"' in text and headers["Cache-Control"] == "no-store"
        policy = headers["Content-Security-Policy"].split("; ")
        wanted = {"default-src 'none'", "script-src 'self'", "style-src 'self'", "connect-src 'self'", "frame-ancestors 'none'"}
        assert wanted <= set(policy) and "unsafe" not in headers["Content-Security-Policy"]
        assert {"require-trusted-types-for 'script'", "trusted-types 'none'", "form-action 'none'"} <= set(policy)


@pytest.mark.parametrize("name", sorted(file.name for file in CONSOLE.iterdir() if file.name != "index.html"))
async def test_a_file_is_sent_once(with_tokens: ServeSettings, name: str) -> None:
    async with running(with_tokens) as instance, aiohttp.ClientSession() as session:
        async with session.get(f"{instance.url}/console/{name}") as file:
            assert (file.status, file.headers["X-Content-Type-Options"]) == (200, "nosniff")
            assert await file.read() == (CONSOLE / name).read_bytes()
            again = {"If-None-Match": file.headers["ETag"]}
        async with session.get(f"{instance.url}/console/{name}", headers=again) as file:
            assert (file.status, await file.read()) == (304, b"")


async def test_no_other_file_is_sent(with_tokens: ServeSettings) -> None:
    async with running(with_tokens) as instance, aiohttp.ClientSession() as session:
        for name in ("index.html", "none.js", "..%2fserver.py"):
            async with session.get(f"{instance.url}/console/{name}") as file:
                assert file.status == 404


def test_no_text_becomes_markup_and_nothing_comes_from_elsewhere() -> None:
    """The content policy refuses these in a browser; here nobody writes them."""
    markup = re.compile(
        r"innerHTML|outerHTML|insertAdjacentHTML|document\.write|DOMParser|\beval\b|new Function|srcdoc|style=|\bon[a-z]+="
    )
    elsewhere = re.compile(r"https?://|//[a-z]+\.|@import|url\(")
    for file in CONSOLE.iterdir():
        text = file.read_text().replace("http://www.w3.org/2000/svg", "")
        assert not markup.search(text), file.name
        assert not elsewhere.search(text), file.name
        assert len(text.splitlines()) <= 800, file.name


def luminance(colour: str) -> float:
    parts = [int(colour[place : place + 2], 16) / 255 for place in (1, 3, 5)]
    linear = [part / 12.92 if part <= 0.04045 else math.pow((part + 0.055) / 1.055, 2.4) for part in parts]
    return 0.2126 * linear[0] + 0.7152 * linear[1] + 0.0722 * linear[2]


def contrast(one: str, other: str) -> float:
    light, dark = sorted((luminance(one), luminance(other)), reverse=True)
    return (light + 0.05) / (dark + 0.05)


@pytest.mark.parametrize("scheme", [0, 1], ids=["light", "dark"])
def test_texts_have_contrast(scheme: int) -> None:
    """At least 4.5 to 1, as WCAG 2.1 has it for texts."""
    blocks = re.findall(r":root \{(.*?)\}", (CONSOLE / "console.css").read_text(), re.S)
    colours = {
        name: value for block in blocks[: scheme + 1] for name, value in re.findall(r"--([a-z-]+): (#[0-9a-f]{6})", block)
    }
    statuses = ["starting", "started", "stopping", "stopped", "failed", "completed", "abandoned"]
    pairs = [(status, f"{status}-back") for status in statuses] + [(status, "card") for status in statuses]
    grounds = ("card", "back", "code")
    pairs += [(text, ground) for text in ("text", "faint", "accent", "danger") for ground in grounds] + [
        ("on-accent", "accent")
    ]
    pairs += [("text", f"{status}-back") for status in statuses] + [("faint", f"{status}-back") for status in statuses]
    low = {pair: round(contrast(colours[pair[0]], colours[pair[1]]), 2) for pair in pairs}
    assert not {pair: ratio for pair, ratio in low.items() if ratio < 4.5}
