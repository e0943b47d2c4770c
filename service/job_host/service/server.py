"""The service as one web application, and its life from start to end."""

from __future__ import annotations

import asyncio
import gc
import logging
import signal
import time
from collections.abc import Awaitable, Callable, Iterable, Sequence
from typing import NamedTuple

from aiohttp import web
from prometheus_client import CONTENT_TYPE_LATEST

from job_host.archive.folder import ArchiveFolder
from job_host.catalogue.faults import NoVerdict
from job_host.catalogue.jobs import JobsRefused, ServedJobs, read_file
from job_host.catalogue.queues import DEFAULT_QUEUE
from job_host.protocol.printable import begin_log
from job_host.protocol.seldom import seldom
from job_host.service.history.coprocess import CoProcessEnded
from job_host.service.http.access import Access, Certificate, SettingsRefused
from job_host.service.http.browsers import CONSOLE, Browsers
from job_host.service.http.connections import GuardedHandler, GuardedServer

from job_host.service.http.descriptors import fitted, raise_limit
from job_host.service.http.dispatch import Dispatch
from job_host.service.http.listening import GuardedSite, Listener
from job_host.service.http.requests import Asked, Gate, Host, Places, Route, process_ended, refuse_others
from job_host.service.keepers.keeper import Fatal, check_catalogue
from job_host.service.making import made_queues
from job_host.service.metrics import Metrics
from job_host.service.policies.leading import Outside, Policies
from job_host.service.policies.receiver import Receiver
from job_host.service.problems import Problem, unavailable
from job_host.service.queues.queue import Queue
from job_host.service.retention.purging import Purging
from job_host.service.retention.rounds import Retention
from job_host.service.routes.archive import make_ready, with_archive
from job_host.service.routes.console import EVENTS_PATH, ConsoleFiles, health_of, show_events
from job_host.service.routes.joined import chosen, told_of_queue
from job_host.service.routes.table import ROUTES
from job_host.service.settings import ServeSettings

log = logging.getLogger(__name__)

WARN_SECONDS = 60.0
SHUTDOWN_SECONDS = 10.0
# Calls in hand have so long to their ends.
CALLS_SECONDS = 10.0
FAILURE_CHARACTERS = 500
# So many new objects are waited for before the garbage is collected: what is known of a history is much, and is no garbage.
COLLECTED = 20_000
# Open Liberty has the same paths below another root.
LIBERTY_ROOT = "/ibm/api"
ROOTS = ("", LIBERTY_ROOT)
# Probes need no token, and tell nothing but whether the instance is up.
LIVE_PROBE, READY_PROBE = "/livez", "/readyz"

Serve = Callable[[web.Request], Awaitable[web.StreamResponse]]


def read_jobs(settings: ServeSettings) -> dict[str, ServedJobs]:
    """The jobs of the file, or of the folder, by their queues. Raises JobsRefused, and OSError if it can't be read.

    Only a folder needs what reads JSL.
    """
    if settings.is_folder:
        from job_host.catalogue.folder import read_folder

        read = read_folder(settings.catalogue, settings.allow)
        for line in read.told:
            log.warning("%s", line)
        return read.served_by_queues(settings.queue_names)
    return {DEFAULT_QUEUE: ServedJobs(read_file(settings.catalogue))}


def begun_archive(settings: ServeSettings) -> ArchiveFolder | None:
    """The archive, if there is one. Raises OSError if it can't be used."""
    if settings.archive is None:
        return None
    archive = ArchiveFolder(settings.archive)
    archive.begin()
    return archive


class Part(NamedTuple):
    """What one queue's leader does by itself."""

    queue: Queue
    purging: Purging
    retention: Retention
    policies: Policies


class Service:
    """One instance. Probes and the console's files need no token; everything else does, where tokens are used."""

    def __init__(self, settings: ServeSettings) -> None:
        self.settings = settings
        self.access = Access(settings)
        self.metrics = Metrics(settings.history)
        self.queues = made_queues(settings, read_jobs(settings), self.metrics.observers())
        self.keeper = self.queues.default.keeper
        self.browsers = Browsers(settings.advertise)
        self.watchers = Places(settings.bounds.watchers, "consoles follow already")
        waits = Places(settings.bounds.waits, "claims wait for work already: this one may be made again")
        self.ending = asyncio.Event()
        archive = begun_archive(settings)
        self.receiver = Receiver(settings) if settings.notify else None
        # The default queue's part, and those of the others.
        (_, self.purging, self.retention, self.policies), *self._others = [self._part(one, archive) for one in self.queues]
        gate, purges = Gate(settings.bounds), {one.queue.number: one.purging.purge for one in self.parts}
        self.host = Host(settings, self.queues, self.access, gate, waits, self.ending, purges, archive)
        self.port = settings.port
        self.certificate: Certificate | None = None
        self._runner: web.ServerRunner | None = None
        # Folders that are being read again.
        self.readings: set[asyncio.Future[None]] = set()

    def _part(self, queue: Queue, archive: ArchiveFolder | None) -> Part:
        keeper, settings = queue.keeper, self.settings
        purging = Purging(keeper, archive)
        receiver = None if self.receiver is None else Outside(self.receiver, queue.number)
        return Part(queue, purging, Retention(keeper, settings, purging), Policies(keeper, settings, receiver))

    @property
    def parts(self) -> list[Part]:
        return [Part(self.queues.default, self.purging, self.retention, self.policies), *self._others]

    def application(self) -> web.Application:
        application = web.Application(client_max_size=self.settings.bounds.body_bytes)
        for root in ROOTS:
            for route in ROUTES:
                application.router.add_route(route.method, root + route.path, self._serve(route))
            application.router.add_get(root + EVENTS_PATH, self._follow, allow_head=False)
        for route in self._routes():
            application.router.add_route(route.method, route.path, self._serve(route))
        files = ConsoleFiles(self.browsers)
        application.router.add_get(CONSOLE, self._open(files.show_page))
        application.router.add_get("/console/{name}", self._open(files.show_file))
        application.router.add_get(LIVE_PROBE, self._open(self._probe_live))
        application.router.add_get(READY_PROBE, self._open(self._probe_ready))
        return application

    def _routes(self) -> list[Route]:
        return [
            Route("GET", "/metrics", "read", self._show_metrics),
            Route("GET", "/health/live", "read", self._show_live),
            Route("GET", "/health/ready", "read", self._show_ready),
            Route("GET", "/health/leader", "read", self._show_leader),
        ]

    def _serve(self, route: Route) -> Serve:
        async def serve(request: web.Request) -> web.StreamResponse:
            asked = self._asked(request, route.right, route.words)
            with self.host.gate.enter(asked.client):
                handler, asked = chosen(asked, route)
                try:
                    return await handler(asked)
                except Problem as problem:
                    raise told_of_queue(asked, await with_archive(asked, problem)) from None

        return serve

    def _asked(self, request: web.Request, right: str, words: Sequence[str]) -> Asked:
        caller = self.access.caller(request)
        if isinstance(request.protocol, GuardedHandler) and not request.protocol.admit():
            told = f"{self.settings.bounds.connections} connections have requests in hand, and no more are served"
            raise unavailable("TooManyConnections", told)
        if right not in caller.rights:
            raise Problem("RoleLacksRight", 403, "this isn't for the token's role")
        asked = Asked(request, self.host, caller)
        asked.expect_words(words)
        return asked

    def _open(self, handler: Serve) -> Serve:
        """A route for everybody who calls the service by its own name."""

        async def serve(request: web.Request) -> web.StreamResponse:
            self.access.check_host(request)
            refuse_others("the query has words", request.query, ())
            return await handler(request)

        return serve

    async def _follow(self, request: web.Request) -> web.StreamResponse:
        """The events. They last, so they have a bound of their own."""
        asked = self._asked(request, "read", ())
        with self.watchers.enter():
            return await show_events(asked)

    async def _answer(self, request: web.Request, handler: Serve) -> web.StreamResponse:
        """Answers every failure by a problem document, and measures."""
        begun = time.monotonic()
        connection = request.protocol
        if isinstance(connection, GuardedHandler):
            connection.note_served(True)
        response = await self._answered(request, handler)
        if isinstance(connection, GuardedHandler):
            connection.note_served(False)
            if connection.is_refused:
                response.force_close()
        resource = request.match_info.route.resource
        route = resource.canonical.removeprefix(LIBERTY_ROOT) if resource is not None else "none"
        response.headers.setdefault("X-Content-Type-Options", "nosniff")
        method = request.method if request.method in ("GET", "POST", "PUT", "DELETE", "HEAD") else "other"
        self.metrics.note_request(method, route, response.status, time.monotonic() - begun)
        return response

    async def _answered(self, request: web.Request, handler: Serve) -> web.StreamResponse:
        try:
            self.browsers.check(request)
            return await handler(request)
        except Problem as problem:
            return problem.response()
        except web.HTTPUnauthorized as refused:
            return web.Response(status=401, headers={"WWW-Authenticate": refused.headers["WWW-Authenticate"]})
        except web.HTTPException as refused:
            self.access_or_nothing(request)
            return Problem(type(refused).__name__.removeprefix("HTTP"), refused.status).response()
        except CoProcessEnded:
            return process_ended().response()
        except ConnectionError:
            return Problem("ClientGone", 408).response()
        except Exception:
            log.exception("a request failed: %s %s", request.method, request.path)
            return Problem("InternalError", 500, "the service's log says more").response()

    def access_or_nothing(self, request: web.Request) -> None:
        """A path or method that isn't known is told of to those with a token alone."""
        try:
            self.access.caller(request)
        except (Problem, web.HTTPException):
            raise web.HTTPUnauthorized(text="") from None

    async def _show_metrics(self, asked: Asked) -> web.StreamResponse:
        self.metrics.set_retention([one.retention for one in self.parts])
        self.metrics.set_notifications([one.policies.counts for one in self.parts])
        text = await self.metrics.text(self.queues)
        return web.Response(body=text, headers={"Content-Type": CONTENT_TYPE_LATEST})

    def _health(self) -> dict[str, object]:
        """How this instance is; with several queues, as it is in all of them."""
        told: dict[str, object] = {**health_of(self.queues), "leader": self.keeper.leader_url}
        if self.queues.fullest >= self.settings.history.warn_from:
            return {**told, "warning": "HistoryAlmostFull"}
        is_failed = any(one.compaction is not None and one.compaction.failure for one in self.queues.keepers)
        return {**told, "warning": "NotCompacted"} if is_failed else told

    async def _probe_live(self, request: web.Request) -> web.StreamResponse:
        return web.Response(text="live\n")

    async def _probe_ready(self, request: web.Request) -> web.StreamResponse:
        is_ready = self.queues.are_ready
        return web.Response(text="ready\n" if is_ready else "not ready\n", status=200 if is_ready else 503)

    async def _show_live(self, asked: Asked) -> web.StreamResponse:
        return web.json_response(self._health())

    async def _show_ready(self, asked: Asked) -> web.StreamResponse:
        return web.json_response(self._health(), status=200 if self.queues.are_ready else 503)

    async def _show_leader(self, asked: Asked) -> web.StreamResponse:
        return web.json_response(self._health(), status=200 if self.queues.role == "leader" else 503)

    async def _warn(self) -> None:
        """Says once a minute that the history fills."""
        while True:
            operations, history = self.queues.fullest, self.settings.history
            if operations >= history.warn_from:
                log.warning("the history has %d of %d operations: begin a new one soon", operations, history.most)
            await asyncio.sleep(WARN_SECONDS)

    async def listen(self) -> None:
        application = self.application()
        application.freeze()
        bounds = self.settings.bounds
        server = GuardedServer(application, Dispatch(application, self._answer).handle, bounds)
        self._runner = web.ServerRunner(server)
        await self._runner.setup()
        self.certificate = Certificate(self.settings)
        listener = Listener(server, self.certificate.context, bounds)
        await listener.listen(self.settings.host, self.settings.port)
        await GuardedSite(self._runner, listener, CALLS_SECONDS).start()
        if self.settings.port == 0:
            self.port = self._runner.addresses[0][1]

    async def end_serving(self) -> None:
        """Takes no more connections, ends what only waits, and lets the calls in hand end."""
        self.ending.set()
        self.queues.end_waits()
        if self.host.archive is not None:
            self.host.archive.close()
        if self._runner is not None:
            await self._runner.cleanup()

    def read_again(self) -> None:
        """Reads the tokens, the certificate and the secret again. What can't be read leaves in use what was read before."""
        files: list[tuple[str, Access | Certificate | Receiver | None]] = [
            ("tokens", self.access),
            ("certificate", self.certificate),
            ("the secret of notifications", self.receiver),
        ]
        for name, file in files:
            try:
                if file is not None:
                    file.read_again()
            except (SettingsRefused, OSError, ValueError) as fault:
                log.error("%s: what was read before stays in use: %s", name, fault)
        log.warning("has read the files of its tokens and its certificate again")
        if self.settings.is_folder:
            reading = asyncio.ensure_future(self._read_jobs_again())
            self.readings.add(reading)
            reading.add_done_callback(self.readings.discard)

    async def _read_jobs_again(self) -> None:
        """Reads the folder of jobs again. If a file is at fault, all jobs stay as they are."""
        try:
            served = await asyncio.to_thread(read_jobs, self.settings)
            await self._check_parts(served.values())
            await self.queues.read_folder(served)
            log.warning("has read the files of its jobs again")
        except JobsRefused as refused:
            for line in refused.lines:
                log.error("the jobs stay as they are: %s", line)
        except (Problem, Fatal, NoVerdict, OSError) as fault:
            log.error("the jobs aren't read again: %s", fault)

    async def _check_parts(self, parts: Iterable[ServedJobs]) -> None:
        """Raises Fatal if batchctl refuses the jobs of a queue: then those of the others stay as they are, too."""
        for served in parts if not self.queues.are_plain else ():
            await check_catalogue(self.settings.batchctl, served)

    async def keep(self) -> None:
        """Keeps the history until the keeper ends. Meanwhile what is over for long is purged, and policies are gone by.

        Raises Fatal.
        """
        await self._check_parts([keeper.served for keeper in self.queues.keepers])
        loop = asyncio.get_running_loop()
        rounds = [one for part in self.parts for one in (part.retention.run(), part.policies.run())]
        beside = [loop.create_task(one) for one in rounds]
        if self.host.archive is not None:
            beside.append(loop.create_task(make_ready(self.host.archive)))
        try:
            await self.queues.run()
        finally:
            for task in beside:
                task.cancel()
            await asyncio.wait(beside)
            if self.receiver is not None:
                await self.receiver.close()

    async def run(self) -> None:
        """Serves until SIGTERM or SIGINT. Raises Fatal if the keeper can't go on."""
        told = asyncio.Event()
        loop = asyncio.get_running_loop()
        loop.set_exception_handler(failures_note(seldom(log.warning)))
        for number in (signal.SIGTERM, signal.SIGINT):
            loop.add_signal_handler(number, told.set)
        loop.add_signal_handler(signal.SIGHUP, self.read_again)
        await self.listen()
        log.warning("listens on %s, port %d", self.settings.host, self.port)
        keeping = loop.create_task(self.keep())
        warning = loop.create_task(self._warn())
        until_told = loop.create_task(told.wait())
        await asyncio.wait([keeping, until_told], return_when=asyncio.FIRST_COMPLETED)
        warning.cancel()
        until_told.cancel()
        await self.end_serving()
        await self.queues.close()
        await asyncio.wait([keeping], timeout=SHUTDOWN_SECONDS)
        if keeping.done():
            keeping.result()


def failures_note(say: Callable[[str], None]) -> Callable[[asyncio.AbstractEventLoop, dict[str, object]], None]:
    """Says in one line what failed beside a request, and seldom: a client may bring it about as often as it likes."""

    def note(loop: asyncio.AbstractEventLoop, context: dict[str, object]) -> None:
        say(f"{context.get('message')}: {context.get('exception')!r}"[:FAILURE_CHARACTERS])

    return note


def serve(settings: ServeSettings) -> int:
    """Serves, and returns an exit status: 0 after a signal, 1 if a person has to look."""
    begin_log("jobhost")
    gc.set_threshold(COLLECTED)
    try:
        asyncio.run(Service(fitted(settings, raise_limit())).run())
    except Fatal as fault:
        log.error("stops: %s", fault)
        return 1
    return 0
