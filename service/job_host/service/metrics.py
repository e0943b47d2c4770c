"""Metrics in Prometheus' format."""

from __future__ import annotations

from collections.abc import Mapping, Sequence
from contextlib import suppress
from functools import cached_property
from typing import Any

from prometheus_client import CollectorRegistry, Counter, Gauge, Histogram, generate_latest

from job_host.protocol.lines import query, read
from job_host.service.history.backlog import Backlog
from job_host.service.history.coprocess import CoProcessEnded
from job_host.service.history.open_index import RESTARTABLE, WAITING
from job_host.service.keepers.backlog import backlog
from job_host.service.keepers.keeper import Keeper
from job_host.service.keepers.open_items import OpenWanted, open_items
from job_host.service.pages import Page
from job_host.service.policies.delivery import Counts
from job_host.service.problems import Problem
from job_host.service.queues.queues import Queues
from job_host.service.retention.rounds import Retention
from job_host.service.settings import HistoryBounds
from job_host.service.terms import moments
from job_host.service.terms.calls import SERVICE_SESSION
from job_host.service.terms.term import Observers

NO_ROWS = Page(0, 0)
READY = "At least so many claims would find work, or a job execution to close. There may be more: docs/SERVICE.md"
OLDEST = "For at least so many seconds the oldest of what is known to be ready is so, 0 if nothing is"
COMMIT_BUCKETS = (0.0005, 0.001, 0.002, 0.005, 0.01, 0.02, 0.05, 0.1, 0.2, 0.5, 1, 2, 5, 10)


class Metrics:
    """One registry for one service."""

    def __init__(self, history: HistoryBounds) -> None:
        self._most = history.most
        self.registry = CollectorRegistry()
        self._of_requests: dict[tuple[str, str, int], tuple[Counter, Histogram]] = {}
        given: dict[str, Any] = {"registry": self.registry}
        self.requests = Counter("jobhost_requests", "Requests by route and status", ["method", "route", "status"], **given)
        self.seconds = Histogram("jobhost_request_seconds", "Seconds of a request", ["route"], **given)
        self.commits = Histogram("jobhost_commit_seconds", "Seconds of a commit", buckets=COMMIT_BUCKETS, **given)
        self.replies = Counter("jobhost_committed_replies", "Replies that waited for a commit", **given)
        self.executions = Gauge("jobhost_job_executions", "Job executions by batch status", ["status"], **given)
        self.operations = Gauge("jobhost_operations", "Operations of the history", **given)
        self.full = Gauge("jobhost_history_full_ratio", "How full the history is", **given)
        self.leads = Gauge("jobhost_leads", "1 if this instance leads", **given)
        self.epoch = Gauge("jobhost_epoch", "The epoch that this instance knows", **given)
        self.held = Gauge("jobhost_work_items_held", "Busy work items", **given)
        self.ready = Gauge("jobhost_queue_ready_at_least", READY, ["queue"], **given)
        self.busy = Gauge("jobhost_queue_busy", "Busy work items", ["queue"], **given)
        self.oldest = Gauge("jobhost_queue_oldest_ready_at_least_seconds", OLDEST, ["queue"], **given)
        self.waiting = Gauge("jobhost_claims_waiting", "Claims that wait for work", **given)
        self.open = Gauge("jobhost_open_job_instances", "Job instances to restart, by batch status", ["status"], **given)
        self.long = Gauge("jobhost_long_job_executions", "Job executions that run much longer than before", **given)
        self.late = Gauge("jobhost_late_work_items", "Work items whose lease, or whose job, is late", **given)
        self.vain = Gauge("jobhost_waiting_job_executions", "Job executions that wait though no worker asks", **given)
        self.takeover = Gauge("jobhost_takeover_seconds", "Seconds from the last new epoch to the first call", **given)
        self.purged = Gauge("jobhost_purged_job_instances", "Job instances of this history that retention purged", **given)
        self.archived = Counter("jobhost_archived_job_instances", "Job instances that this instance archived", **given)
        self.round = Gauge("jobhost_retention_round_seconds", "Seconds of the last round of retention", **given)
        self.left = Gauge("jobhost_retention_left", "Job instances that the last round has left to purge", **given)
        self.notified = Gauge("jobhost_notifications_waiting", "Notifications that wait for their receiver", **given)
        self.taken = Counter("jobhost_notifications_taken", "Notifications that were taken", **given)
        self.not_taken = Counter("jobhost_notifications_failed", "Attempts of notifications that failed", **given)
        self.base_rows = Gauge("jobhost_log_base_rows", "Rows in the base of the log", **given)
        self.behind = Gauge("jobhost_log_operations_behind_base", "Operations behind the base of the log", **given)
        self.compacting = Gauge("jobhost_compaction_seconds", "Seconds of the last compaction", **given)
        self.compacted_at = Gauge("jobhost_compaction_begun", "When the last compaction began, in seconds since 1970", **given)
        self.not_compacted = Gauge("jobhost_compaction_failed", "1 if the last compaction failed", **given)

    def note_request(self, method: str, route: str, status: int, seconds: float) -> None:
        """Counts a request. Its counters are looked up by their labels once: there are few of them."""
        of = (method, route, status)
        found = self._of_requests.get(of)
        if found is None:
            found = self._of_requests[of] = (self.requests.labels(*of), self.seconds.labels(route))
        found[0].inc()
        found[1].observe(seconds)

    def observers(self) -> Observers:
        return Observers(self._observe_commit)

    def _observe_commit(self, seconds: float, replies: int) -> None:
        if replies:
            self.commits.observe(seconds)
            self.replies.inc(replies)

    def set_retention(self, retentions: Sequence[Retention]) -> None:
        """What the rounds of this instance did: of several queues, those of all."""
        self.archived.inc(sum(one.take_archived() for one in retentions))
        self.round.set(max(one.last.seconds for one in retentions))
        self.left.set(sum(one.last.left for one in retentions))

    def set_notifications(self, counted: Sequence[Counts]) -> None:
        """What this instance sent since this was last asked, and what waits."""
        self.notified.set(sum(counts.waiting for counts in counted))
        for counts in counted:
            self.taken.inc(counts.taken)
            self.not_taken.inc(counts.failed)
            counts.taken = counts.failed = 0

    def set_compaction(self, keepers: Sequence[Keeper]) -> None:
        """How the logs stand, and what became of the last compaction."""
        bases = [keeper.engine.base for keeper in keepers if keeper.engine]
        self.base_rows.set(sum(0 if base is None else base.head.rows for base in bases))
        self.behind.set(sum(keeper.behind for keeper in keepers))
        compactions = [keeper.compaction for keeper in keepers if keeper.compaction is not None]
        if compactions:
            last = max(compactions, key=lambda one: one.begun)
            self.compacting.set(last.seconds)
            self.compacted_at.set(last.begun / 1000)
            self.not_compacted.set(1 if any(one.failure for one in compactions) else 0)

    async def text(self, queues: Queues) -> bytes:
        """All metrics: of several queues, those of all. The counts by batch status are asked for."""
        keepers = queues.keepers
        self.operations.set(sum(queues.committed))
        self.full.set(queues.fullest / self._most)
        self.leads.set(1 if queues.role == "leader" else 0)
        self.epoch.set(queues.default.keeper.epoch)
        self.set_compaction(keepers)
        self.waiting.set(queues.waiting)
        self.takeover.set(max(keeper.last_takeover for keeper in keepers))
        for gauge in (self.executions, self.ready, self.busy, self.oldest):
            gauge.clear()
        self.held.set(0)
        self.purged.set(0)
        held = sum(len(keeper.engine.held) for keeper in keepers if keeper.engine)
        purged = sum(keeper.engine.actions.purges_by[SERVICE_SESSION] for keeper in keepers if keeper.engine)
        try:
            counts = [await status_counts(keeper) for keeper in keepers]
        except (Problem, CoProcessEnded):
            return generate_latest(self.registry)
        # What was seen before this answer is kept.
        self.held.set(held)
        self.purged.set(purged)
        for status in dict.fromkeys(status for one in counts for status in one):
            self.executions.labels(status).set(sum(one.get(status, 0) for one in counts))
        with suppress(Problem, CoProcessEnded):
            self._set_open([(await open_items(keeper, OpenWanted(NO_ROWS))).counts for keeper in keepers])
            for queue in queues:
                self._set_backlog(queue.name, await backlog(queue.keeper))
        self._set_queues(queues)
        return generate_latest(self.registry)

    def _set_backlog(self, queue: str, found: Backlog) -> None:
        """What isn't known is left out: to whoever goes by it, 0 would say that there is no work."""
        self.ready.labels(queue).set(found.ready)
        self.busy.labels(queue).set(found.busy)
        age = 0 if found.since is None else max(0, moments.clock() - found.since)
        self.oldest.labels(queue).set(age / 1000)

    def _set_queues(self, queues: Queues) -> None:
        """What only a service with several queues tells of each: how full it is, and whether workers ask for its work."""
        if queues.are_plain:
            return
        full, waiting = self.each_queue
        for one in queues:
            full.labels(one.name).set(one.keeper.committed / self._most)
            waiting.labels(one.name).set(len(queues.desk.waiting_for(one)))

    @cached_property
    def each_queue(self) -> tuple[Gauge, Gauge]:
        """They aren't told where there is one queue alone."""
        given: dict[str, Any] = {"registry": self.registry}
        full = Gauge("jobhost_queue_history_full_ratio", "How full the history of the queue is", ["queue"], **given)
        waiting = Gauge("jobhost_queue_claims_waiting", "Claims that wait for work of the queue", ["queue"], **given)
        return full, waiting

    def _set_open(self, counted: Sequence[Mapping[str, int | None]]) -> None:
        for status in RESTARTABLE:
            self.open.labels(status).set(sum(counts[status] or 0 for counts in counted))
        for name, gauge in (("long", self.long), ("late", self.late), (WAITING, self.vain)):
            gauge.set(sum(counts[name] or 0 for counts in counted))


async def status_counts(keeper: Keeper) -> dict[str, int]:
    """How many job executions of a queue have each batch status."""
    answers = await keeper.ask([query("status_counts")])
    return dict(read(answers.replies[0])["counts"])
