"""The names under which what policies do stands in the history."""

from __future__ import annotations

from job_host.service.terms.term import Term

# No client can have such a name: those of clients begin with a letter or a digit.
RESTARTER, TIMER, SCHEDULER = "(restart-policy)", "(timeout)", "(schedule)"
# By these refusals of its queue a start or a restart is made as soon as there is room.
HELD = ("QueueFull", "JobIsRunning")


async def session_of(term: Term, client: str) -> int | None:
    """The session under which a policy's operations stand. None if it has made none."""
    with term.sessions.hearing(client):
        await term.meet(client)
        return term.sessions.known(client)
