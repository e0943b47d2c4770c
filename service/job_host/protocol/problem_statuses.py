"""The names of problems, each with its status of HTTP, and what a client makes of them."""

from __future__ import annotations

# The repository's refusals. What each means is in docs/LINES.md, "Refusals".
STATUS_OF_REFUSAL = {
    "BadLine": 400,
    "TextTooLong": 422,
    "JobStartException": 404,
    "NoSuchJobException": 404,
    "NoSuchJobInstanceException": 404,
    "NoSuchJobExecutionException": 404,
    "NoSuchWork": 404,
    "JobExecutionNotRunningException": 409,
    "JobExecutionIsRunningException": 409,
    "JobExecutionAlreadyCompleteException": 409,
    "JobExecutionNotMostRecentException": 409,
    "JobRestartException": 409,
    "WorkNotRunning": 409,
    "NotClaimer": 409,
    "NotStopping": 409,
    "WrongOutcome": 409,
    "RepositoryFull": 503,
}

# The service's own refusals. What each means is in docs/SERVICE.md, "HTTP". MethodNotAllowed and RequestEntityTooLarge are
# made by aiohttp alone.
STATUS_OF_PROBLEM = {
    "BadRequest": 400,
    "JobRefused": 400,
    "RoleLacksRight": 403,
    "ForeignOrigin": 403,
    "ForgedRequest": 403,
    "NotFound": 404,
    "NoArchive": 404,
    "NoChain": 404,
    "NoSuchQueue": 404,
    "MethodNotAllowed": 405,
    "TooSlow": 408,
    "ClientGone": 408,
    "CatalogueFull": 409,
    "ClaimWithdrawn": 409,
    "JobWithdrawn": 409,
    "JobInOtherQueue": 409,
    "JobIsRunning": 409,
    "LacksLabels": 409,
    "QueueFull": 409,
    "JobsFixed": 409,
    "NoLease": 409,
    "ReplyNotKept": 409,
    "RequestEntityTooLarge": 413,
    "UnsupportedMediaType": 415,
    "NotThisHost": 421,
    "RequestKeyReused": 422,
    "TooManyRequests": 429,
    "TooManyClients": 429,
    "InternalError": 500,
    "TooManyConnections": 503,
    "NotLeader": 503,
    "Starting": 503,
    "NotYetSeen": 503,
    "CommitFailed": 503,
    "CoProcessEnded": 503,
    "StoreLost": 503,
    "HistoryAlmostFull": 503,
    "ArchiveFailed": 503,
}

# Statuses of an instance that can't answer now, though another one may, or it itself later.
PASSING = (408, 425, 429, 502, 503, 504)
# Problems of status 503 that don't pass.
LASTING = ("HistoryAlmostFull", "RepositoryFull", "ArchiveFailed")
