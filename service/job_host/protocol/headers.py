"""Names of headers of HTTP."""

from __future__ import annotations

# Of a request: whose it is, by which key it is made once, and how many operations its answer has to have seen.
CLIENT = "Batch-Client"
REQUEST_KEY = "Idempotency-Key"
AT_LEAST = "Batch-At-Least"
# Of a request by which a page of the console changes something.
FORGERY_TOKEN = "Batch-Forgery-Token"
# Of an answer: how many operations it saw.
OPERATIONS = "Batch-Operations"
