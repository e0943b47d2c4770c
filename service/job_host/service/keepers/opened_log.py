"""Opens the log of an embedded service: one that is still in use is waited for, and another catalogue is tried if need be."""

from __future__ import annotations

import asyncio
from collections.abc import Awaitable, Callable, Sequence
from pathlib import Path

from job_host.catalogue import growth
from job_host.service.history.coprocess import CatalogueRefused, CoProcess, CoProcessEnded
from job_host.service.keepers.keeper import Fatal

# batchctl's exit status if it doesn't know its words.
REFUSED_WORDS = 2
IN_USE_SECONDS = 10.0
RETRY = 0.25

# The catalogue to try next, after batchctl has refused one.
Arrange = Callable[[bytes, CatalogueRefused], Awaitable[bytes]]


async def opened(batchctl: Sequence[str], path: Path, catalogue: bytes, arrange: Arrange, *more: str) -> CoProcess:
    """Opens a log, with more words if there are some. One that is still in use by a program that ends is waited for.

    batchctl looks at the file first. If it is whole and has other jobs, another catalogue is tried. Raises Fatal if the log
    can't be opened, and CoProcessEnded if batchctl ends before it answers.
    """
    words = [*batchctl, "script", "--log", str(path), "--tags", *more]
    for _ in range(int(IN_USE_SECONDS / RETRY)):
        try:
            return await CoProcess.start(words, catalogue)
        except CatalogueRefused as refused:
            if growth.other_job(refused.fault) is not None:
                catalogue = await arrange(catalogue, refused)
                continue
            if b"LogInUse" not in refused.fault:
                raise Fatal(f"{path}: {refused}") from refused
        except CoProcessEnded as ended:
            if ended.status == REFUSED_WORDS:
                raise Fatal(f"{words[0]} has no `script --log FILE --tags`: {ended}") from ended
            raise
        await asyncio.sleep(RETRY)
    raise Fatal(f"{path} is in use by another program")
