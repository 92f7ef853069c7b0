"""How many files a process has open at once, and what is said where there are no more of them for connections."""

import asyncio
import errno
import resource
from collections.abc import Callable
from typing import Any

MOST = 4096             # each keeper takes three, and each connection one
TELL_SECONDS = 60.0     # how often it is said that there are no more


def take_more() -> None:
    """Has this process open as many as it may, up to some number; a shell's limit is often less than a hard one."""
    soft, hard = resource.getrlimit(resource.RLIMIT_NOFILE)
    most = MOST if hard == resource.RLIM_INFINITY else min(MOST, hard)
    if soft != resource.RLIM_INFINITY and soft < most:
        resource.setrlimit(resource.RLIMIT_NOFILE, (most, hard))


class Faults:
    """What the loop says went wrong: that there are no more files for connections at most once a minute, since it says so of each try."""

    def __init__(self, say: Callable[[str], None]) -> None:
        self._say = say
        self._said_at = -TELL_SECONDS

    def tell(self, loop: asyncio.AbstractEventLoop, context: dict[str, Any]) -> None:
        fault = context.get("exception")
        if not isinstance(fault, OSError) or fault.errno not in (errno.EMFILE, errno.ENFILE):
            return loop.default_exception_handler(context)
        if loop.time() - self._said_at >= TELL_SECONDS:
            self._said_at = loop.time()
            self._say(f"no more connections for now: {fault.strerror}")
