"""An audit over HTTP: what the auditor says of the logs of all sites, for as long as somebody waits for it."""

import asyncio
import contextlib
from collections.abc import Coroutine
from typing import Any, TypeVar

from aiohttp import web

from shop_tool import program
from shop_tool.carrier.records import bytes_of
from shop_tool.ends import Fault, Status

from .line import Line

LOOK_SECONDS = 0.2          # how often it is looked whether the client is there
PIPE = asyncio.subprocess.PIPE
Value = TypeVar("Value")


async def audited(line: Line, sites: int, seconds: float) -> str:
    """What the auditor says. A cancel ends it, and what is asked of the sites for it."""
    auditor = await asyncio.create_subprocess_exec(program.path(), "audit", "--sites", str(sites), stdin=PIPE, stdout=PIPE)
    assert auditor.stdin and auditor.stdout
    try:
        async for answer in line.call({"op": "logs", "timeout": seconds}):
            with contextlib.suppress(ConnectionError):      # the auditor ended early, and its status says so
                auditor.stdin.write(bytes_of(answer.get("text", "")))
                await auditor.stdin.drain()
        auditor.stdin.close()
        verdict = (await auditor.stdout.read()).decode().strip()
        if await auditor.wait():
            raise Fault(Status.REFUSED, f"the auditor ended with status {auditor.returncode}")
        return verdict
    finally:
        with contextlib.suppress(ProcessLookupError):
            auditor.kill()
        await auditor.wait()


async def while_asked(request: web.Request, work: Coroutine[Any, Any, Value]) -> Value:
    """What comes of some work, which ends once the client has gone: the library goes on with it."""
    task = asyncio.ensure_future(work)
    try:
        while not task.done():
            await asyncio.wait([task], timeout=LOOK_SECONDS)
            if request.transport is None or request.transport.is_closing():
                raise ConnectionError("the client has gone")
        return task.result()
    finally:
        task.cancel()
        await asyncio.gather(task, return_exceptions=True)
