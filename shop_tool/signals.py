"""Does the steps of the carrier's machines, and waits for what happens next, without polling and no longer than is said."""

import asyncio
import contextlib
from collections.abc import Awaitable, Callable, Coroutine
from typing import Any

from .carrier.steps import Result, Signal, Steps, Wait

Do = Callable[[tuple[Any, ...]], Awaitable[Any]]


async def done(steps: Steps[Result], do: Do) -> Result:
    """Has these steps done one behind the other; what they come to. One that fails is told so."""
    said: Any = None
    fault: Exception | None = None
    with contextlib.closing(steps):
        while True:
            try:
                step = steps.throw(fault) if fault else steps.send(said)
            except StopIteration as end:
                result: Result = end.value
                return result
            said = fault = None
            try:
                said = await (waited(*step) if isinstance(step, Wait) else do(step))
            except Exception as raised:
                fault = raised


async def waited(signal: Signal | None, seconds: float | None = None) -> bool:
    """Returns the next time that the signal is told; False if that takes longer."""
    if signal and signal.is_set:
        return True
    loop = asyncio.get_running_loop()
    waiter: asyncio.Future[bool] = loop.create_future()

    def end(is_told: bool = True) -> None:
        if not waiter.done():
            waiter.set_result(is_told)
    if signal:
        signal.add(end)
    timer = None if seconds is None else loop.call_later(seconds, end, False)
    try:
        return await waiter
    finally:
        if signal:
            signal.discard(end)
        if timer:
            timer.cancel()


class Together:
    """Writes what comes within one turn of the loop at once."""

    def __init__(self, writer: asyncio.StreamWriter) -> None:
        self.writer = writer
        self._parts: list[bytes] = []

    def write(self, data: bytes) -> None:
        if not self._parts:
            asyncio.get_running_loop().call_soon(self._flush)
        self._parts.append(data)

    def _flush(self) -> None:
        data = b"".join(self._parts)
        self._parts.clear()
        if not self.writer.is_closing():
            self.writer.write(data)


async def is_over_within(seconds: float, work: Coroutine[Any, Any, None]) -> bool:
    """Whether some work ends in time. It is cancelled else, and not waited for: work over a broken connection may swallow that."""
    task = asyncio.create_task(work)
    done, _ = await asyncio.wait({task}, timeout=seconds)
    if not done:
        task.cancel()
    elif fault := task.exception():
        raise fault
    return bool(done)
