"""Talks to the supervisor of a shop."""

import json
import os
import socket
import time
from collections.abc import Iterator
from typing import IO, Any

from shop_ask.quick import CONNECT_SECONDS, MARGIN, Begun

from .ends import Ended, Fault, Status
from .lock import holder_of
from .carrier.told import unanswered


AGAIN_SECONDS = 0.1     # until an ask is asked again


def connect(folder: str, seconds: float = CONNECT_SECONDS) -> socket.socket | None:
    """A connection to the shop's supervisor, or None if it isn't running."""
    try:
        # A socket's path has at most 107 bytes, so the folder is named by a number.
        number = os.open(folder, os.O_PATH | os.O_DIRECTORY)
    except OSError:
        return None
    line = socket.socket(socket.AF_UNIX)
    line.settimeout(seconds)
    until = time.monotonic() + seconds
    try:
        while True:
            try:
                line.connect(f"/proc/self/fd/{number}/sock")
                line.settimeout(None)
                return line
            except BlockingIOError:
                if time.monotonic() > until:
                    line.close()
                    raise Fault(Status.AWAY, f"the supervisor of {folder} takes no connection; nothing was asked") from None
                time.sleep(0.05)
    except OSError:
        line.close()
        return None
    finally:
        os.close(number)


def call(folder: str, request: dict[str, Any], seconds: float | None = None) -> Iterator[dict[str, Any]]:
    """The supervisor's answers to one request; the last one has `end`. A Fault if there is no supervisor, it ends meanwhile, or it gives
    no last answer within `seconds`, by default the time-out of the request."""
    seconds = request.get("timeout") if seconds is None else seconds
    until = time.monotonic() + seconds + MARGIN if seconds else None
    line = connect(folder, min(CONNECT_SECONDS, seconds + MARGIN) if seconds else CONNECT_SECONDS)
    if line is None:
        raise away(folder)
    yield from _told(line, folder, request, seconds, until, json.dumps(request).encode() + b"\n", b"")


def asked(folder: str, request: dict[str, Any], begun_: Begun | None) -> Iterator[dict[str, Any]]:
    """The supervisor's answers to asks, which may be begun. Those under keys are asked again if it ends before it answers."""
    again, answers = Again(request), begun(folder, request, begun_) if begun_ else call(folder, request)
    while True:
        try:
            for answer in answers:
                again.note(answer)
                yield answer
            return
        except Fault as fault:
            again.look_at(fault)
        time.sleep(AGAIN_SECONDS)
        answers = call(folder, again.request)


class Again:
    """What is left of a request of asks that is made again as long as it has time, if all of them have keys: each is accepted once."""

    def __init__(self, request: dict[str, Any]) -> None:
        self.request, self.until = request, time.monotonic() + request["timeout"]
        self.ended: Ended | None = None

    def note(self, answer: dict[str, Any]) -> None:
        """The first ask that is left is answered."""
        if "record" in answer and self.request.get("keys"):
            self.request = self.request | {name: self.request[name][1:] for name in ("records", "keys")}

    def look_at(self, fault: Fault) -> None:
        """Raises the fault if the rest can't be asked again. While there is no supervisor, it is still the first one's that it ended."""
        if isinstance(fault, Ended) and all(self.request.get("keys") or [None]) and not any(text.startswith("pass,") for text in self.request["records"]):
            self.ended = self.ended or fault
        if not self.ended or time.monotonic() > self.until:
            raise self.ended or fault
        self.request = self.request | {"timeout": left(self.until)}


def begun(folder: str, request: dict[str, Any], begun: Begun) -> Iterator[dict[str, Any]]:
    """The rest of the answers to a request that was begun."""
    file, come, _, until = begun
    return _told(socket.socket(fileno=file), folder, request, request["timeout"], until, b"", come)


def _told(line: socket.socket, folder: str, request: dict[str, Any], seconds: float | None, until: float | None, unsent: bytes,
          come: bytes) -> Iterator[dict[str, Any]]:
    """What a supervisor answers over a connection, of which something has come."""
    with line, line.makefile("rb") as answers:
        try:
            line.settimeout(left(until) if until else None)
            if unsent:
                line.sendall(unsent)
            for text in _lines_of(answers, come):
                answer = json.loads(text)
                yield answer
                if answer.get("end"):
                    return
                line.settimeout(left(until) if until else None)
        except TimeoutError:
            raise Fault(Status.AWAY, f"the supervisor of {folder} gave no answer within {round(seconds or 0, 2):g} s{unanswered(request)}") from None
        except OSError:
            pass
    raise Ended(Status.AWAY, f"the supervisor of {folder} ended before it answered{unanswered(request) or ' (shop log)'}")


def _lines_of(file: IO[bytes], come: bytes) -> Iterator[bytes]:
    """The lines behind what has come of them; not a torn one at their end."""
    *lines, rest = come.split(b"\n")
    yield from lines
    while (line := rest + file.readline()).endswith(b"\n"):
        yield line
        rest = b""


def away(folder: str) -> Fault:
    """That the shop in a folder has no supervisor that could be reached."""
    if not os.path.isdir(folder):
        return Fault(Status.AWAY, f"{folder}: there is no shop (-C FOLDER names its folder, and shop start begins one)")
    if not os.access(folder, os.X_OK):
        return Fault(Status.AWAY, f"{folder}: this user may not use it")
    from .settings import lost      # not before it is needed: it takes a quarter of the time of a command
    holder = holder_of(folder)
    if not holder and (why_lost := lost(folder)):
        return Fault(Status.AWAY, why_lost)
    why = f"takes no requests: {holder} holds it, which is about to begin or to end" if holder else "is not running (shop start)"
    return Fault(Status.AWAY, f"{folder} {why}")


def left(until: float) -> float:
    """The seconds until then."""
    return max(until - time.monotonic(), 0.001)


def one(folder: str, request: dict[str, Any], seconds: float | None = None) -> dict[str, Any]:
    """The last answer to one request; its fault is raised."""
    answer: dict[str, Any] = {}
    for answer in call(folder, request, seconds):
        pass
    raise_fault(answer)
    return answer


def member(answer: dict[str, Any], name: str) -> Any:
    """What an answer says; a Fault if it doesn't, as one of another machine with another version of shop."""
    if name not in answer:
        raise Fault(Status.AWAY, f"the answer has no `{name}`: the machine that gave it has another version of shop (shop --version)")
    return answer[name]


def raise_fault(answer: dict[str, Any]) -> None:
    if "fault" in answer:
        raise Fault(Status(answer["status"]), answer["fault"])
