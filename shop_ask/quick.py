"""Asks of a few records and their plain answers, without what takes time to load: argparse, json, socket. Whatever else an ask may be, or
may come to, is left to `shop_tool`, which then does all of it, or goes on from the answer that isn't plain."""

import os
import sys
import time

import _socket

try:
    import _json
    IS_COMPLETE = True
except ImportError:
    IS_COMPLETE = False     # this Python has no such part, and all is left to shop_tool

CONNECT_SECONDS = 5.0
MARGIN = 2.0        # seconds beyond its time-out that a request has, since the supervisor knows more of it when that is over
SECONDS = 10.0      # its time-out, if no other is said
KEY_BYTES = 255     # how long a key is at most
PIECE = 1 << 16

# What was begun: the connection, what has come of the answers to it that aren't printed, how many are, and until when it waits.
Begun = tuple[int, bytes, int, float]


class Reading:
    """How texts of JSON are read, as the library has it."""

    strict = True
    object_hook = object_pairs_hook = None
    parse_int, parse_float, parse_constant = int, float, float


def plan_of(words: list[str]) -> tuple[str, bytes, float] | None:
    """The folder, the request and the time-out that these words of a command line say; None if they are for another reader."""
    folder, seconds, options, rest = os.environ.get("SHOP", "shop"), SECONDS, set(), []
    key: str | None = None
    at = iter(words)
    word = next(at, "")
    if word == "-C":
        folder, word = next(at, ""), next(at, "")
    if word != "ask":
        return None
    for word in at:
        if word in ("--no-wait", "--published"):
            options.add(word)
        elif word in ("--timeout", "--key"):
            value = next(at, "-")
            if value.startswith("-"):
                return None
            if word == "--key":
                key = value
                continue
            try:
                seconds = float(value)
            except ValueError:
                return None
        elif word.startswith("-"):
            return None
        else:
            rest.append(word)
    if len(rest) < 2 or not (rest[0].isascii() and rest[0].isdecimal() and len(rest[0]) < 10) or not 0 < seconds < 1e6 or not folder:
        return None
    if key is not None and (len(rest) > 2 or not (0 < len(key) <= KEY_BYTES and key.isascii() and key.isprintable())):
        return None
    return folder, request_of(int(rest[0]), rest[1:], seconds, key, options), seconds


def request_of(site: int, records: list[str], seconds: float, key: str | None, options: set[str]) -> bytes:
    """The line that asks a site these records, the only one of them under this key."""
    said = ", ".join(map(text_of, records))
    fetch, published = (str(is_so).lower() for is_so in ("--no-wait" not in options, "--published" in options))
    keys = "" if key is None else f', "keys": [{text_of(key)}]'
    return (f'{{"op": "ask", "site": {site}, "records": [{said}], "timeout": {seconds!r}, "fetch": {fetch}, "published": {published}{keys}}}\n'
            ).encode()


def text_of(word: str) -> str:
    """A word of the command line as a text of JSON."""
    return _json.encode_basestring_ascii(os.fsencode(word).decode("utf-8", "surrogateescape"))


def connected(folder: str, seconds: float) -> "_socket.socket | None":
    """A connection to the supervisor of a shop; None where there is none at once."""
    try:
        # A socket's path has at most 107 bytes, so the folder is named by a number.
        number = os.open(folder, os.O_PATH | os.O_DIRECTORY)
    except OSError:
        return None
    line = _socket.socket(_socket.AF_UNIX)
    try:
        line.settimeout(min(CONNECT_SECONDS, seconds + MARGIN))
        line.connect(f"/proc/self/fd/{number}/sock")
        return line
    except OSError:
        line.close()
        return None
    finally:
        os.close(number)


def asked(words: list[str]) -> Begun | None:
    """Asks what these words of a command line say, prints the answers, and ends the process, if all are plain. Else what was begun; or
    None if nothing was."""
    if not IS_COMPLETE or sys.stdout is None or (plan := plan_of(words)) is None:
        return None
    folder, request, seconds = plan
    if (line := connected(folder, seconds)) is None:
        return None
    scan, until, come, answered = _json.make_scanner(Reading), time.monotonic() + seconds + MARGIN, b"", 0      # type: ignore[arg-type]
    try:
        line.sendall(request)
        while data := line.recv(PIECE):
            come += data
            while (end := come.find(b"\n")) >= 0:
                answer = scan(come[:end].decode(), 0)[0]
                if answer == {"end": True}:
                    os._exit(0)
                if not is_printed(answer):
                    return line.detach(), come, answered, until
                answered += 1
                come = come[end + 1:]
            line.settimeout(max(until - time.monotonic(), 0.001))
    except OSError:
        pass        # what came of it is told by shop_tool, which finds the same
    return line.detach(), come, answered, until


def is_printed(answer: dict[str, object]) -> bool:
    """Prints an answer, if it is plain: the ask was accepted."""
    lines = answer.get("lines")
    if not isinstance(lines, list) or (head := lines[0].split(",", 2)[2]).partition(",")[0] not in ("ok", "again", "passed"):
        return False
    text = head.replace("again", "ok").encode() + b"\n"
    return os.write(1, text) == len(text)
