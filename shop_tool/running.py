"""start, run, stop, status, log, wait: the life of a shop."""

import argparse
import collections
import json
import os
import re
import select
import socket
import sys
import time
from collections.abc import Iterable
from typing import Any

from . import client, lock, program, settings
from .carrier.answers import AnswerReader, KeptReader
from .ends import Fault, Status
from .grid import grid_of_status, grid_text
from .carrier.records import fields_of, text_of
from .render import GREEN, RED, YELLOW, coloured, columns, shown

STARTED_BY_OPTIONS = ("sites", "here", "over", "sync", "keep", "batch", "shards", "workers", "standby", "after")
STOP_SECONDS = 60.0


def said_settings(args: argparse.Namespace) -> dict[str, Any]:
    return {name: value for name in STARTED_BY_OPTIONS if (value := getattr(args, name)) is not None}


def reached(folder: str) -> socket.socket | None:
    """A connection to the shop's supervisor, or None if there is none. One that begins or ends is given some seconds."""
    until = time.monotonic() + lock.SECONDS
    while not (line := client.connect(folder)) and (holder := lock.holder_of(folder)):
        if time.monotonic() > until:
            raise Fault(Status.AWAY, f"{folder}: {holder} holds it, and takes no requests; if it hangs, kill it")
        time.sleep(0.05)
    return line


def start(args: argparse.Namespace) -> int:
    """Starts the supervisor in the background, and returns once the sites are up."""
    before, now = settings.read(args.folder), settings.changed(args.folder, said_settings(args))
    if reached(args.folder):
        if said_settings(args) and now != settings.read(args.folder):
            raise Fault(Status.MISUSE, f"{args.folder} is running with other settings; stop it first")
        print(f"shop: {args.folder} is running", file=sys.stderr)
        return Status.WELL
    found = _checked(args.folder, now)
    options = [*["--alone"] * args.alone, *["--upgrade"] * args.upgrade]
    status, _, said = _started(args.folder, now, found, args.timeout, options).partition(" ")
    if status == str(int(Status.WELL)):
        return Status.WELL
    if said and _has_failed(args.folder):
        _stopped(args.folder)
        settings.put_back(args.folder, before)
        raise Fault(Status.AWAY, f"{said}; it is stopped again (shop log)")
    raise Fault(Status(int(status or Status.AWAY)), f"{said or 'the supervisor is starting still, or has ended'} (shop log)")


def _has_failed(folder: str) -> bool:
    """Whether none of the sites here can be started. Where some run, or are only stopped for good, the others go on."""
    sites = client.one(folder, {"op": "status"}, STOP_SECONDS)["shop"]["site"]
    here = [site["state"] for site in sites if "starts" in site]
    return bool(here) and all(state in ("down", "starting") for state in here)


def _checked(folder: str, now: settings.Settings) -> str:
    """The program, once it is known that the shop can have these settings; they are written when it runs."""
    found = program.checked_path()
    settings.check_new(folder, now, found)
    if now.over != settings.FILES and now != settings.read(folder):
        from .streams import check_count
        check_count(now, folder)
    os.makedirs(folder, mode=0o700, exist_ok=True)
    return found


def _started(folder: str, now: settings.Settings, found: str, seconds: float, options: list[str]) -> str:
    """Runs `shop run` in a session of its own, with these settings on its standard input, since a password on a command line would be
    seen. What it says once each site is up, or isn't: the status, and what is said."""
    get, put = os.pipe()
    settings_in, handed = os.pipe()
    os.write(handed, settings.to_text(now).encode())
    os.close(handed)
    if os.fork() == 0:
        os.setsid()
        os.close(get)
        os.set_inheritable(put, True)
        events = os.open(f"{folder}/events", os.O_WRONLY | os.O_CREAT | os.O_APPEND, 0o600)
        for number, file in enumerate((settings_in, events, events)):
            os.dup2(file, number)
        environment = os.environ | {"SHOP_READY": str(put), "RUBIS": found}
        os.execve(sys.executable, [sys.executable, os.path.realpath(sys.argv[0]), "run", folder, *options], environment)
    os.close(put)
    os.close(settings_in)
    said = b""
    while not said.endswith(b"\n") and select.select([get], [], [], seconds)[0]:
        if not (data := os.read(get, 4096)):
            break
        said += data
    os.close(get)
    return said.decode("utf-8", "replace").strip()


def run(args: argparse.Namespace) -> int:
    """Runs the supervisor in the foreground, until it is stopped."""
    if "SHOP_READY" in os.environ:
        now, found = settings.from_text(sys.stdin.read()), program.path()
    else:
        now = settings.changed(args.folder, said_settings(args))
        found = _checked(args.folder, now)
    from . import supervisor
    supervisor.run(args.folder, now, found, args.alone, args.upgrade)
    return Status.WELL


def stop(args: argparse.Namespace) -> int:
    """Stops the sites, once what they were given is answered, and then the supervisor."""
    if not os.path.isdir(args.folder):
        raise Fault(Status.MISUSE, f"{args.folder}: there is no shop")
    if not _stopped(args.folder):
        print(f"shop: {args.folder} is not running", file=sys.stderr)
    return Status.WELL


def _stopped(folder: str) -> bool:
    """Stops a shop, and returns once its supervisor has ended; False if it wasn't running."""
    line = reached(folder)
    if not line:
        return False
    holder, until = lock.holder_of(folder), time.monotonic() + STOP_SECONDS
    with line:
        line.settimeout(STOP_SECONDS)
        try:
            line.sendall(b'{"op": "stop"}\n')
            for answer in map(json.loads, line.makefile("rb")):
                client.raise_fault(answer)
                print(f"shop: {answer['said']}", file=sys.stderr)
        except OSError:
            pass
    while holder and lock.holder_of(folder) == holder:
        if time.monotonic() > until:
            raise Fault(Status.AWAY, f"{folder} has not ended within {STOP_SECONDS:g} s: {holder} holds it")
        time.sleep(0.01)
    return True


def status(args: argparse.Namespace) -> int:
    answer = client.one(args.folder, {"op": "status"}, args.timeout)
    shop = answer["shop"]
    if args.json:
        print(json.dumps(shop | {"well": answer["well"]}, indent=1))
    else:
        _print_status(shop)
    return Status.WELL if answer["well"] else Status.REFUSED


def _print_status(shop: dict[str, Any]) -> None:
    print(f"{shown(shop['folder'])}: {shop['sites']} sites over {shop['over']}, process {shop['pid']}, up since {shop['since']}")
    if shop["link"] != "up":
        print(f"link: {coloured(shown(shop['link']), RED)}")
    token = f"site {shop['token']} holds it" if shop["token"] is not None else f"was passed to site {shop['token_sent_to']}"
    wanted = shop["token_wanted_by"]
    print(f"token: {token} (turn {shop['token_turn']})" + (f", wanted by {', '.join(map(str, wanted))}" if wanted else ""))
    if shop["standby"]:
        print(f"standby for site {', '.join(map(str, shop['standby']))}, once it has been gone for {shop['after']:g} s")
    rows = [["site", "state", "since", "records", "messages", "behind", "sent", "waiting", "starts", "last fault"]]
    for site in shop["site"]:
        if "since" not in site:
            rows.append([str(site["site"]), site["state"], *"-" * 8])
            continue
        behind = " ".join(f"{origin}:{count}" for origin, count in site["behind"].items() if count)
        rows.append([
            str(site["site"]), state_text(site), site["since"], str(site["records"]), str(site["messages"]), behind or "-",
            f"{site['published']}/{site['sent']}", str(site["waiting"]), str(site["starts"]), site["fault"] or "-"])
    colours = {"up": GREEN} | dict.fromkeys(["starting", "waiting", "away"], YELLOW)
    print(columns(rows, colours | dict.fromkeys(["down", "fenced", "ended", "full", "silent"], RED)), end="")
    grid = grid_of_status(shop)
    if shop["sites"] > 1 and grid.columns:
        print(f"\n{grid_text(grid)}", end="")


def state_text(site: dict[str, Any]) -> str:
    """How a site is: one that is up may be full, or not answer what it was given."""
    if site["state"] != "up":
        return str(site["state"])
    return "silent" if site.get("silent") else "full" if site.get("full") else "up"


def log(args: argparse.Namespace) -> int:
    """Prints what happened, or a site's records and answers; with --follow also what comes."""
    if args.follow:
        return _follow(args)
    _print_lines(args, _last_lines(args, sys.maxsize))
    return Status.WELL


def _follow(args: argparse.Namespace) -> int:
    """Prints the last lines that stood there when the supervisor began to tell what comes, and then that: none twice, none left out."""
    for answer in client.call(args.folder, {"op": "follow", "site": args.site}):
        client.raise_fault(answer)
        if "stood" in answer:
            _print_lines(args, _last_lines(args, answer["stood"]))
        else:
            _print_lines(args, [answer["line"]])
    return Status.WELL


def _print_lines(args: argparse.Namespace, lines: Iterable[str]) -> None:
    for line in lines:
        print(json.dumps(said_by(line)) if args.json else line if args.raw else shown(line))
    sys.stdout.flush()


def said_by(line: str) -> dict[str, Any]:
    """What a line of the events, or of a site's records and answers, says: when, and what; a record or an answer by its fields."""
    at, _, text = line.partition(" ") if line[:1].isdigit() else ("", "", line)
    said: dict[str, Any] = {"at": at or None}
    if text[:2] in ("< ", "> "):
        return said | {"is": "asked" if text[0] == "<" else "answered", "fields": fields_of(text[2:])}
    about, _, rest = text.partition(": ")
    return said | {"site": int(about[5:]) if re.fullmatch("site [0-9]+", about) else None, "text": shown(rest if about.startswith("site ") else text)}


def _last_lines(args: argparse.Namespace, stood: int) -> "collections.deque[str]":
    """The last lines of the first bytes of the file `events`, or of a site's file `out`, that many."""
    return _last_events(args, stood) if args.site is None else _last_answers(args, stood)


def _last_events(args: argparse.Namespace, stood: int) -> "collections.deque[str]":
    last: collections.deque[str] = collections.deque((), min(args.lines, sys.maxsize))
    try:
        with open(f"{args.folder}/events", "rb") as events:
            for line in events:
                stood -= len(line)
                if stood < 0:
                    break
                last.append(line.decode("utf-8", "replace").rstrip("\n"))
    except FileNotFoundError:
        raise Fault(Status.AWAY, f"{args.folder}: there is no shop (shop start)") from None
    return last


def _last_answers(args: argparse.Namespace, stood: int) -> "collections.deque[str]":
    last: collections.deque[str] = collections.deque((), min(args.lines, sys.maxsize))
    folder = f"{args.folder}/{args.site}"
    reader = AnswerReader()
    try:
        with open(f"{folder}/kept", "rb") as kept, open(f"{folder}/out", "rb") as out:
            records = KeptReader(kept.readline)
            while data := out.read(min(1 << 20, stood)):
                stood -= len(data)
                for answer in reader.feed(data):
                    last.append("< " + text_of(records.next()[0]))
                    last.extend("> " + text_of(line) for line in answer.lines)
    except FileNotFoundError:
        raise Fault(Status.AWAY, f"site {args.site} doesn't run in {args.folder}") from None
    except (ValueError, IndexError) as fault:
        _print_lines(args, last)
        raise Fault(Status.REFUSED, f"{folder}/out was changed: {fault}") from None
    return last


def wait(args: argparse.Namespace) -> int:
    client.one(args.folder, {"op": "wait", "site": args.site, "timeout": args.timeout})
    return Status.WELL
