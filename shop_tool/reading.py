"""list, show, tables and audit: what stands in a shop."""

import argparse
import json
import os
import subprocess
import sys
import threading
import time
from collections.abc import Callable
from typing import IO, Any

from . import client, program
from .ends import Fault, Status
from .carrier.records import COLUMNS, LISTINGS, NUMBERS, Purpose, Row, bytes_of, row_of, why_not_one_record
from .render import print_fields, print_rows

KEYS = {"items": ("their category", "7"), "bids": ("their item", "0.3"), "purchases": ("their item", "0.3"),
        "comments": ("the user to whom they are", "0.1")}
TELL_SECONDS = 2.0          # after which an audit says what it waits for
NULLS = ("best", "winner")      # columns in which `none` says that there is nothing


def listing(folder: str, site: int, record: str, seconds: float) -> list[Row]:
    """The rows of one listing of a site."""
    return [row_of(line) for line in client.member(client.one(folder, {"op": "list", "site": site, "record": record, "timeout": seconds}), "rows")]


def list_rows(args: argparse.Namespace) -> int:
    needs_key = args.what in KEYS
    if needs_key and args.key is None:
        key, example = KEYS[args.what]
        raise Fault(Status.MISUSE, f"{args.what} are listed by {key}, as in: shop list {args.site} {args.what} {example}")
    if args.key is not None and not needs_key:
        raise Fault(Status.MISUSE, f"list {args.what} takes no key, and {args.key[:40]!r} is one")
    record = ",".join(["list", args.what] + ([args.key] if needs_key else []))
    if why := why_not_one_record(os.fsencode(record), Purpose.LISTING):
        raise Fault(Status.MISUSE, f"{record[:80]!r}: {why}; nothing was asked")
    rows = listing(args.folder, args.site, record, args.timeout)
    if args.json:
        print(json.dumps([with_nulls(row) for row in rows], indent=1))
    else:
        print_rows(LISTINGS[args.what], rows)
    return Status.WELL


def show(args: argparse.Namespace) -> int:
    """Prints one row."""
    table = "nickname" if args.kind == "user" and "." not in args.key else args.kind
    answer = client.one(args.folder, {"op": "row", "site": args.site, "table": table, "key": args.key, "timeout": args.timeout})
    line = client.member(answer, "row")
    if line is None:
        raise Fault(Status.REFUSED, f"site {args.site} has no {args.kind} {args.key}")
    if args.json:
        print(json.dumps(with_nulls(row_of(line))))
    else:
        print_fields(row_of(line))
    return Status.WELL


def tables(args: argparse.Namespace) -> int:
    """Prints all tables of a site as SQL that sqlite3 and psql read."""
    rows = listing(args.folder, args.site, "list,tables", args.timeout)
    print("BEGIN;")
    for kind, names in COLUMNS.items():
        if kind != "misfit":
            columns = ", ".join(f'"{name}" {"BIGINT" if name in NUMBERS else "TEXT"}' for name in names)
            print(f'DROP TABLE IF EXISTS "{kind}";\nCREATE TABLE "{kind}" ({columns}, PRIMARY KEY ("{names[0]}"));')
    for row in rows:
        print(f'INSERT INTO "{row["kind"]}" VALUES ({", ".join(_sql(name, row[name]) for name in COLUMNS[str(row["kind"])])});')
    print("COMMIT;")
    return Status.WELL


def with_nulls(row: Row) -> dict[str, Any]:
    """A row as JSON has it: null where there is nothing."""
    return {name: None if name in NULLS and value == "none" else value for name, value in row.items()}


def _sql(name: str, value: int | str) -> str:
    if isinstance(value, int):
        return str(value)
    return "NULL" if name in NULLS and value == "none" else "'" + value.replace("'", "''") + "'"


def audit(args: argparse.Namespace) -> int:
    """Audits the logs of all sites, with logs of earlier audits if there are some."""
    verdict = audited(args.folder, args.timeout, args.save, args.logs or [], lambda text: print(f"shop: {text}", file=sys.stderr, flush=True))
    print(json.dumps(verdict_of(verdict)) if args.json else verdict)
    return Status.WELL if verdict == "audit,Agree" else Status.REFUSED


def verdict_of(line: str) -> dict[str, Any]:
    """What the auditor said, by its parts."""
    _, name, *places = line.split(",")
    return {"verdict": name, "agrees": name == "Agree"} | dict(zip(("record",) if name == "BadRecord" else ("log", "entry"), map(int, places)))


class Waiting:
    """Says what is waited for, where that takes long, and ends a process when the time is over."""

    def __init__(self, process: "subprocess.Popen[bytes]", seconds: float, tell: Callable[[str], None]) -> None:
        self.what, self.is_over = "", False
        self._process, self._tell = process, tell
        self._timers = [threading.Timer(min(TELL_SECONDS, seconds), self._say), threading.Timer(seconds, self._end)]

    def __enter__(self) -> "Waiting":
        for timer in self._timers:
            timer.daemon = True
            timer.start()
        return self

    def __exit__(self, *_: object) -> None:
        for timer in self._timers:
            timer.cancel()

    def _say(self) -> None:
        self._tell(f"the audit waits for {self.what}")

    def _end(self) -> None:
        self.is_over = True
        self._process.kill()


def audited(folder: str, seconds: float, save: str | None, earlier: list[str], tell: Callable[[str], None] = lambda text: None) -> str:
    """What the auditor says of the logs of all sites."""
    until = time.monotonic() + seconds
    sites = client.one(folder, {"op": "status"}, seconds)["shop"]["sites"]
    auditor = subprocess.Popen([program.path(), "audit", "--sites", str(sites)], stdin=subprocess.PIPE, stdout=subprocess.PIPE)
    assert auditor.stdin and auditor.stdout
    saved = open(f"{save}.new", "wb") if save else None
    try:
        with Waiting(auditor, client.left(until), tell) as waiting:
            waiting.what = "the log of site 0"
            for name in earlier:
                with open(name, "rb") as file:
                    _give(auditor.stdin, file.read())
            for number, answer in enumerate(client.call(folder, {"op": "logs", "timeout": client.left(until)}), 1):
                client.raise_fault(answer)
                text = bytes_of(answer.get("text", ""))
                waiting.what = f"the log of site {number}" if number < sites else "the auditor"
                _give(auditor.stdin, text)
                if saved:
                    saved.write(text)
            _give(auditor.stdin, b"", is_last=True)
            verdict = auditor.stdout.read().decode().strip()
            status = auditor.wait()
    except BaseException:
        auditor.kill()
        raise
    if waiting.is_over:
        raise Fault(Status.AWAY, f"the auditor gave no answer within {round(seconds, 2):g} s (--timeout)")
    if status or not verdict.startswith("audit,"):
        raise Fault(Status.REFUSED, f"the auditor said {verdict[:80]!r}, and ended with status {status}")
    if saved:
        saved.close()
        os.rename(f"{save}.new", str(save))
    return verdict


def _give(auditor: IO[bytes], text: bytes, is_last: bool = False) -> None:
    try:
        auditor.write(text)
        if is_last:
            auditor.close()
    except BrokenPipeError:
        pass        # the auditor ended early, and its status says so
