"""ask and pass: what users and operators ask of a site."""

import argparse
import json
import os
import sys
from collections.abc import Iterator
from typing import Any

from shop_ask.quick import Begun

from . import client
from .carrier.records import BYTES_OF_A_RECORD, COLUMNS, KEY_BYTES, REFUSALS, bare, bytes_of, is_key, row_of, text_of, why_not_one_record
from .carrier.told import is_not_known
from .ends import Fault, Status
from .render import shown

PIECE = 1000        # how many records of standard input are asked by one request
EXPLAINED = 20      # how many records outside the grammar are explained, of one command or request: each takes a process


def ask(args: argparse.Namespace) -> int:
    """Asks a site, and prints each answer as it comes."""
    if not args.records:
        raise Fault(Status.MISUSE, "there is no record to ask")
    if args.retry:
        args.keys = os.urandom(12).hex()
    begun: Begun | None = getattr(args, "begun", None)
    printer = Printer(args, begun[2] if begun else 0)
    given = [[os.fsencode(record) for record in args.records]] if args.records != ["-"] else _pieces_of(sys.stdin.fileno())
    try:
        for records in given:
            request = _request(args, records, 0 if begun else printer.count)
            for answer in client.asked(args.folder, request, begun):
                client.raise_fault(answer)
                if not answer.get("end"):
                    printer.show(client.member(answer, "record"), client.member(answer, "lines"))
    except Fault as fault:
        raise Fault(fault.status, fault.text + _how_far(args, printer.count, fault)) from None
    return printer.status


def _request(args: argparse.Namespace, records: list[bytes], before: int) -> dict[str, Any]:
    """The request that asks some records, behind others."""
    for number, record in enumerate(records, before + 1):
        if why := why_not_one_record(record):
            where = f"line {number}: " if args.records == ["-"] else ""
            raise Fault(Status.MISUSE, f"{where}{text_of(record[:80])!r}: {why}; {asked_before(before)}")
    request = {
        "op": "ask", "site": args.site, "records": [text_of(record) for record in records], "timeout": args.timeout,
        "fetch": not args.no_wait, "published": args.published}
    if args.key is not None:
        if before + len(records) > 1:
            raise Fault(Status.MISUSE, "--key is for one record; --keys gives each of several its own; nothing was asked")
        request["keys"] = [args.key]
    if args.keys is not None:
        request["keys"] = [f"{args.keys}.{number}" for number in range(before + 1, before + 1 + len(records))]
    if "keys" in request and not is_key(os.fsencode(key := request["keys"][-1])):
        raise Fault(Status.MISUSE, f"{key[:80]!r}: a key has 1 to {KEY_BYTES} printable ASCII characters; {asked_before(before)}")
    return request


def asked_before(before: int) -> str:
    """What is said where a record isn't asked, behind others or none."""
    return "nothing more was asked" if before else "nothing was asked"


def _how_far(args: argparse.Namespace, answered: int, fault: Fault) -> str:
    """How far an ask came that was cut, and how it goes on by its keys."""
    told = f" (answered: the first {answered})" if answered else ""
    if args.keys is None or fault.status == Status.MISUSE or not (answered or args.retry and is_not_known(fault.text)):
        return told
    return f"{told}; the same command {f'with --keys {args.keys} in place of --retry' if args.retry else 'again'} goes on"


def _pieces_of(file: int) -> Iterator[list[bytes]]:
    """The lines of a file as they come, some at a time."""
    rest = b""
    while data := os.read(file, 1 << 16):
        *lines, rest = (rest + data).split(b"\n")
        lines = [line.removesuffix(b"\r") for line in lines]
        yield from (lines[at:at + PIECE] for at in range(0, len(lines), PIECE))
        if len(rest) > BYTES_OF_A_RECORD:
            break
    if rest:
        yield [rest]


class Printer:
    """Prints answers as the options want them: in words, as the site's own lines, or as JSON, an object a line."""

    def __init__(self, args: argparse.Namespace, printed: int) -> None:
        self.show = self._raw if args.raw else self._json if args.json else self._plain
        self.folder = args.folder
        self.status = Status.WELL
        self.count = printed
        self.explained = 0

    def _noted(self, lines: list[str]) -> list[str]:
        head = lines[0].split(",")
        self.count += 1
        if head[2] == "refused":
            self.status = Status.REFUSED
        return head

    def _raw(self, record: str, lines: list[str]) -> None:
        self._noted(lines)
        print("\n".join(lines), flush=True)

    def _plain(self, record: str, lines: list[str]) -> None:
        head = self._noted(lines)
        if head[2] == "rows":
            print("".join(f"{line[4:]}\n" for line in lines[1:]), end="", flush=True)
            return
        print(",".join(head[2:] if head[2] != "again" else ["ok", *head[3:]]), flush=True)
        if head[2] == "refused":
            print(f"shop: {shown(record)}: {shown(self._meaning(head[4], record))}", file=sys.stderr)

    def _meaning(self, refusal: str, record: str) -> str:
        if refusal != "BadRecord" or self.explained == EXPLAINED:
            return REFUSALS.get(refusal, refusal)
        self.explained += 1
        from . import reasons, settings
        try:
            return reasons.meaning_of(refusal, record, settings.existing(self.folder).sites)
        except (Fault, OSError):
            return REFUSALS[refusal]        # somebody else's shop

    def _json(self, record: str, lines: list[str]) -> None:
        head = self._noted(lines)
        said: dict[str, Any] = {"record": record, "answer": head[2]}
        match head[2]:
            case "refused":
                said |= {"code": int(head[3]), "refusal": head[4], "meaning": self._meaning(head[4], record)}
            case "ok":
                said |= {"id": head[3], "message": text_of(bare(bytes_of(lines[1][5:])))}
            case "again":
                said |= {"answer": "ok", "id": head[3], "again": True}
            case "rows":
                from .reading import with_nulls
                said["rows"] = [with_nulls(row_of(line)) if line.split(",")[1] in COLUMNS else line[4:] for line in lines[1:]]
        print(json.dumps(said), flush=True)


def pass_token(args: argparse.Namespace) -> int:
    """Hands the token on by hand; asks fetch it by themselves."""
    args.records, args.json, args.raw, args.no_wait, args.published = [f"pass,{args.to}"], False, False, True, False
    args.key = args.keys = args.retry = None
    return ask(args)
