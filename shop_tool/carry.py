"""carry: users, open items and their bids of a shop that has reached its end become asks of a new one."""

import argparse
from collections import Counter
from typing import NamedTuple

from . import client, settings
from .ends import Fault, Status
from .folders import put
from .reading import audited, listing
from .render import confirmed
from .carrier.records import Row, line_of

PIECE = 1000
SECONDS = 600.0
MAP = "carried.csv"         # lines KIND,OLD,NEW
LOGS = "carried.logs"       # the logs of the old shop, as they were audited


class Plan(NamedTuple):
    """What is asked at site 0 of the new shop, which nobody else asks meanwhile: so the n-th ask becomes 0.n."""

    asks: list[str]
    ids: list[tuple[str, str, str]]     # of each ask: the kind, the old id, the new id
    left: Counter[str]                  # what isn't carried
    without_stock: list[str]            # open items that no ask can make

    def map_text(self) -> str:
        return "".join(f"{line_of(list(entry))}\n" for entry in self.ids)


def plan_of(rows: list[Row]) -> Plan:
    """Users by id, then open items by id, then their bids by red number, so that the winner of each is the same."""
    plan = Plan([], [], Counter(), [])
    new: dict[str, str] = {}

    def carry(row: Row, *fields: object) -> None:
        plan.asks.append(line_of([str(row["kind"]), *map(str, fields)]))
        new[str(row["id"])] = f"0.{len(plan.asks)}"
        plan.ids.append((str(row["kind"]), str(row["id"]), new[str(row["id"])]))

    kinds = ("user", "item", "bid", "purchase", "comment")
    of_kind: dict[str, list[Row]] = {kind: [row for row in rows if row["kind"] == kind] for kind in kinds}
    for user in of_kind["user"]:
        carry(user, user["nickname"])
        plan.left["users with ratings"] += user["comments"] != 0
    for item in of_kind["item"]:
        if item["state"] == "open" and item["stock"] != 0:
            carry(item, new[str(item["seller"])], item["name"], item["category"], item["stock"], item["start"], item["price"])
        elif item["state"] == "open":
            plan.without_stock.append(str(item["id"]))
        else:
            plan.left["closed sales"] += 1
    for bid in sorted(of_kind["bid"], key=lambda bid: int(bid["red"])):
        if str(bid["item"]) in new:
            carry(bid, new[str(bid["item"])], new[str(bid["bidder"])], bid["amount"])
        else:
            plan.left["bids on what isn't carried"] += 1
    plan.left["purchases"] = len(of_kind["purchase"])
    plan.left["comments"] = len(of_kind["comment"])
    return plan


def carry(args: argparse.Namespace) -> int:
    """Carries from OLD to NEW. A carry that was cut goes on where it was."""
    keep = settings.existing(args.new).keep
    rows = agreed_rows(args)
    plan = plan_of(rows)
    if len(plan.asks) > keep:
        raise Fault(Status.REFUSED, f"{len(plan.asks)} asks are too many for the sites of {args.new}, which keep {keep} messages; "
                    "nothing was carried")
    done = asked_before(args, plan)
    describe(args, plan, done)
    if not args.yes and not confirmed("Carry this?", "nothing was carried"):
        raise Fault(Status.REFUSED, "nothing was carried")
    if not done:
        put(f"{args.new}/{MAP}", plan.map_text())
    ask_rest(args.new, plan, done)
    if listing(args.old, args.site, "list,tables", SECONDS) != rows:
        raise Fault(Status.REFUSED, f"{args.old} was asked meanwhile; what it accepted since isn't in {args.new}")
    print(f"carried; {args.new}/{MAP} maps old ids to new ones")
    return Status.WELL


def agreed_rows(args: argparse.Namespace) -> list[Row]:
    verdict = audited(args.old, SECONDS, f"{args.new}/{LOGS}", [])
    if verdict != "audit,Agree":
        raise Fault(Status.REFUSED, f"{args.old}: {verdict}; nothing was carried")
    return listing(args.old, args.site, "list,tables", SECONDS)


def asked_before(args: argparse.Namespace, plan: Plan) -> int:
    """How many of the asks the new shop has accepted already, in an earlier run of this command."""
    has: int = client.member(client.one(args.new, {"op": "count", "site": 0, "timeout": SECONDS}), "count")
    try:
        with open(f"{args.new}/{MAP}") as file:
            before = file.read()
    except FileNotFoundError:
        before = ""
    if before and before != plan.map_text():
        raise Fault(Status.REFUSED, f"{args.old} has changed since {args.new}/{MAP} was written; nothing more was carried")
    if has > len(plan.asks) or has and not before:
        raise Fault(Status.REFUSED, f"{args.new} has messages of its own: carry into a new shop")
    return has


def describe(args: argparse.Namespace, plan: Plan, done: int) -> None:
    """Says what is carried and what isn't."""
    counts = Counter(kind for kind, _, _ in plan.ids)
    print(f"from {args.old} to {args.new}: {counts['user']} users, {counts['item']} open items, {counts['bid']} bids on them"
          + (f"; {done} of these {len(plan.asks)} are there already" if done else ""))
    left = ", ".join(f"{count} {what}" for what, count in plan.left.items() if count)
    print(f"left behind: {left or 'nothing'}")
    for item in plan.without_stock:
        print(f"left behind: item {item} is open and has no stock")


def ask_rest(new: str, plan: Plan, done: int) -> None:
    while done < len(plan.asks):
        piece = plan.asks[done:done + PIECE]
        for answer in client.call(new, {"op": "ask", "site": 0, "records": piece, "timeout": SECONDS, "fetch": True}):
            client.raise_fault(answer)
            if answer.get("end"):
                continue
            if answer["lines"][0].split(",")[2:] != ["ok", plan.ids[done][2]]:
                raise Fault(Status.REFUSED, f"{answer['record']}: {answer['lines'][0]}: was site 0 of {new} asked by others?")
            done += 1
