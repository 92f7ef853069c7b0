"""Runs from logs: the input of `rubis audit`, or what a world's sites listed."""

from collections.abc import Iterable

from shop_tool.grid import GridRow

from .divergences import Log, divergence_of
from .messages import Fault, Fields, Message, Messages, number_at
from .run import Event, Kind, Lane, Run, in_order


def logs_of(records: Iterable[Fields]) -> list[Log]:
    """The logs of an audit's input."""
    logs: list[Log] = []
    messages = Messages()
    for fields in records:
        if fields[0] == "site" and len(fields) == 2:
            logs.append(Log(number_at(fields, 1), []))
        elif fields[0] == "msg" and logs:
            logs[-1].messages.append(messages.read(fields))
        elif fields[0] != "row" or not logs:
            raise Fault(f"no record of an audit: {','.join(fields)[:80]}")
    return logs


def listed_logs(rows: Iterable[Fields]) -> list[Log]:
    """The last log that each site of a world listed, from the world's answers."""
    logs: dict[int, list[Message]] = {}
    messages = Messages()
    for fields in rows:
        if fields[2:4] == ["row", "log"] and len(fields) > 5:
            site = number_at(fields, 1)
            if fields[4] == "1":
                logs[site] = []
            logs.setdefault(site, []).append(messages.read(fields[5:]))
    if not logs:
        raise Fault("answers of a world without its records: give both, or list each site's log (at,SITE,list,log)")
    return [Log(site, found) for site, found in sorted(logs.items())]


def run_of_logs(logs: list[Log], verdict: str = "") -> Run:
    """Each log is a lane. A message is made where its own site's log has it, else where it stands first."""
    sites = [log.site for log in logs]
    lanes = [Lane(log.site, f"site {log.site}" + (f", log {at}" if sites.count(log.site) > 1 else "")) for at, log in enumerate(logs, 1)]
    homes = _homes(logs)
    entries = [
        [Event(lane, Kind.MADE if homes[m] == (lane, at) else Kind.RELEASED, m, place=at + 1) for at, m in enumerate(log.messages)]
        for lane, log in enumerate(logs)]
    for event in (event for row in entries for event in row if event.kind is Kind.RELEASED):
        assert event.message
        lane, at = homes[event.message]
        event.after.append(entries[lane][at])
    counted = max((len(message.deps) for message in homes), default=0)
    run = Run(max([counted, *(site + 1 for site in sites)]), lanes, in_order(entries))
    run.rows = _rows(logs, run.sites)
    run.divergence = divergence_of(logs, entries, verdict)
    return run


def _homes(logs: list[Log]) -> dict[Message, tuple[int, int]]:
    homes: dict[Message, tuple[int, int]] = {}
    for is_own in (True, False):
        for lane, log in enumerate(logs):
            for at, message in enumerate(log.messages):
                if (log.site == message.origin) is is_own:
                    homes.setdefault(message, (lane, at))
    return homes


def _rows(logs: list[Log], sites: int) -> list[GridRow]:
    """What each site has, by its longest log."""
    longest: dict[int, Log] = {}
    for log in logs:
        if log.site not in longest or len(log.messages) > len(longest[log.site].messages):
            longest[log.site] = log
    rows = []
    for site, log in sorted(longest.items()):
        has = [0] * sites
        for message in log.messages:
            has[message.origin] += 1
        rows.append(GridRow(site, tuple(has)))
    return rows
