"""Random runs under random settings, which change no answer: batches, shards, workers, how the input comes, and how busy the processors are.

The runs are those of tests/cases.py, and the answers those of one worker with batches of one message and one shard, byte for byte."""

import collections
import dataclasses
import os
import pathlib
import random
import re
import subprocess
import sys
from collections.abc import Iterator, Sequence

import pytest

import workloads
from tests import cases
from tests.cases import Case
from tests.conftest import Extent
from tests.folder import Counted
from tests.needs import need
from tests.runs import Outcome, expect_same, run
from traffic import KINDS, RED, Dice, Message, Site

ALONE = ["--batch", "1", "--shards", "1", "--workers", "1"]
SITES, WORLDS, TEXTS, BUSY = 200, 50, 20, 60
SHARES = 4              # how many tests share these, which run beside each other
# How many bytes of a long text, and of a short one, are written to a pipe at once.
LONG_PIECES = [500, 4_096, 65_536, 100_000, 1_048_576]
SHORT_PIECES = [1, 2, 7, 64]


def settings(dice: Dice) -> list[str]:
    """Random batches, and several workers and shards."""
    return ["--batch", dice.one(["1", "2", "3", "7", "64", "65536"]), "--shards", str(1 + dice.below(64)), "--workers", str(2 + dice.below(15))]


def expect_as_alone(name: str, program: pathlib.Path, case: Case, more: list[str]) -> None:
    """With these settings it has the answers of one worker, whatever settings the case has."""
    def run_with(words: list[str], it: Case) -> Outcome:
        return run(program, dataclasses.replace(it, command=it.command + words))
    expect_same(name, dataclasses.replace(case, command=settled(case.command)), lambda it: run_with(more, it), lambda it: run_with(ALONE, it))


def settled(command: Sequence[str]) -> list[str]:
    """A command without what changes no answer."""
    return [word for before, word in zip(["", *command], command) if not {before, word} & {"--batch", "--shards", "--workers"}]


def dice_of(extent: Extent, what: str, default: int, share: int) -> Iterator[tuple[str, Dice]]:
    """The dice of each run of a share, with its name."""
    for number in range(share, extent.count(default), SHARES):
        yield f"{what}-{extent.seed}:{number}", Dice(f"{extent.seed} {what} {number}")


def answers(program: pathlib.Path, command: Sequence[str], records: Sequence[str], statuses: tuple[int, ...] = (0,)) -> str:
    text = "".join(f"{record}\n" for record in records)
    done = subprocess.run([program, *command], input=text.encode("latin-1"), capture_output=True)
    assert done.returncode in statuses, f"{command} ended with status {done.returncode}: {done.stderr!r}"
    return done.stdout.decode("latin-1")


@pytest.mark.parametrize("share", range(SHARES))
def test_site(share: int, program: pathlib.Path, extent: Extent, counted: Counted) -> None:
    for name, dice in dice_of(extent, "site", SITES, share):
        expect_as_alone(name, program, cases.network_case(dice, True), settings(dice))
        counted("random runs", 1)


@pytest.mark.parametrize("share", range(SHARES))
def test_world(share: int, program: pathlib.Path, extent: Extent, counted: Counted) -> None:
    """Audits agree; once all packets have come everywhere, all sites have the same tables; and audits, what lacks and widenings of their logs,
    whole and with a record left out or outside the grammar, say the same."""
    for name, dice in dice_of(extent, "world", WORLDS, share):
        net = cases.OddNetwork(dice, int(dice.one(["2", "3", "4", "7", "8", "16"])), None, dice.below(2) * 0.015, 0.0)
        records, sites = net.run(60 + dice.below(600)), len(net.sites)
        command = ["world", "--sites", str(sites)]
        sent = re.findall(r"^at,\d+,send,", answers(program, [*command, *ALONE], records), re.M)
        records += [f"deliver,{site},{packet}" for packet in range(1, len(sent) + 1) for site in range(sites)]
        records += [*(f"at,{site},list,tables" for site in range(sites)), "audit"]
        expect_as_alone(name, program, Case(command, [f"{record}\n".encode("latin-1") for record in records]), settings(dice))
        said = answers(program, [*command, *ALONE], records).splitlines()
        audits = [line for line in said if line.startswith("audit")]
        assert set(audits) == {"audit,Agree"}, f"{name}: {audits}"
        tables = tables_of(said, sites)
        assert all(rows == tables[0] for rows in tables), f"{name}: the sites' tables differ at the end"
        messages = [line.split(",send,", 1)[1] for line in said if ",send,msg," in line]
        expect_audits(name, program, dice, [record for site in range(sites) for record in (f"site,{site}", *messages, *tables[0])], sites)
        counted("random runs", 1)


def tables_of(said: list[str], sites: int) -> list[list[str]]:
    """What each site lists last."""
    tables = []
    for site in range(sites):
        front = f"at,{site},"
        at = max(place for place, line in enumerate(said) if line.startswith(f"{front}reply,") and ",rows," in line)
        rows = int(said[at].rsplit(",", 1)[1])
        tables.append([line.removeprefix(front) for line in said[at + 1:at + 1 + rows]])
    return tables


def expect_audits(name: str, program: pathlib.Path, dice: Dice, logs: list[str], sites: int) -> None:
    lost = 1 + dice.below(len(logs) - 1)
    for records in (logs, logs[:lost] + logs[lost + 1:], [*logs, "token,1,1,0,0"]):
        to = sites + dice.below(17 - sites)
        widened = answers(program, ["widen", "--sites", str(sites), "--to", str(to)], records).splitlines()
        said = answers(program, ["audit", "--sites", str(sites)], records)
        lacks = answers(program, ["lack", "--sites", str(sites)], records, (0, 1))
        assert "audit" not in lacks if said == "audit,Agree\n" else lacks == said, f"{name}: {said!r}, and what lacks: {lacks!r}"
        if said.startswith("audit,BadRecord,"):
            assert widened[-1] == said.strip().replace("audit", "widen", 1), f"{name}: a bad record isn't the last that is widened"
        else:
            assert answers(program, ["audit", "--sites", str(to)], widened) == said, f"{name}: an audit of what was widened says otherwise"


def written(dice: Dice, record: str, end: str) -> str:
    """A record as text, with some of its fields in quotes."""
    if '"' in record:
        return record + end
    return ",".join(f'"{field}"' if dice.often(0.05) else field for field in record.split(",")) + end


def odd_text(dice: Dice, records: list[str]) -> bytes:
    """Records as a text with all that CSV allows, and with what no record of a site is."""
    mark = "\xef\xbb\xbf"
    parts = [mark if dice.often(0.5) else ""]
    for record in records:
        parts.append(written(dice, record, dice.one(["\n", "\r", "\r\n"]) * dice.choice([1, 1, 1, 2])))
        if dice.often(0.02):
            parts.append(dice.one([mark, '""', 'user,"ann', ""]) + "\n" + dice.one(['"', ""]) + dice.one(["\n", "\r", "\r\n"]))
    if parts[-1].count('"') % 2 == 0 and dice.often(0.3):
        parts.append('user,"never closed\n')
    return "".join(parts).encode("latin-1")


@pytest.mark.slow
@pytest.mark.parametrize("share", range(SHARES))
def test_text(share: int, program: pathlib.Path, extent: Extent, counted: Counted) -> None:
    """Texts longer than what a site with several workers reads at a time, and short ones: from a file, and over a pipe in pieces of any size."""
    for name, dice in dice_of(extent, "text", TEXTS, share):
        for many, sizes in ((2_000 + dice.below(13_000), LONG_PIECES), (5 + dice.below(35), SHORT_PIECES)):
            net = cases.OddNetwork(dice, 2, 1, 0.002, 0.5)
            case = Case(["site", "--site", "1", "--sites", "2"], [odd_text(dice, net.run(many))])
            expect_as_alone(name, program, case, settings(dice))
            for size in sizes:
                expect_as_alone(f"{name}, in pieces of {size}", program, dataclasses.replace(case, chunks=[size]), settings(dice))
        counted("random runs", 1)


def forms(dice: Dice) -> list[str]:
    """A record of each form, for two sites."""
    fields = cases.OddFields(dice, 0.0, cases.NICKS, Site(0, 2))
    asks = [",".join(fields.ask(kind)) for kind in KINDS]
    messages = [Message(0, 3, 2 if kind in RED else 0, [2, 0], fields.shadow(kind)).text() for kind in KINDS]
    listings = {fields.listing() for _ in range(60)}
    return [*asks, *messages, *sorted(listings), "pass,1", "token,1,1,1,0"]


OTHER = ["", "0", "00", "1", "2", "-1", "x", "none", "0.1", "2.1", "0:0", "1:0", "user", "items", "1000000", "1000001", "1000000000001", "a b", "A", "\xe9"]


def altered(dice: Dice, record: str) -> str:
    """A record with one field or one byte changed, doubled or left out."""
    fields = record.split(",")
    place = dice.below(len(fields))
    field = fields[place]
    at = dice.below(len(field) + 1)
    return ",".join(dice.choice([
        fields[:place] + [dice.one(OTHER)] + fields[place + 1:], fields[:place] + fields[place + 1:], fields[:place + 1] + fields[place:],
        fields[:place] + [field[:at] + dice.one("0aZ.:-_ ") + field[at:]] + fields[place + 1:],
        fields[:place] + [field[:at] + field[at + 1:]] + fields[place + 1:],
    ]))


@pytest.mark.parametrize("share", range(SHARES))
def test_check(share: int, program: pathlib.Path, extent: Extent, counted: Counted) -> None:
    """Of 2,000 records of which most are outside the grammar, `rubis check` names those that a site refuses as that, each with a reason."""
    for name, dice in dice_of(extent, "check", TEXTS, share):
        some = [form for _ in range(20) for form in forms(dice)]
        records = [altered(dice, dice.one(some)) for _ in range(2_000)]
        refused = re.findall(r"^reply,(\d+),refused,1,BadRecord$", answers(program, ["site", "--site", "1", "--sites", "2"], records), re.M)
        rows = answers(program, ["check", "--sites", "2"], records, (0, 1))
        assert re.findall(r"^bad,(\d+),", rows, re.M) == refused, f"{name}: other records are named than are refused"
        assert "not in the grammar" not in rows, f"{name}: a record has no reason"
        counted("records checked", len(records))


def works(dice: random.Random) -> list[workloads.Work]:
    """Messages in order, shuffled and reversed, requests, and both in turn, with listings."""
    ordered, asks = workloads.in_order(12_000), workloads.requests(3_000, 5)
    shuffled, listed = workloads.shuffled(12_000), b"list,tables\nlist,log\nlist,misfits\n"
    backwards = b"".join(reversed(ordered.text.splitlines(keepends=True)[:2_000]))
    texts = [ordered.text, shuffled.text, backwards, in_turn(ordered.text, asks.text, dice)]
    return [asks, *(workloads.Work(ordered.command, text + listed) for text in texts)]


def in_turn(first: bytes, second: bytes, dice: random.Random) -> bytes:
    """Records of two texts, each in its order, in stretches of any length."""
    texts = [collections.deque(text.splitlines(keepends=True)) for text in (first, second)]
    lines: list[bytes] = []
    while any(texts):
        text = dice.choice([it for it in texts if it])
        lines += [text.popleft() for _ in range(min(dice.choice([1, 30, 400, 3_000]), len(text)))]
    return b"".join(lines)


@pytest.mark.slow
def test_busy(program: pathlib.Path, extent: Extent, counted: Counted) -> None:
    """One to four processors, and none to four busy loops beside the run on the same ones."""
    need("taskset")
    dice, all_processors = Dice(extent.seed), sorted(os.sched_getaffinity(0))[:4]
    known = [(work, run(program, Case([*work.command, *ALONE], [work.text]))) for work in works(dice)]
    for number in range(extent.count(BUSY)):
        work, right = dice.choice(known)
        processors = ",".join(map(str, dice.sample(all_processors, 1 + dice.below(len(all_processors)))))
        loops = [subprocess.Popen(["taskset", "-c", processors, sys.executable, "-c", "while True: pass"]) for _ in range(dice.below(5))]
        chunks: list[int] = dice.choice([[], [1_000], [4_096], [16_384], [65_536], [1_048_576]])
        words = settings(dice)
        try:
            found = run("/usr/bin/taskset", Case(["-c", processors, str(program), *work.command, *words], [work.text], chunks))
        finally:
            for loop in loops:
                loop.kill()
                loop.wait()
        assert found == right, f"run {number} of --seed {extent.seed}: {words}, processors {processors}, {len(loops)} loops, pieces of {chunks}"
        counted("busy runs", 1)
