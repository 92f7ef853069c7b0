"""Compares rubis with the plain program over random runs.

Each case is a command line and an input, given to both programs in the same way: as a file, on a pipe in odd pieces, or on a pipe
on which each piece waits for the answers to the one before. Standard output, status and faults have to be the same, byte for
byte. Sites and worlds have up to 16 sites; some records are forged, outside the grammar or torn, and their logs are audited and
widened, as they are and changed. Most cases have some dozens of records, few have up to 100,000. Batches, shards and workers are
drawn for rubis; the plain program doesn't use them. Case I of a seed is the same on each machine; docs/COSTS.md has the seeds and counts
that were run. Each kind of the table of traffic is accepted by both."""

import collections
import itertools
import pathlib
import subprocess
import time

import pytest

from tests import cases
from tests.conftest import Extent
from tests.folder import Counted
from tests.needs import TOP, need
from tests.runs import expect_same, run
from traffic import KINDS, Dice, Site

SHARES = 4              # how many tests there are, which run beside each other
GROUP = 20              # how many cases are made of one seed,
OF_ONE_SOURCE = 6       # and how many of these are audits and widenings, of the logs of one run
SECONDS = 30


@pytest.fixture(scope="session")
def plain() -> pathlib.Path:
    """The plain program, built."""
    need("cargo")
    subprocess.run(["cargo", "build", "--release", "--offline", "--quiet"], cwd=TOP / "plain", check=True)
    return TOP / "plain/target/release/plain"


def group_of(seed: int, number: int, plain: pathlib.Path) -> list[cases.Case]:
    """The cases of a group, some of which are of the logs of one run of the plain program."""
    made = cases.source(Dice(f"{seed}:logs:{number}"))
    output = run(plain, cases.Case(made.command(), [made.text()])).output
    group = []
    for place in range(GROUP):
        dice = Dice(f"{seed}:{GROUP * number + place}")
        group.append(cases.logs_case(dice, made, output) if place < OF_ONE_SOURCE else cases.network_case(dice, place < 14))
    return group


@pytest.mark.slow
@pytest.mark.parametrize("share", range(SHARES))
def test_the_same_as_the_plain_program(share: int, program: pathlib.Path, plain: pathlib.Path, extent: Extent, counted: Counted) -> None:
    until, counts = time.monotonic() + extent.seconds(SECONDS), collections.Counter[str]()
    for group in itertools.count(share, SHARES):
        for place, case in enumerate(group_of(extent.seed, group, plain)):
            expect_same(f"{extent.seed}:{GROUP * group + place}", case, lambda it: run(program, it), lambda it: run(plain, it))
            counts[case.command[0]] += 1
            counts["records"] += len(case.pieces)
        if time.monotonic() > until or GROUP * group > extent.count(10 ** 9):
            break
    for name, count in counts.items():
        counted(f"compared with the plain program: {name}", count)


BEFORE = ["user,ann", "user,bob", "item,0.1,lamp,7,3,50,80", "bid,0.3,0.2,60"]


def accepted(kind: str) -> list[str]:
    """Records of which the last is an ask of that kind that a site accepts."""
    site, dice = Site(0, 2), Dice(kind)
    for record in BEFORE:
        site.make(record.split(","))
    fields = cases.OddFields(dice, 0.0, cases.NICKS, site)
    return [*BEFORE, ",".join(next(ask for ask in (fields.ask(kind) for _ in range(10_000)) if site.decide(ask)))]


@pytest.mark.parametrize("kind", KINDS)
def test_each_kind_in_the_plain_program(kind: str, program: pathlib.Path, plain: pathlib.Path) -> None:
    """Both accept an ask of that kind, and answer alike."""
    case = cases.Case(["site", "--sites", "2"], [f"{record}\n".encode() for record in (*accepted(kind), "list,tables", "list,log")])
    expect_same(kind, case, lambda it: run(program, it), lambda it: run(plain, it))
    assert b"\nreply,5,ok,0.5\n" in run(plain, case).output, f"{case.pieces[-3]!r} is accepted"
