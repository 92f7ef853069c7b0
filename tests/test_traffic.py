"""The table of kinds, of which all random traffic is drawn, against the manual, the program, and what else names kinds."""

import csv
import pathlib
import re

import pytest

from picture_tool import messages, sources
from shop_tool.carrier import records
from tests import cases
from tests.folder import Counted
from tests.needs import TOP, need
from tests.test_random import answers
from traffic import FIELDS, KINDS, RED, Dice, Fields, Message, Site

MANUAL = (TOP / "docs/MANUAL.md").read_text()
OTHERS = {"pass", "list"}           # what a site is asked that makes no message
DRAWN = 2_000


def in_manual(pattern: str) -> list[str]:
    return re.findall(pattern, MANUAL, re.M)


def test_manual() -> None:
    """The requests of the manual's table are the asks, field by field, but for what makes no message; so are its shadows, and the tests' order."""
    table = MANUAL.partition("| record | meaning |")[2].partition("\n\n")[0]
    requests = [line for line in re.findall(r"^\| `([a-z,]+)`", table, re.M) if line.split(",")[0] not in OTHERS]
    assert requests == [",".join([kind, *it.asked]) for kind, it in KINDS.items()]
    exceptions = re.findall(r"`([a-z,]+)`", in_manual(r"^SHADOW has the fields of the request, with three exceptions: (.*)$")[0])
    assert sorted(line for line in exceptions if "," in line) == sorted(",".join([kind, *it.told]) for kind, it in KINDS.items() if it.told != it.asked)
    version = re.findall(r"`(\w+)`", in_manual(r"version 2 for (.*?), 1 for every other shadow")[0])
    assert sorted(version) == sorted(kind for kind, it in KINDS.items() if it.version == 2)
    assert set(in_manual(r"^\| `(\w+)` \| BadRecord")) - OTHERS - {"msg", "token"} == KINDS.keys()


def test_other_tables() -> None:
    """What stands around the crates knows the same kinds."""
    assert set(re.findall(r'says\(word, b"(\w+)"\)', (TOP / "crates/rubis_message/src/kinds.rt").read_text())) == KINDS.keys() | OTHERS
    assert {kind.decode() for kind in records.RED} == RED
    assert KINDS.keys() - {"close"} == messages.TOLD.keys() and KINDS.keys() < sources.REQUESTS
    said = dict(re.findall(r"^const (REFERS|TOLD) = {(.*)};$", (TOP / "picture_tool/web/run.js").read_text(), re.M))
    assert set(re.findall(r"(\w+):", said["REFERS"])) == KINDS.keys()
    assert {kind: int(at) for kind, at in re.findall(r"(\w+): (\d+)", said["TOLD"])} == messages.TOLD


def test_asks_over_http() -> None:
    need("python3:aiohttp")
    from shop_web.access import ASKERS
    from shop_web.asks import FIELDS as asked
    assert asked == {kind: it.asked for kind, it in KINDS.items()}
    assert ASKERS.keys() == KINDS.keys() - {"user"}


def subclasses(kind: type[Fields]) -> list[type[Fields]]:
    return [one for each in kind.__subclasses__() for one in (each, *subclasses(each))]


def test_all_who_draw() -> None:
    """Each class that draws asks draws each field and each kind of the table, and names no kind that isn't there."""
    import simulation.askers
    import traffic
    import workloads
    from tests import test_keep, test_keep_keys, test_kills, test_network
    classes = subclasses(Fields)
    who = (traffic, cases, workloads, simulation.askers, test_keep, test_keep_keys, test_kills, test_network)
    assert {module.__name__ for module in who} == {one.__module__ for one in classes}
    draws = {FIELDS[field].draws for kind in KINDS.values() for field in kind.asked}
    for one in set(classes) - {traffic.Known}:
        assert one.SHARES.keys() <= KINDS.keys(), f"{one.__name__} draws {one.SHARES.keys() - KINDS.keys()}"
        assert min(one.SHARES.values(), default=1) > 0 and not {"kinds", "ask", "draw", "any_ask"} & vars(one).keys(), f"{one.__name__} leaves kinds out"
        assert not {name for name in draws if not callable(getattr(one, name, None))} - one.NUMBERS.keys(), f"{one.__name__} doesn't draw them"


def test_all_kinds_are_accepted() -> None:
    """Random networks and workloads are of each kind."""
    import workloads
    net = cases.OddNetwork(Dice(1), 3, None, 0.0, 0.0)
    net.run(5_000)
    asked = {line.split(b",")[0].decode() for line in workloads.requests(3_000).text.splitlines()}
    assert net.kinds.keys() == asked == KINDS.keys()


@pytest.mark.parametrize("kind", KINDS)
def test_kind_of_the_program(kind: str, program: pathlib.Path) -> None:
    """The program takes asks and messages of that kind, and no number beyond its ends."""
    fields = cases.OddFields(Dice(kind), 0.0, cases.NICKS, Site(0, 2))
    for names, drawn, before in ((KINDS[kind].asked, fields.ask(kind), ""), (KINDS[kind].told, fields.shadow(kind), None)):
        drawn = [*drawn[:-1], f"{drawn[-1]}_new"] if before is None and kind == "rename" else drawn
        good, bad = [drawn], list[list[str]]()
        for place, name in enumerate(names, 1):
            if FIELDS[name].most:
                ends = (FIELDS[name].least, FIELDS[name].most)
                good += [drawn[:place] + [str(end)] + drawn[place + 1:] for end in ends]
                bad += [drawn[:place] + [str(end)] + drawn[place + 1:] for end in (ends[0] - 1, ends[1] + 1)]
        red = 2 if kind in RED else 0
        lines = [",".join(each) if before is not None else Message(0, 3, red, [2, 0], each).text() for each in good + bad]
        told = answers(program, ["check", "--sites", "2"], lines, (0, 1))
        assert [int(number) for number in re.findall(r"^bad,(\d+),", told, re.M)] == [*range(len(good) + 1, len(lines) + 1)], f"{lines}"


def test_decisions(program: pathlib.Path, counted: Counted) -> None:
    """What is foretold of each ask is what a site answers: the message, or the refusal by its name and code."""
    site, dice, codes = Site(0, 1), Dice(4), {name: code for code, name in re.findall(r"^\| (\d+) \| (\w+) \|", MANUAL, re.M)}
    fields = cases.OddFields(dice, 0.0, [*cases.NICKS, *(f"n{number}" for number in range(60))], site)
    asks, said = [], list[str]()
    kinds = {kind: set[str]() for kind in KINDS}
    for number in range(1, DRAWN + 1):
        ask = fields.ask(dice.one(fields.kinds))
        asks.append(",".join(ask))
        name = site.refusal(ask)
        kinds[ask[0]].add(name or "ok")
        if name:
            said.append(f"reply,{number},refused,{codes[name]},{name}")
        else:
            message = site.make(site.shadow(ask))
            said += [f"reply,{number},ok,0.{message.number}", f"send,{message.text()}"]
    assert list(csv.reader(answers(program, ["site"], asks).splitlines())) == list(csv.reader(said))
    for kind, names in kinds.items():
        assert names >= {"ok", *in_manual(rf"^\| `{kind}` \| BadRecord, (.*) \|$")[0].split(", ")} - {"Full", "NoToken", "RedBehind"}, f"{kind}: {names}"
    counted("decisions that were foretold", DRAWN)
