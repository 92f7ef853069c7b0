"""A view of a site: its tables are those that the site lists, wherever it stands and however often its writer was killed."""

import contextlib
import json
import os
import pathlib
import resource
import sqlite3
import subprocess
import time
from collections.abc import Iterator
from typing import Any

import pytest
import traffic
import workloads
from shop_tool.carrier.answers import Answer, AnswerReader
from shop_tool.carrier.records import COLUMNS, LISTINGS, Purpose, row_of, why_not_one_record
from shop_tool.view.writing import View
from tests import cases
from tests.conftest import Extent
from tests.folder import SALE, SECONDS, Counted, Folder

TABLES = {kind: table for table, kind in LISTINGS.items()}
QUESTIONS = b"?list,tables\n?list,misfits\n?list,log\n"
Rows = list[dict[str, Any]]
Entries = dict[str, int]


def of_view(line: str) -> dict[str, Any]:
    """A row of a listing as a view has it, where NULL says `none`."""
    return {name: None if name in ("best", "winner") and value == "none" else value for name, value in row_of(line).items()}


def listed(answer: Answer) -> Rows:
    return [of_view(line.decode()) for line in answer.lines[1:]]


def entries_of(log: Answer) -> Entries:
    """Where each message stands in a log."""
    return {f"{fields[5]}.{fields[6]}": int(fields[2]) for fields in (line.decode().split(",", 7) for line in log.lines[1:])}


def listed_by(program: pathlib.Path, site: pathlib.Path) -> Rows:
    """What a site that is stopped lists."""
    said = subprocess.run([program, "keep", site], input=QUESTIONS, stdout=subprocess.PIPE, check=True).stdout.partition(b"\n")[2]
    tables, misfits, _ = AnswerReader().feed(said)
    return listed(tables) + listed(misfits)


def viewed(path: pathlib.Path) -> Rows:
    """The rows of a view's tables, in the order in which they are listed."""
    found: Rows = []
    with sqlite3.connect(path) as db:
        for kind, names in COLUMNS.items():
            columns = ", ".join(f'"{name}"' for name in names)
            rows = [{"kind": kind, **dict(zip(names, row))} for row in db.execute(f"SELECT {columns} FROM {TABLES[kind]}")]
            found += sorted(rows, key=lambda row: tuple(map(int, f"{row[names[0]]}.{row[names[1]] if kind == 'misfit' else 0}".split("."))))
    return found


def count_of(path: pathlib.Path) -> int:
    """How many rows a view has: none before its file and its tables are there."""
    with contextlib.suppress(sqlite3.OperationalError):
        return len(viewed(path)) if path.exists() else 0
    return 0


def entered(path: pathlib.Path) -> Entries:
    """Where the messages of a view's rows stand in the log."""
    with contextlib.closing(sqlite3.connect(path)) as db:
        return {name: entry for table in ("users", "items", "bids", "purchases", "comments") for name, entry in db.execute(f"SELECT id, entry FROM {table}")}


def made_up(dice: traffic.Dice, many: int) -> list[str]:
    """Messages of sites 1 and 2, in an order in which some wait, with stamps as sites make them and shadows as no site would: rows that aren't
    there, closed items, nicknames of others."""
    counts, red, sent = [0, 0, 0], 0, list[str]()
    ids: dict[str, list[str]] = {"user": ["1.1"], "item": ["1.1"], "bid": ["1.1"]}

    def of(kind: str) -> str:
        return dice.one(ids[kind][-20:]) if dice.often(0.9) else f"{dice.below(3)}.{1 + dice.below(many)}"
    for _ in range(many):
        origin, nicks = 1 + dice.below(2), dice.sample(cases.NICKS, 2)
        kind = dice.one("user item item bid bid bid bid buy buy close comment restock rename rename".split())
        shadow = {
            "user": nicks[:1], "item": [of("user"), "lamp", str(7 + dice.below(2)), "3", "50", "80"],
            "comment": [of("item"), of("user"), of("user"), "-3", '"a, b"'],
            "bid": [of("item"), of("user"), str(50 + dice.below(4))], "buy": [of("item"), of("user"), str(1 + dice.below(2))],
            "close": [of("item"), str(7 + dice.below(2)), of("bid") if dice.often(0.5) else "none"], "restock": [of("item"), "2"],
            "rename": [of("user"), *nicks]}[kind]
        deps = [count if site == origin or dice.often(0.9) else dice.below(count + 1) for site, count in enumerate(counts)]
        is_red = kind in traffic.RED
        red, counts[origin] = red + is_red, counts[origin] + 1
        sent.append(traffic.Message(origin, counts[origin], red if is_red else 0, deps, [kind, *shadow]).text())
        ids.get(kind, []).append(f"{origin}.{counts[origin]}")
    window = dice.one("1248")
    for begin in range(0, many, int(window)):
        some = sent[begin:begin + int(window)]
        dice.shuffle(some)
        sent[begin:begin + int(window)] = some
    return sent


def drawn(dice: traffic.Dice) -> tuple[int, list[str]]:
    """How many sites a shop has, and what its first one is given: it asks, and gets what others sent and some that nobody did; or what is made up."""
    if dice.often(0.5):
        return 3, made_up(dice, 250)
    net = cases.OddNetwork(dice, int(dice.one("2237")), 0, 0.01, 0.3 if dice.often(0.7) else 0.0)
    return len(net.sites), net.run(250)


def steps_of(program: pathlib.Path, folder: pathlib.Path, sites: int, given: list[str]) -> Iterator[tuple[bytes, bytes, Rows, Entries]]:
    """Each record that a site is given, what it answers, and what it lists then."""
    records = [record for record in (text.encode("latin-1") for text in given)
               if not (why_not_one_record(record) and why_not_one_record(record, Purpose.PACKET))]
    asked = b"".join(record + b"\n" + QUESTIONS for record in records)
    said = subprocess.run([program, "keep", folder, "--sites", str(sites)], input=asked, stdout=subprocess.PIPE, check=True).stdout.partition(b"\n")[2]
    answers = iter(AnswerReader().feed(said))
    for record, answer, tables, misfits, log in zip(records, answers, answers, answers, answers):
        yield record + b"\n", b"\n".join(answer.lines) + b"\n", listed(tables) + listed(misfits), entries_of(log)


def grow(site: pathlib.Path, record: bytes, answer: bytes) -> None:
    for name, text in (("kept", record), ("out", answer)):
        with open(site / name, "ab") as file:
            file.write(text)


def caught_up(view: View) -> None:
    while view.catch_up():
        pass


def test_tables_after_each_record(folder: pathlib.Path, program: pathlib.Path, extent: Extent, counted: Counted) -> None:
    """Random shops, with renames, restocks, forged messages and messages that wait: the program is the judge. Now and then the writer is
    another one, which goes on where the one before was."""
    kinds: set[str] = set()
    for seed in range(extent.seed, extent.seed + extent.count(16)):
        dice = traffic.Dice(seed)
        (sites, given), path, at_once = drawn(dice), folder / f"{seed}.db", 0.0 if seed % 4 else 0.8
        site = folder / f"{seed}/0"
        os.makedirs(site)
        view = View(str(path), str(site.parent), 0, sites)
        for record, answer, rows, entries in steps_of(program, folder / f"{seed}.site", sites, given):
            grow(site, record, answer)
            if dice.often(at_once):
                continue        # it comes with the next one
            if dice.often(0.2):
                view.close()
                view = View(str(path), str(site.parent), 0, sites)
            caught_up(view)
            assert viewed(path) == rows, f"--seed {seed}: {record!r}"
            assert entered(path).items() <= entries.items(), f"--seed {seed}: {record!r}"
            counted("views compared with listings", 1)
        with contextlib.closing(sqlite3.connect(path)) as db:
            kinds |= {kind for kind, in db.execute("SELECT kind FROM misfits")}
    if extent.count(16) >= 16:
        assert kinds == {"NoRow", "RowThere", "ClosedItem", "OtherUser", "StockShort"}, f"drawn: {kinds}"


@pytest.mark.kill
def test_killed_anywhere(at: Folder, extent: Extent, counted: Counted) -> None:
    """A writer that is killed at any moment, while its site answers, goes on; in the end the view is what is listed, and so is a new one."""
    at.run("./shop start auction --sites 2")
    asked = at.path / "asks"
    asked.write_bytes(workloads.requests(20_000).text)
    asking = at.start("sh -c './shop -C auction ask 0 - < asks > answers'")
    kills = 0
    while asking.poll() is None or kills < extent.count(15):
        view = at.start("./shop -C auction view view.db")
        time.sleep(0.05 + 0.013 * (kills % 30))
        view.kill()
        view.wait(SECONDS)
        kills += 1
    assert asking.wait(SECONDS) == 0, "the asks"
    at.run("./shop -C auction view view.db --once && ./shop -C auction view anew.db --once")
    rows = [of_view(line) for line in at.said(json.dumps({"op": "list", "site": 0, "record": "list,tables", "timeout": SECONDS}).encode())[0]["rows"]]
    assert len(rows) > 10_000
    for name in ("view.db", "anew.db"):
        assert viewed(at.path / name) == rows, name
    counted("kills of a view's writer", kills)


def test_times_and_orders(at: Folder) -> None:
    """What stands there when a view is made has no time, and what comes then has that at which it came, in the order of the log."""
    at.start_sale(2)
    view = at.start("./shop -C auction view view.db")
    at.wait("a view", lambda: count_of(at.path / "view.db") == 4)
    before = time.time()
    at.shop("ask 1 bid,0.3,0.2,500 buy,0.3,0.2,1")
    at.shop("wait 0")
    at.wait("a bid", lambda: len(viewed(at.path / "view.db")) == 6)
    with sqlite3.connect(at.path / "view.db") as db:
        assert db.execute("SELECT entry, seen FROM users UNION SELECT entry, seen FROM items ORDER BY 1").fetchall() == [(1, None), (2, None), (3, None)]
        (bid, seen), = db.execute("SELECT entry, CAST(strftime('%s', seen) AS INTEGER) FROM bids").fetchall()
        assert bid == 4 and before - 1 <= seen <= time.time(), "when the bid came"
        assert db.execute("SELECT items.id FROM names JOIN items ON items.entry = names.rowid WHERE names MATCH 'lamp'").fetchall() == [("0.3",)]
        assert db.execute("SELECT site, messages, counts, behind FROM stands").fetchone() == (0, 5, "[3, 2]", 0)
    view.terminate()


def test_other_files(at: Folder, program: pathlib.Path) -> None:
    """A view is made again where the files of its site are other ones: shortened, rebuilt, or a copy that went another way."""
    at.run("./shop start auction --sites 2")
    at.shop(f"ask 0 {SALE} user,ann bid,0.3,0.2,500", 1)
    at.run("cp -r auction copy")
    at.shop("ask 0 user,cat")
    at.shop("ask 1 item,0.1,cup,7,1,5,0")
    at.shop("wait 0")
    view = at.start("./shop -C auction view view.db")

    def is_listed(folder: str = "auction") -> None:
        at.wait(f"the rows of {folder}", lambda: viewed(at.path / "view.db") == listed_by(program, at.path / folder / "0"))
    at.wait("a view", lambda: count_of(at.path / "view.db") == 7)
    at.run("./shop stop auction; ./shop -C auction shorten 0")
    is_listed()
    at.run("./shop -C auction rebuild 0")
    at.run("./shop start auction; ./shop -C auction ask 0 user,dan; ./shop stop auction")
    is_listed()
    view.kill()
    view.wait(SECONDS)
    at.run("rm -r auction; cp -r copy auction; ./shop -C auction view view.db --once")
    is_listed()


def test_what_is_refused(at: Folder) -> None:
    """A file of something else isn't touched; one view has one writer, and one site."""
    at.shop("view view.db", 3, "there is no shop")
    at.run("./shop start auction --sites 2; ./shop stop auction")
    at.run("python3 -c 'import sqlite3; sqlite3.connect(\"other.db\").execute(\"CREATE TABLE notes (text)\")'")
    at.shop("view other.db", 2, "other.db is a database of something else")
    at.shop("view shop", 2, "shop is no database")
    at.shop("view nowhere/view.db", 3, "nowhere/view.db: No such file or directory")
    at.shop("view view.db --site 2", 2, "--site 0 or 1")
    at.shop("view view.db --once")
    at.shop("view view.db --once --site 1", 2, "view.db is a view of site 0")
    view = at.start("./shop -C auction view view.db")

    def is_refused() -> bool:
        nonlocal view
        if view.poll() is not None:  # the one that was to be refused had been first
            view = at.start("./shop -C auction view view.db")
        return "another process writes this view" in at.run("./shop -C auction view view.db --once 2>&1; true")

    at.wait("its writer", is_refused)
    view.kill()


@pytest.mark.slow
def test_how_fast(folder: pathlib.Path, program: pathlib.Path) -> None:
    """A view of 100,000 messages is made from nothing in less than 10 s of processor time."""
    os.makedirs(folder / "shop")
    with open(folder / "answers", "wb") as answers:
        subprocess.run([program, "keep", folder / "shop/0"], input=workloads.requests(100_000).text, stdout=answers, check=True)
    view = View(str(folder / "view.db"), str(folder / "shop"), 0, 1)
    before = resource.getrusage(resource.RUSAGE_SELF)
    caught_up(view)
    after = resource.getrusage(resource.RUSAGE_SELF)
    seconds = after.ru_utime + after.ru_stime - before.ru_utime - before.ru_stime
    assert view.stands().messages == 100_000
    assert seconds < 10, f"{seconds:.1f} s"
    assert viewed(folder / "view.db") == listed_by(program, folder / "shop/0")
