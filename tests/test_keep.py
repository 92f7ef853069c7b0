"""Sites that `rubis keep` runs, killed and torn. After whatever is done to one, `out` has to be the beginning of what `rubis site` answers to the
whole lines of `kept`, and after the next start all of it; where what is there can't be its own, the start has to say so with status 1, and
change nothing."""

import contextlib
import itertools
import pathlib
import re
import shutil
import signal
import subprocess
import time

import pytest

from tests.conftest import Extent
from tests.folder import Counted
from tests.needs import need
from traffic import Dice, Fields

WAIT = 60               # for how many seconds anything may last
SHOP_LIVES = 60         # how many lives a shop has
SYNCED_LIVES = 200      # how many lives with --sync a site has
# The system calls by which a site works on its files.
CALLS = ("open", "openat", "read", "write", "lseek", "flock", "ftruncate", "fsync", "fdatasync", "rename", "mkdir", "close")


def whole_lines(text: bytes) -> bytes:
    """A text up to its last line end."""
    return text[:text.rfind(b"\n") + 1]


class Shop:
    """The program, and a folder for sites."""

    def __init__(self, program: pathlib.Path, folder: pathlib.Path) -> None:
        self.program, self.folder = str(program), folder

    def site(self, name: str, *options: str) -> "Site":
        return Site(self, self.folder / name, options)

    def audit(self, sites: list["Site"]) -> bytes:
        """The verdict on the logs and tables of these sites."""
        logs = [line for number, site in enumerate(sites) for line in (b"site,%d" % number, *site.listed(b"log"), *site.listed(b"tables"))]
        records = re.sub(rb"^row,log,\d+,", b"", b"".join(line + b"\n" for line in logs), flags=re.M)
        done = subprocess.run([self.program, "audit", "--sites", str(len(sites))], input=records, capture_output=True, timeout=WAIT, check=True)
        return done.stdout


class Site:
    """A site in a folder."""

    def __init__(self, shop: Shop, folder: pathlib.Path, options: tuple[str, ...]) -> None:
        self.shop, self.folder, self.options = shop, folder, options

    def command(self, *more: str) -> list[str]:
        return [self.shop.program, "keep", str(self.folder), *self.options, *more]

    def read(self, name: str) -> bytes:
        path = self.folder / name
        return path.read_bytes() if path.exists() else b""

    def kept(self) -> bytes:
        return whole_lines(self.read("kept"))

    def files(self) -> tuple[bytes, bytes]:
        """What is kept, and what was answered."""
        return self.read("kept"), self.read("out")

    def put(self, **files: bytes) -> None:
        """Changes what is in its files."""
        for name, data in files.items():
            (self.folder / name).write_bytes(data)

    def sent(self) -> list[bytes]:
        """The packets that it sent, as its whole lines say."""
        return [line[5:] + b"\n" for line in whole_lines(self.read("out")).split(b"\n") if line.startswith(b"send,")]

    def listed(self, listing: bytes) -> list[bytes]:
        """The rows of a listing of a site that keeps nothing and was given the same records."""
        return self.answers(self.kept() + b"list,%b\n" % listing)[len(self.answers(self.kept())):].splitlines()[1:]

    def answers(self, records: bytes) -> bytes:
        """What a site that keeps nothing answers to these records."""
        done = subprocess.run([self.shop.program, "site", *self.options], input=records, capture_output=True, timeout=WAIT, check=True)
        return done.stdout

    def run(self, records: bytes = b"", full: int | None = None, more: tuple[str, ...] = ()) -> "subprocess.CompletedProcess[bytes]":
        """One life from its start to the end of its input, on a disk that takes at most `full` bytes a file. SIGXFSZ stays ignored then."""
        limit = [] if full is None else ["prlimit", f"--fsize={full}"]
        return subprocess.run([*limit, *self.command(*more)], input=records, capture_output=True, timeout=WAIT, restore_signals=not limit)

    def goes_on(self, when: str, records: bytes = b"", more: tuple[str, ...] = ()) -> bytes:
        """A life that has to end well, and to complete the answers: what it writes."""
        done = self.run(records, more=more)
        assert done.returncode == 0, f"{when}: {done.stderr!r}"
        assert self.read("out") == self.answers(self.kept()), f"{when}: out isn't the answers to kept"
        return done.stdout

    def begins_well(self, when: str) -> None:
        assert self.answers(self.kept()).startswith(self.read("out")), f"{when}: out is no beginning of the answers to kept"

    def refuses(self, what: str) -> None:
        """A start that has to refuse what it finds, and to change nothing."""
        before = self.files()
        done = self.run(b"user,never\n")
        assert done.returncode == 1 and done.stderr.startswith(b"run fault: "), f"{what}: status {done.returncode}, {done.stderr!r}"
        assert self.files() == before, f"{what}: something was changed"


QUESTIONS = (
    b"?state\n", b"?list,users\n", b"?list,log\n", b"?row,user,0.1\n", b"?row,nickname,u2\n", b"?row,user\n", b"?page,3,0,,list,users\n",
    b"?page,2,0,0.1,list,users\n", b"?page,9,1,3,list,log\n", b"?page,9,0,,list,tables\n", b"?list,tables\n", b'?list,"users\n', b"?\n", b"?users\n",
    b"?" + b"x" * 5000 + b"\n",
)


class Blind(Fields):
    """Draws asks of rows that may be there, at either of two sites, and what is no ask."""

    SHARES = {"user": 5, "item": 2, "bid": 5}

    def __init__(self, seed: object) -> None:
        super().__init__(Dice(f"{seed}"))
        self.made = 0

    def record(self) -> bytes:
        """An ask, a question, or what is neither."""
        dice = self.dice
        self.made += 1
        if dice.often(0.05):
            return dice.choice(QUESTIONS)
        if dice.often(0.3):
            return dice.choice((b'"open,%d\n' % dice.below(40), b"x" * dice.randrange(4000, 4200) + b"\n", b"\n", b"list,users\n", b"\xef\xbb\xbfuser,mark\n"))
        end = "\r\n" if dice.often(0.1) else "\n"
        return (self.any_ask() + end).encode()

    def id(self) -> str:
        return f"{self.dice.below(2)}.{1 + self.dice.below(40)}"

    user = other = seller = item = id

    def nickname(self) -> str:
        return f"u{self.made}"


@pytest.fixture
def shop(program: pathlib.Path, folder: pathlib.Path) -> Shop:
    return Shop(program, folder)


@pytest.fixture
def fields(extent: Extent) -> Blind:
    return Blind(extent.seed)


def live(fields: Blind, site: Site, packets: list[bytes], kills: bool) -> bool:
    """A life: whether it was killed."""
    dice = fields.dice
    process = subprocess.Popen(site.command(), stdin=subprocess.PIPE, stdout=subprocess.DEVNULL, stderr=subprocess.PIPE)
    assert process.stdin and process.stderr
    end = time.monotonic() + dice.random() * 0.04
    at = 0
    is_cut = False
    with contextlib.suppress(BrokenPipeError):
        while time.monotonic() < end and not is_cut:
            some = dice.randrange(20)
            lines = [*(fields.record() for _ in range(dice.randrange(1, 30))), *packets[at:at + some]]
            at += some
            dice.shuffle(lines)
            text = b"".join(lines)
            # Nothing may follow a line that is cut off: with the next one it could be a packet that nobody sent.
            is_cut = dice.often(0.1)
            process.stdin.write(text[:dice.randrange(len(text))] if is_cut else text)
            process.stdin.flush()
            time.sleep(dice.random() * 0.002)
    if kills:
        process.kill()
    with contextlib.suppress(BrokenPipeError):
        process.stdin.close()
    said = process.stderr.read()
    status = process.wait(WAIT)
    assert kills or status == 0, f"status {status}: {said!r}"
    return kills


@pytest.mark.kill
@pytest.mark.slow
def test_lives(shop: Shop, fields: Blind, extent: Extent, counted: Counted) -> None:
    """Shops of two sites one after the other, each of so few lives that what is kept stays small."""
    lives = extent.count(SHOP_LIVES)
    for first in range(0, lives, SHOP_LIVES):
        kill_a_shop(shop, fields, f"shop{first}", min(SHOP_LIVES, lives - first), counted)
    counted("lives of kept sites", lives)


def kill_a_shop(shop: Shop, fields: Blind, name: str, lives: int, counted: Counted) -> None:
    """Two sites that are killed, whose packets are carried, and then are audited."""
    sites = [shop.site(f"{name}/{number}", "--site", str(number), "--sites", "2") for number in (0, 1)]
    dice = fields.dice
    for _ in range(lives):
        number = dice.randrange(2)
        site = sites[number]
        packets = sites[1 - number].sent()
        dice.shuffle(packets)
        if dice.random() < 0.1:
            packets = [b"pass,%d\n" % (1 - number), *packets]
        killed = live(fields, site, packets, dice.random() < 0.8)
        counted("kept sites killed", int(killed))
        site.begins_well(f"a life of site {number}")
        torn = site.read("out")
        if torn and dice.often(0.5):
            site.put(out=torn[:dice.randrange(len(torn) + 1)])
    for number in (0, 1) * 4:
        sites[number].goes_on("the last lives", b"".join(sites[1 - number].sent()))
    verdict = shop.audit(sites)
    assert verdict == b"audit,Agree\n", f"the audit says {verdict!r}"


def test_what_a_state_counts(shop: Shop) -> None:
    """Records and messages, whether the token is there, its last turn, and what waits: after an ask, a refusal, a held message and two passes."""
    site = shop.site("0", "--sites", "2")
    held, token = b"msg,1,1,2,0,0:1,item,0.1,lamp,7,1,100,0\n", b"token,1,2,0,1\n"
    told = site.run(b"?state\nuser,ann\nuser,ann\n?state\n" + held + b"pass,1\n?state\n" + token + b"?state\n").stdout
    states = [line for line in told.splitlines() if line.startswith(b"?")]
    assert states == [b"?state,0,0,0:0,0,0,0", b"?state,2,1,1:0,0,0,0", b"?state,4,1,1:0,none,0,1", b"?state,5,1,1:0,2,2,1"], told


def test_questions_leave_nothing(shop: Shop, fields: Blind, counted: Counted) -> None:
    """Two sites, one of which is asked questions: their files are the same, and so are the answers to their records."""
    asked, plain = (shop.site(name, "--site", "0", "--sites", "2") for name in ("asked", "plain"))
    count = 0
    for _ in range(12):
        lines = [line for line in (fields.record() for _ in range(40)) if not line.startswith(b"?")]
        mixed = []
        for line in lines:
            while fields.dice.random() < 0.4:
                mixed.append(fields.dice.choice(QUESTIONS))
                count += 1
            mixed.append(line)
        answers = asked.run(b"".join(mixed)).stdout
        expected = plain.run(b"".join(lines)).stdout
        assert asked.files() == plain.files(), "kept has a question, or lacks a record, or out differs where questions were asked"
        assert without_replies(answers) == expected, "the answers to records differ where questions were asked"
    old = shop.site("old")
    old.run(b"user,ann\n")
    old.put(kept=b"user,ann\n?state\nuser,bob\n")
    said = old.goes_on("an older folder", b"?list,users\nuser,cat\n")
    assert old.kept() == b"user,ann\n?state\nuser,bob\nuser,cat\n", "an older folder: kept changed"
    assert b"?rows,2\n" in said, "an older folder: its question wasn't answered"
    counted("questions asked of kept sites", count)


LISTINGS = (b"users", b"items,7", b"bids,0.3", b"purchases,0.3", b"comments,0.1", b"categories", b"log", b"misfits")


def rows_of(site: Site, question: bytes) -> list[bytes]:
    """The rows that answer a question, the last one that is asked."""
    replies: list[bytes] = site.run(question).stdout.splitlines()
    at = max(place for place, line in enumerate(replies) if line.startswith(b"?"))
    assert replies[at] == b"?rows,%d" % (len(replies) - at - 1), f"{question!r}: {replies[at]!r}"
    return replies[at + 1:]


def test_pages(shop: Shop, fields: Blind, counted: Counted) -> None:
    """All pages of each listing are the listing, whatever is asked first and of whatever length; and where records are answered between, a
    page still begins behind the row of its name."""
    dice = fields.dice
    site = shop.site("paged")
    site.run(b"user,ann\nuser,bob\nitem,0.1,lamp,7,90,100,500\n" + b"".join(
        dice.choice((b"bid,0.3,0.2,%d\n" % (100 + number), b"buy,0.3,0.2,1\n", b"comment,0.3,0.2,0.1,5,good\n", b"user,u%d\n" % number))
        for number in range(80)))
    count = 0
    for listing in LISTINGS:
        rows = rows_of(site, b"?list,%b\n" % listing)
        names = [b".".join(row.split(b",")[2:4]) if listing == b"misfits" else row.split(b",")[2] for row in rows]
        most = dice.randrange(1, 9)
        asked = [(begin, b"%d,%b" % (dice.randrange(begin), names[begin - 1]) if begin else b"0,") for begin in range(0, len(rows) + 1, most)]
        for begin, behind in dice.sample(asked, len(asked)):
            between = dice.choice((b"", b"", b"?state\n", b"?page,2,0,,list,users\n", b"user,%b%d\n" % (listing.replace(b",", b"").replace(b".", b""), begin)))
            page = rows_of(site, between + b"?page,%d,%b,list,%b\n" % (most, behind, listing))
            wanted = rows[begin:begin + most]
            # Records that were answered between may have added rows at the end, or changed those that are there.
            assert [row.split(b",")[2] for row in page][:len(wanted)] == [row.split(b",")[2] for row in wanted], f"{listing!r} behind {behind!r}: {page}"
            count += 1
    for behind in (b"0,9.9", b"81,0.1", b"0,0.1 ", b"4294967295,0.1"):
        replies = site.run(b"?page,5,%b,list,users\n" % behind).stdout.splitlines()
        assert replies[-1] == b"?refused,NoRow", f"behind {behind!r}: {replies[-1]!r}"
    for form in (b"65537,0,,list,users", b"5,4294967296,,list,users", b"5,0,,list,tables", b"5,0,list,users", b"5,0,,user,eve", b"05,0,,list,users", b"5,0,,"):
        replies = site.run(b"?page,%b\n" % form).stdout.splitlines()
        assert replies[-1] == b"?refused,BadQuestion", f"{form!r}: {replies[-1]!r}"
    counted("pages of listings", count)


def test_spellings_of_questions(shop: Shop, counted: Counted) -> None:
    """A question is one record of CSV, however it is spelled: with quotes around its fields, a carriage return at its end, or both, it has the
    same answer. What only looks like one has none."""
    site = shop.site("spelled")
    site.run(b'user,ann\nuser,bob\nitem,0.1,"a, ""b""",7,3,10,100\nbid,0.3,0.2,20\n')

    def answer(question: bytes) -> bytes:
        said: bytes = site.run(question + b"\n").stdout
        return said[said.index(b"\n") + 1:]

    plain = [*(question[:-1] for question in QUESTIONS if b'"' not in question and len(question) < 100), b"?row,item,0.3", b"?row,bid,0.4",
             b"?row,category,7", b"?row,nickname,bob", b"?row,user,0.9", b"?row,user,00.1", b"?row,user,0.1,", b"?row,,0.1", b"?,row,user,0.1",
             b"?row,user, 0.1"]
    for question in plain:
        quoted = b"?" + b",".join(b'"%b"' % field for field in question[1:].split(b",")) if question != b"?" else question
        for spelled in (question + b"\r", quoted, quoted + b"\r", question.replace(b"row,", b'"row",')):
            assert answer(spelled) == answer(question), f"{spelled!r}: {answer(spelled)!r}, and {question!r}: {answer(question)!r}"
    rows = rows_of(site, b"?list,users\n")
    assert answer(b"?row,user,0.1") == b"?" + rows[0] + b"\n" and b",ann," in rows[0], "a row by its id"
    assert b'"a, ""b"""' in answer(b"?row,item,0.3"), "a row with a field in quotes"
    for other in (b"\xef?row,user,0.1", b"? row,user,0.1", b"?row;user;0.1", b'?row,user,"0.1" '):
        assert b"row,user,0.1,ann" not in answer(other), f"{other!r}: {answer(other)!r}"
    counted("spellings of questions", 5 * len(plain))


def without_replies(text: bytes) -> bytes:
    """What stands on standard output without the answers to questions."""
    left = []
    rows = 0
    for line in text.splitlines(keepends=True):
        if rows > 0:
            rows -= 1
        elif line.startswith(b"?"):
            rows = int(line.split(b",")[1]) if line.startswith(b"?rows,") else 0
        else:
            left.append(line)
    return b"".join(left)


SMALL = b'user,ann\nitem,0.1,"a, ""b""",7,3,10,100\n"open\nlist,users\nbid,0.2,0.1,20\n\nuser,ann\npass,0\n'


def test_torn_files(shop: Shop, counted: Counted) -> None:
    """`out` and `kept` torn at each byte."""
    site = shop.site("small")
    site.goes_on("a small site", SMALL)
    kept, out = site.files()
    for size in range(len(out)):
        site.put(out=out[:size])
        site.goes_on(f"out torn at {size}")
        assert site.read("out") == out, f"out torn at {size}"
    for size in range(len(kept)):
        left = site.answers(whole_lines(kept[:size]))
        site.put(kept=kept[:size], out=left[:len(left) * size // len(kept)])
        site.goes_on(f"kept torn at {size}")
        assert site.files() == (whole_lines(kept[:size]), left), f"kept torn at {size} isn't cut"
    counted("places at which files are torn", len(out) + len(kept))


def test_changed_files(shop: Shop, fields: Blind, counted: Counted) -> None:
    """`out` with another byte or too many, and `kept` with a line that no run keeps."""
    site = shop.site("changed")
    site.run(SMALL)
    kept, out = site.files()
    for at in range(len(out)):
        site.put(out=out[:at] + bytes([out[at] ^ 1]) + out[at + 1:])
        site.refuses(f"out with another byte at {at}")
    site.put(out=out + b"reply,9,ok,0.9\n")
    site.refuses("out with a line too many")
    site.put(out=out)
    for line in (b'user,"bob\n', b"x" * 5000 + b"\n", b"\xefuser,bob\n"):
        lines = kept.splitlines(keepends=True)
        lines.insert(fields.dice.randrange(len(lines) + 1), line)
        site.put(kept=b"".join(lines))
        site.refuses(f"kept with {line[:10]!r}")
    counted("places at which files are changed", len(out) + 4)


def test_full_disk(shop: Shop, counted: Counted) -> None:
    """A disk that is full after each number of bytes."""
    need("prlimit")
    whole = shop.site("whole")
    whole.run(SMALL)
    largest = max(map(len, whole.files()))
    for size in range(largest):
        site = shop.site("full")
        shutil.rmtree(site.folder, ignore_errors=True)
        done = site.run(SMALL, full=size)
        assert done.returncode == 1 and done.stderr.startswith(b"run fault: "), f"a disk of {size} bytes: {done.returncode}, {done.stderr!r}"
        if (site.folder / "setup").exists():
            site.begins_well(f"a disk of {size} bytes")
        site.goes_on(f"after a disk of {size} bytes", SMALL)
    counted("full disks", largest)


@pytest.mark.kill
def test_shorten(shop: Shop, fields: Blind, extent: Extent, counted: Counted) -> None:
    """What was kept is shortened, and the shortening killed."""
    lives = max(10, extent.count(SHOP_LIVES) // 3)
    site = shop.site("short")
    site.goes_on("a site to be shortened", b"".join(fields.record() for _ in range(2000)))
    kept, out = site.files()
    packets, listed = site.sent(), [site.listed(name) for name in (b"log", b"tables")]
    began = time.monotonic()
    assert site.goes_on("--shorten", more=("--shorten",)) == b"", "what --shorten says"
    took = time.monotonic() - began
    short = site.read("kept")
    killed = 0
    for _ in range(lives):
        site.put(kept=kept, out=out)
        process = subprocess.Popen(site.command("--shorten"), stdin=subprocess.DEVNULL, stdout=subprocess.DEVNULL, stderr=subprocess.PIPE)
        time.sleep(fields.dice.random() * took * 1.2)
        process.kill()
        _, said = process.communicate(timeout=WAIT)
        killed += process.returncode != 0
        assert process.returncode in (0, -signal.SIGKILL), f"--shorten: {said!r}"
        assert site.read("kept") in (kept, short), "--shorten left neither the old file nor the new one"
        site.begins_well("--shorten")
    site.goes_on("--shorten", more=("--shorten",))
    assert site.read("kept") == short and len(short) < len(kept), "--shorten left too much"
    assert (site.sent(), [site.listed(name) for name in (b"log", b"tables")]) == (packets, listed), "a shortened site sends or lists otherwise"
    answers = site.read("out")
    site.goes_on("--shorten of what is short", more=("--shorten",))
    assert site.files() == (short, answers), "--shorten of what is short"
    counted("shortenings killed", killed)


def killed_at(site: Site, name: str, count: int, records: bytes, more: tuple[str, ...] = ()) -> bool:
    """A run that is killed at its n-th system call of that name, by strace; False if it ended before."""
    inject = f"inject=?{name}:signal=SIGKILL:when={count}"
    command = ["strace", "-qq", "-o", "/dev/null", "-e", inject, *site.command("--workers", "1", *more)]
    done = subprocess.run(command, input=records, capture_output=True, timeout=WAIT)
    assert done.returncode in (0, -signal.SIGKILL), f"killed at {name} {count}: status {done.returncode}, {done.stderr!r}"
    return done.returncode != 0


@pytest.mark.kill
@pytest.mark.slow
def test_killed_at_each_call(shop: Shop, counted: Counted) -> None:
    """A life and a shortening, killed at each of their system calls that have to do with files."""
    need("strace")
    whole, site = shop.site("whole life"), shop.site("life")
    whole.run(SMALL)
    (kept, out), packets = whole.files(), whole.sent()
    calls = 0
    for name in CALLS:
        for count in itertools.count(1):
            if not killed_at(site, name, count, SMALL):
                break
            if (site.folder / "setup").exists():
                site.begins_well(f"a life killed at {name} {count}")
            site.goes_on(f"after a life killed at {name} {count}")
            assert kept.startswith(site.kept()), f"a life killed at {name} {count} kept what wasn't given"
            shutil.rmtree(site.folder)
            calls += 1
        shutil.rmtree(site.folder)
        for count in itertools.count(1):
            if not killed_at(whole, name, count, b"", ("--shorten",)):
                break
            whole.begins_well(f"a shortening killed at {name} {count}")
            whole.goes_on(f"after a shortening killed at {name} {count}")
            assert whole.sent() == packets, f"a shortening killed at {name} {count} lost something"
            whole.put(kept=kept, out=out)
            calls += 1
        whole.put(kept=kept, out=out)
    counted("calls at which a kept site is killed", calls)


@pytest.mark.kill
@pytest.mark.slow
def test_power_failures(shop: Shop, fields: Blind, extent: Extent, counted: Counted) -> None:
    """Lives with --sync, many of them killed at a flush of `kept`, and a power failure after every other one: `kept` is cut to what was
    flushed or a little more, and `out`, which is never flushed, anywhere. All that `out` had has to be answered again."""
    dice, site, trace, flushed = fields.dice, shop.site("synced"), shop.folder / "trace", 0
    lives = extent.count(SYNCED_LIVES)
    for number in range(lives):
        when = f"power failure {number}"
        before = len(site.read("kept"))
        synced_life(site, fields, trace)
        kept, out = site.files()
        flushed = flushed_by(trace.read_text(), before, flushed)
        if dice.random() < 0.5:
            continue
        assert site.answers(whole_lines(kept[:flushed])).startswith(out), f"{when}: out is ahead of what was flushed of kept"
        flushed = dice.choice((flushed, dice.randrange(flushed, len(kept) + 1)))
        site.put(kept=kept[:flushed], out=out[:dice.randrange(len(out) + 1)])
        assert site.answers(site.kept()).startswith(out), f"{when}: something that was told isn't told again"
    site.goes_on("after the last power failure")
    counted("lives with --sync", lives)


def traced(site: Site, trace: pathlib.Path, calls: str, *words: str) -> list[str]:
    """The command of a life with --sync whose calls of these names are written to a file."""
    need("strace")
    return ["strace", "-f", "-qq", "-y", "-o", str(trace), "-e", f"trace={calls}", *words, *site.command("--workers", "1", "--sync")]


def test_names_are_flushed(shop: Shop) -> None:
    """A start with --sync, after a shortening that was killed and may have left a rename that isn't on the disk: the names in the folder
    are flushed before anything is written."""
    site, trace = shop.site("named"), shop.folder / "names"
    site.run(b"user,ann\nlist,users\n")
    done = subprocess.run(traced(site, trace, "write,fsync"), input=b"user,bob\n", capture_output=True, timeout=WAIT)
    assert done.returncode == 0, f"a start that is watched: {done.stderr!r}"
    first = next((line for line in trace.read_text().splitlines() if re.search(r"\b(write|fsync)\(", line)), "")
    assert re.search(rf"\bfsync\(\d+<[^>]*/{site.folder.name}>\) += 0$", first) is not None, f"a start with --sync begins with {first!r}"


def synced_life(site: Site, fields: Blind, trace: pathlib.Path) -> None:
    """A life with --sync that is given its records one by one, and is killed at its n-th flush. Two flushes belong to its start."""
    command = traced(site, trace, "write,fdatasync,ftruncate", "-e", f"inject=fdatasync:signal=SIGKILL:when={fields.dice.randrange(1, 10)}")
    process = subprocess.Popen(command, stdin=subprocess.PIPE, stdout=subprocess.PIPE, stderr=subprocess.PIPE)
    assert process.stdin
    with contextlib.suppress(BrokenPipeError):
        for _ in range(fields.dice.randrange(1, 10)):
            process.stdin.write(fields.record())
            process.stdin.flush()
            time.sleep(0.001)
    _, said = process.communicate(timeout=WAIT)
    assert process.returncode in (0, -signal.SIGKILL), f"a life with --sync: status {process.returncode}, {said!r}"


def flushed_by(trace: str, length: int, flushed: int) -> int:
    """How many bytes of `kept` are flushed at the end of a life, of how many at its start. A call at which the life was killed has no
    result, and counts for nothing."""
    for line in trace.splitlines():
        call = re.search(r"\b(write|fdatasync|ftruncate)\(\d+<[^>]*/kept>(.*)\) += (\d+)$", line)
        if not call:
            continue
        if call[1] == "write":
            length += int(call[3])
        elif call[1] == "ftruncate":
            length = int(call[2].lstrip(", "))
            flushed = min(flushed, length)
        else:
            flushed = length
    return flushed


def test_another_setup(shop: Shop) -> None:
    """Options that say otherwise than the folder, and a second start."""
    site = shop.site("two", "--site", "1", "--sites", "2")
    site.run(b"list,users\n")
    before = site.files(), site.read("setup")
    for options in (("--site", "0"), ("--sites", "3"), ("--keep", "5")):
        done = subprocess.run([shop.program, "keep", str(site.folder), *options], input=b"user,never\n", capture_output=True, timeout=WAIT)
        text = f"fault: {site.folder} is site 1 of 2, and keeps 1000000\n"
        assert done.returncode == 2 and done.stderr.decode() == text, f"{options}: status {done.returncode}, {done.stderr!r}"
    assert (site.files(), site.read("setup")) == before, "another setup: something was changed"
    first = subprocess.Popen(site.command(), stdin=subprocess.PIPE, stdout=subprocess.PIPE)
    assert first.stdin and first.stdout
    try:
        assert first.stdout.readline() == b"kept,1,0:0\n", "the first line of a run"
        done = site.run()
        assert done.returncode == 1 and done.stderr.decode() == f"run fault: {site.folder} is running\n", f"a second start: {done.stderr!r}"
    finally:
        first.stdin.close()
        first.wait(WAIT)


def test_greater_keep(shop: Shop, counted: Counted) -> None:
    """A greater --keep where `out` is torn at each of its bytes: what was told is told again, or the start is refused."""
    full = shop.site("full keep", "--keep", "1")
    full.run(b"user,ann\nuser,bob\n")
    out, setup = full.read("out"), full.read("setup")
    assert b"refused,2,Full" in out, "a full site: nothing was refused as Full"
    raised = shop.site("full keep", "--keep", "2")
    for size in range(len(out) + 1):
        full.put(out=out[:size])
        done = raised.run(b"user,never\n")
        assert (done.returncode, done.stdout) == (1, b"") and done.stderr.startswith(b"run fault: out differs at line "), f"torn at {size}: {done}"
        assert (full.read("out"), full.read("setup")) == (out, setup), f"out of a full site torn at {size}: something else was told"
    room, more = shop.site("room", "--keep", "3"), shop.site("room", "--keep", "4")
    room.run(b"user,ann\nuser,bob\n")
    (kept, out), setup = room.files(), room.read("setup")
    for size in range(len(out) + 1):
        room.put(kept=kept, out=out[:size], setup=setup)
        more.goes_on(f"a greater --keep with out torn at {size}", b"user,eve\n")
        assert more.read("out").startswith(out) and b"0,1,4," in more.read("setup"), f"a greater --keep with out torn at {size} isn't written down"
    counted("places at which files are torn", 2 * len(out))
