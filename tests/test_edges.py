"""What no conversation can say: odd bytes, input and output that fail, most records, memory, and command lines. Each run has to write exactly
what is said here, on standard output and on standard error, and to end with that status."""

import contextlib
import dataclasses
import os
import pathlib
import pty
import shlex
import signal
import socket
import struct
import subprocess
import threading
import time
import tty
from collections.abc import Callable
from typing import Any

import pytest

from tests.folder import Counted, kilobytes_of

SECONDS = 120
MOST = 4_000_000        # records that a run may have
COMMANDS = ("site", "world", "audit", "lack", "lack --waiting", "check", "widen")       # that read records
ANN = b"reply,1,ok,0.1\nsend,msg,1,0,1,1,0,user,ann\n"


@dataclasses.dataclass
class Expected:
    """A run: its command line and its input, and what it has to write; `said` is None for a text of clap's."""

    words: str
    text: bytes
    wrote: bytes
    status: int = 0
    said: bytes | None = b""


def malformed(*records: int) -> bytes:
    """The answers to records that are outside the grammar."""
    return b"".join(b"reply,%d,refused,1,BadRecord\n" % record for record in records)


def odd_bytes() -> list[Expected]:
    """Records that no text file shows as they are."""
    twice = ANN + b"reply,2,refused,5,NickTaken\n"
    item = b"user,ann\nitem,0.1,%s,7,1,100,0\n"
    runs = [
        (item % b"a\xff", ANN + malformed(2)),
        (item % b"\x7f", ANN + malformed(2)),
        (item % b"\x1f", ANN + malformed(2)),
        (item % b"\x00", ANN + malformed(2)),
        (item % b"~", ANN + b"reply,2,ok,0.2\nsend,msg,1,0,2,0,1,item,0.1,~,7,1,100,0\n"),
        (b"user,an\xff\n", malformed(1)),
        (b"comment,0.1,0.2,0.3,1,\xff\n", malformed(1)),
        (b"\xff\n", malformed(1)),
        (b"user,ann", ANN),
        (b"user,ann\r\n", ANN),
        (b"\n\nuser,ann\n", ANN),
        (b"\r\n\r\nuser,ann\r\n\r\n", ANN),
        (b"user,ann\ruser,ann\r", twice),
        (b"\xef\xbb\xbfuser,ann\n", ANN),
        (b"\xef\xbb\xbf\xef\xbb\xbfuser,ann\n", malformed(1)),
        (b"user,ann\n\xef\xbb\xbfuser,ann\n", ANN + malformed(2)),
        (b'"user","ann"\n', ANN),
        (b'"us"er,"a"nn\n', ANN),
        (b'user,"ann"', ANN),
        (b'user,"ann', ANN),
        (b'user,"ann\n', malformed(1)),
        (b'user,"ann\nuser,bob\n', malformed(1)),
        (b'user,a"nn"\n', malformed(1)),
        (b"user, ann\n", malformed(1)),
        (b",\n", malformed(1)),
        (b'""\nuser,ann\n', malformed(1) + b"reply,2,ok,0.1\nsend,msg,1,0,1,1,0,user,ann\n"),
    ]
    return [Expected("site", text, wrote) for text, wrote in runs]


def lines_of_records() -> list[Expected]:
    """Records outside the grammar, by the lines in which they begin, under each kind of line end."""
    nick = b'"a nickname has 1 to 20 of a-z, 0-9 and _, the first a letter"'
    quote = b"bad,1,%d,2,a quote that opened at line %d closes at line %d\n"
    runs = [
        (b"user,ann\r\nuser,A\r\n\r\nuser,B", b"bad,2,2,2,%b\nbad,3,4,2,%b\nchecked,3,2\n" % (nick, nick)),
        (b"\n\r\nuser,A", b"bad,1,3,2,%b\nchecked,1,1\n" % nick),
        (b"\xef\xbb\xbfuser,A\n", b"bad,1,1,2,%b\nchecked,1,1\n" % nick),
        (b'user,"ann\nuser,bob\n"\nuser,C\n', quote % (1, 1, 3) + b"bad,2,4,2,%b\nchecked,2,2\n" % nick),
        (b'user,ann\n\nuser,"bob\nuser,eve\n', b"bad,2,3,2,a quote that opened at line 3 closes at line 4\nchecked,2,1\n"),
        (b'user,"ann', b"checked,1,0\n"),
        (b'"\n",x\n', b"bad,1,1,1,a quote that opened at line 1 closes at line 2\nchecked,1,1\n"),
        (b'\r\n\r\n"us\r\ner,A\n"\r\nz\n', b"bad,1,3,1,a quote that opened at line 3 closes at line 5\nbad,2,6,1,no record begins with z\nchecked,2,2\n"),
    ]
    return [Expected("check", text, wrote, 1 if b"bad" in wrote else 0) for text, wrote in runs]


def cut_off() -> list[Expected]:
    """A request with quotes between two others, cut off after each byte: the last record is answered as far as it goes."""
    item = b'item,0.1,"vase, ""blue""",7,1,100,0'
    records = [b"user,ann", item, b"list,items,7"]
    answers = {
        b"user,a": b"reply,1,ok,0.1\nsend,msg,1,0,1,1,0,user,a\n",
        b"user,an": b"reply,1,ok,0.1\nsend,msg,1,0,1,1,0,user,an\n",
        b"user,ann": ANN,
        item: b"reply,2,ok,0.2\nsend,msg,1,0,2,0,1," + item + b"\n",
        b"list,items,7": b'reply,3,rows,1\nrow,item,0.2,0.1,"vase, ""blue""",7,1,0,100,0,0,none,0,open,none\n',
    }
    runs, text, wrote = [Expected("site", b"", b"")], b"", b""
    for number, record in enumerate(records, 1):
        for end in range(1, len(record) + 1):
            runs.append(Expected("site", text + record[:end], wrote + answers.get(record[:end], malformed(number))))
        text, wrote = text + record + b"\n", wrote + answers[record]
        runs.append(Expected("site", text, wrote))
    return runs


def too_long(more: int) -> list[Expected]:
    """Runs of the greatest number of records, and of so many more."""
    many, status, said = MOST + more, more, b"run fault: too long\n" if more else b""
    audited = b"site,0\n" + b"row\n" * (many - 1)
    verdict = b"" if more else b"audit,Rows,1,0\n"
    return [
        Expected("site", b"x\n" * many, malformed(*range(1, MOST + 1)), status, said),
        Expected("world", b"x\n" * many, b"".join(b"world,%d,refused,30,BadEvent\n" % number for number in range(1, MOST + 1)), status, said),
        Expected("audit", audited, verdict, status, said),
        Expected("audit --status", audited, verdict, 1, said),
        Expected("lack", audited, verdict, 1, said),
        Expected("lack --waiting", b"x\n" * many, b"", status, said),
        Expected("check", b"user,ann\n" * many, b"" if more else b"checked,%d,0\n" % MOST, status, said),
        Expected("widen", b"site,0\n" * many, b"site,0\n" * MOST, status, said),
    ]


# The greatest value of each option that has a range, which begins at 1.
RANGES = {"sites": 16, "shards": 64, "workers": 16, "batch": 65536, "keep": 1000000}
GOOD = [
    "site --site 15 --sites 16", "world --sites 16 --shards 64 --workers 16 --batch 65536 --keep 1000000", "widen --sites 16 --to 16", "widen --to 1",
    "lack --waiting --site 15 --sites 16 --keep 1000000", "lack --waiting --keep 1", "site --sites=2 --site=1",
]
BEYOND = [
    "site --site 16 --sites 16", "world --sites 17", "audit --sites 17", "lack --sites 17", "lack --waiting --site 16 --sites 16", "lack --keep 0",
    "check --sites 17", "widen --to 17", "widen --to 0",
]
WRONG = [
    "", "frob", "user,ann", "--sites 2", "site extra", "site --frob 1", "site --to 3", "site --sites", "site --sites two", "site --sites 2 --sites 2",
    "world --site 0", "audit --keep 1", "lack --shards 1", "lack --status", "lack --waiting 1", "check --keep 1", "check world audit", "widen --site 0",
]
# The faults of a command line that are the program's own.
OWN = {
    b"fault: site must be below sites\n":
        ["site --site 1", "site --site 2 --sites 2", "site --site 7 --sites 3 --keep 5", "lack --waiting --site 2 --sites 2"],
    b"fault: --site and --keep are of the site that --waiting reads\n": ["lack --site 0", "lack --keep 5", "lack --site 1 --sites 2"],
    b"fault: there is no site in /nowhere\n": ["keep /nowhere --shorten"],
    b"fault: the folder has no name\n": ["keep ''"],       # nothing is written, where the root of the file system would be taken
    b"fault: only records of site, world or audit are checked\n": ["check lack"],
    b"fault: to must not be below sites\n": ["widen --sites 3 --to 2", "widen --sites 16 --to 15"],
}


def command_lines() -> list[Expected]:
    """Command lines with values at the ends of their ranges and beyond, and what else is wrong with one."""
    good = [f"site --{option} {value}" for option, most in RANGES.items() for value in (1, most)] + GOOD
    beyond = [f"site --{option} {value}" for option, most in RANGES.items() for value in (0, most + 1)] + BEYOND
    audits = [(" --status", b"", 0), (" --status", b"x\n", 1), ("", b"x\n", 0)]
    return [
        *(Expected(words, b"", b"") for words in good),
        *(Expected(words, b"", b"", 2, None) for words in beyond + WRONG),
        *(Expected(words, b"", b"", 2, said) for said, lines in OWN.items() for words in lines),
        *(Expected(f"audit{words}", text, b"audit,BadRecord,1\n" if text else b"audit,Agree\n", status) for words, text, status in audits),
        Expected("keep /dev/null/none --shorten", b"", b"", 1, None),
    ]


def closing_quotes() -> list[Expected]:
    """Checks of records outside the grammar whose quotes close, or not, at the end of the input, behind either line end."""
    quote = "a quote that opened at line {} closes at line {}".format
    other = "no record begins with {}".format
    rows = {
        b'x\r\ny,"\n': [(1, other("x")), (2, other("y"))],
        b'x\n"\n': [(1, other("x")), (2, quote(2, 2))],
        b'x\n"\n"\n': [(1, other("x")), (2, quote(2, 3))],
        b'x\r\n"\n"\r\nz\n': [(1, other("x")), (2, quote(2, 3)), (4, other("z"))],
        b'x\ny,"a""\n': [(1, other("x")), (2, other("y"))],
        b'x\ny,"a""\n"\nz\n': [(1, other("x")), (2, other("y")), (4, other("z"))],
        b"\x1b[31mx\x00\xff,1\n": [(1, other("?[31mx??"))],
    }
    runs = []
    for text, bad in rows.items():
        wrote = "".join(f"bad,{at},{line},1,{reason}\n" for at, (line, reason) in enumerate(bad, 1))
        runs.append(Expected("check", text, wrote.encode() + b"checked,%d,%d\n" % (len(bad), len(bad)), 1))
    return runs


def difference(expected: Expected, status: int, wrote: bytes, said: bytes) -> str | None:
    """What is wrong with how a run ended, if anything."""
    if status != expected.status:
        return f"status {status}, not {expected.status}: {said[-200:]!r}"
    if said != expected.said if expected.said is not None else not said:
        return f"standard error has {said[-200:]!r}, not {expected.said!r}"
    if wrote != expected.wrote:
        return f"standard output ends in {wrote[-200:]!r}, not {expected.wrote[-200:]!r}"
    return None


def expect(program: pathlib.Path, expected: Expected, **streams: Any) -> None:
    """Runs the program with that input, or with these streams."""
    given: dict[str, Any] = {"stdout": subprocess.PIPE, **streams} if "stdin" in streams else {"stdout": subprocess.PIPE, "input": expected.text, **streams}
    done = subprocess.run([program, *shlex.split(expected.words)], stderr=subprocess.PIPE, timeout=SECONDS, **given)
    wrong = difference(expected, done.returncode, done.stdout or b"", done.stderr)
    assert not wrong, f"rubis {expected.words} < {expected.text[-60:]!r}: {wrong}"


def expect_each(program: pathlib.Path, counted: Counted, runs: list[Expected]) -> None:
    for expected in runs:
        expect(program, expected)
    counted("edge runs", len(runs))


@pytest.mark.parametrize("runs", [odd_bytes, lines_of_records, closing_quotes, cut_off, command_lines])
def test_input(runs: Callable[[], list[Expected]], program: pathlib.Path, counted: Counted) -> None:
    expect_each(program, counted, runs())


@pytest.mark.slow
@pytest.mark.parametrize("more", [0, 1])
def test_most_records(more: int, program: pathlib.Path, counted: Counted) -> None:
    """As many records as there may be, and one more."""
    expect_each(program, counted, too_long(more))


def test_failed_reads(program: pathlib.Path, counted: Counted) -> None:
    """Input that can't be read."""
    for words in COMMANDS:
        folder = os.open(program.parent, os.O_RDONLY)
        expect(program, Expected(words, b"", b"", 1, b"run fault: read\n"), stdin=folder)
        os.close(folder)
    counted("edge runs", len(COMMANDS))


@pytest.mark.parametrize("options", ["--batch 1 --workers 1", "--batch 64 --workers 1", "--batch 64 --workers 2", "--batch 3 --workers 4"])
def test_lost_terminal(options: str, program: pathlib.Path, counted: Counted) -> None:
    """Input that fails behind four messages, which are answered first."""
    text = b"".join(b"msg,1,0,%d,%d,%d:0,user,u%d\n" % (n, n, n - 1, n) for n in range(1, 5))
    wrote = b"".join(b"reply,%d,released,1\n" % n for n in range(1, 5))
    reader, writer = pty.openpty()
    tty.setraw(writer)
    os.write(writer, text)
    os.close(writer)
    expect(program, Expected(f"site --site 1 --sites 2 {options}", text, wrote, 1, b"run fault: read\n"), stdin=reader)
    os.close(reader)
    counted("edge runs", 1)


@pytest.mark.parametrize("options", ["--workers 1", "--workers 2", "--workers 4 --batch 3"])
def test_interrupted_read(options: str, program: pathlib.Path, counted: Counted) -> None:
    """A read of a socket that a signal interrupts, between two users."""
    ours, theirs = socket.socketpair()
    theirs.setsockopt(socket.SOL_SOCKET, socket.SO_RCVTIMEO, struct.pack("ll", SECONDS, 0))
    with subprocess.Popen([program, "site", *options.split()], stdin=theirs.fileno(), stdout=subprocess.PIPE, stderr=subprocess.PIPE) as site:
        assert site.stdout and site.stderr
        theirs.close()
        ours.sendall(b"user,ann\n")
        wrote = site.stdout.readline() + site.stdout.readline()
        time.sleep(0.1)
        site.send_signal(signal.SIGSTOP)
        time.sleep(0.1)
        site.send_signal(signal.SIGCONT)
        time.sleep(0.1)
        with contextlib.suppress(BrokenPipeError):
            ours.sendall(b"user,bob\n")
        ours.close()
        wrote += site.stdout.read()
        said = site.stderr.read()
    answers = b"".join(b"reply,%d,ok,0.%d\nsend,msg,1,0,%d,%d,%d,user,%s\n" % (n, n, n, n, n - 1, who) for n, who in ((1, b"ann"), (2, b"bob")))
    wrong = difference(Expected("", b"", answers), site.returncode, wrote, said)
    assert not wrong, f"rubis site {options}, stopped and continued while it reads: {wrong}"
    counted("edge runs", 1)


@pytest.mark.parametrize("options", ["--workers 1", "--workers 2"])
def test_many_pieces(options: str, program: pathlib.Path, counted: Counted) -> None:
    """20,000 records, each of them written once the one before it is answered, so that no read gives two."""
    with subprocess.Popen([program, "site", *options.split()], stdin=subprocess.PIPE, stdout=subprocess.PIPE) as site:
        assert site.stdin and site.stdout
        for number in range(1, 20_001):
            site.stdin.write(b"x\n")
            site.stdin.flush()
            assert site.stdout.readline() == malformed(number), f"rubis site {options}: record {number}"
        site.stdin.close()
    assert site.returncode == 0
    counted("edge runs", 1)


def test_failed_writes(program: pathlib.Path, counted: Counted) -> None:
    """Output that can't be written; a run that has nothing to write is well all the same."""
    runs = [("site", b"user,ann\n"), ("world", b"x\n"), ("audit", b""), ("lack", b"site,0\n"), ("check", b""), ("widen", b"site,0\n"),
            ("lack --waiting --site 1 --sites 2", b"msg,1,0,2,0,1:0,item,0.1,cup,9,3,50,80\n")]
    silent = ("site", "world", "lack --waiting", "widen")
    with open("/dev/full", "wb") as full:
        for words, text in runs:
            expect(program, Expected(words, text, b"", 1, b"run fault: write\n"), stdout=full)
        for words in silent:
            expect(program, Expected(words, b"", b""), stdout=full)
    counted("edge runs", len(runs) + len(silent))


def peak(program: pathlib.Path, text: bytes, lines: int) -> int:
    """The most memory, in bytes, that site 1 of 2 with one worker takes for this input until it has written that many lines."""
    words = [str(program), "site", "--site", "1", "--sites", "2", "--workers", "1"]
    with subprocess.Popen(words, stdin=subprocess.PIPE, stdout=subprocess.PIPE) as site:
        assert site.stdin and site.stdout
        feeder = threading.Thread(target=site.stdin.write, args=(text,))
        feeder.start()
        while lines > 0 and (read := os.read(site.stdout.fileno(), 1 << 20)):
            lines -= read.count(b"\n")
        most = kilobytes_of(site.pid, "VmHWM") * 1024
        feeder.join()
        site.stdin.close()
    return most


def test_long_listing(program: pathlib.Path, counted: Counted) -> None:
    """A listing of 100,000 comments, which is written out while it is made: it adds less to the memory than half of its text has."""
    comments, words = 100_000, b"x" * 200
    text = b"msg,1,0,1,1,0:0,user,ann\nmsg,1,0,2,2,1:0,user,bob\nmsg,1,0,3,0,2:0,item,0.1,cup,9,3,50,80\n"
    text += b"".join(b"msg,1,0,%d,0,%d:0,comment,0.3,0.2,0.1,1,%s\n" % (n, n - 1, words) for n in range(4, comments + 4))
    before = peak(program, text, comments + 3)
    more = peak(program, text + b"list,comments,0.1\n", 2 * comments + 4) - before
    assert before and more < comments * len(words) // 2, f"a listing of {comments} comments takes {more} bytes more than the {before} before it"
    counted("edge runs", 1)
