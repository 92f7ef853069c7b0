"""Runs of cases: how one reaches a program, what it leaves, whether two programs differ in it, and how small one in which they do can be."""

import contextlib
import dataclasses
import fcntl
import os
import pathlib
import re
import select
import shlex
import subprocess
import tempfile
import termios
import time
from collections.abc import Callable, Iterator

from shrink import smaller
from tests.cases import Case

PATIENCE = 120.0        # for how many seconds a run may take, and a record of a pipe be without an answer
MOST_RUNS = 1_500       # that the making smaller of a case may take
SMALL = 5_000           # pieces of a case that is made smaller
NOTHING: dict[str, str] = {}
Run = Callable[[Case], "Outcome"]       # runs a case in one way


@dataclasses.dataclass(frozen=True)
class Outcome:
    """What a run left: its status, or why it has none; its output, and the fault that it told."""

    status: int | str
    output: bytes
    fault: bytes


def ended(process: "subprocess.Popen[bytes]") -> Outcome:
    """How a process ends, which is killed once it takes too long."""
    assert process.stderr
    try:
        status: int | str = process.wait(PATIENCE)
    except subprocess.TimeoutExpired:
        process.kill()
        status = "hangs"
    return Outcome(status, b"", process.stderr.read())


def pieces_of(text: bytes, sizes: list[int]) -> Iterator[bytes]:
    """A text in pieces of these sizes, over and over; of many small ones only the first."""
    at = 0
    for turn in range(240):
        if at >= len(text):
            return
        size = sizes[turn % len(sizes)]
        yield text[at:at + size]
        at += size
    yield text[at:]


def write_pieces(pipe: int, text: bytes, sizes: list[int]) -> None:
    """Writes a text in pieces; each of the first waits a little until the one before is read."""
    with contextlib.suppress(BrokenPipeError):
        for turn, piece in enumerate(pieces_of(text, sizes)):
            until = time.monotonic() + 0.002
            while turn < 25 and any(fcntl.ioctl(pipe, termios.FIONREAD, bytes(4))) and time.monotonic() < until:
                os.sched_yield()
            left = memoryview(piece)
            while left:
                left = left[os.write(pipe, left):]


def run_plainly(command: list[str], case: Case) -> Outcome:
    """A run over a file, or over a pipe that waits for no answer."""
    with tempfile.TemporaryFile(dir="/dev/shm") as records, tempfile.TemporaryFile(dir="/dev/shm") as output, open("/dev/full", "wb") as full:
        records.write(case.text())
        records.seek(0)
        source = subprocess.PIPE if case.chunks else os.open("/", os.O_RDONLY) if case.fails == "read" else os.dup(records.fileno())
        target = full if case.fails == "write" else output
        with subprocess.Popen(command, stdin=source, stdout=target, stderr=subprocess.PIPE, env=NOTHING) as process:
            if process.stdin:
                write_pieces(process.stdin.fileno(), case.text(), case.chunks)
                process.stdin.close()
            else:
                os.close(source)
            outcome = ended(process)
        output.seek(0)
        return dataclasses.replace(outcome, output=output.read())


def wait_for(pipe: int, output: bytearray, answer: re.Pattern[bytes]) -> bool:
    """Reads until an answer is there; whether it came."""
    searched = 0
    while not answer.search(output, max(0, searched - 30)):
        searched = len(output)
        ready, _, _ = select.select([pipe], [], [], PATIENCE)
        more = os.read(pipe, 1 << 16) if ready else b""
        if not more:
            return False
        output += more
    return True


def run_live(command: list[str], case: Case) -> Outcome:
    """A run in which each few records wait for the answers to those before."""
    with subprocess.Popen(command, stdin=subprocess.PIPE, stdout=subprocess.PIPE, stderr=subprocess.PIPE, env=NOTHING) as process:
        assert process.stdin and process.stdout
        records, answers = process.stdin.fileno(), process.stdout.fileno()
        output, in_time, at = bytearray(), True, 0
        while at < len(case.pieces) and in_time:
            end = min(len(case.pieces), at + 1 + case.chunks[at % len(case.chunks)] % 5)
            with contextlib.suppress(BrokenPipeError):
                os.write(records, b"".join(case.pieces[at:end]))
            answered = next((number for number in range(end, at, -1) if case.pieces[number - 1].strip() != b"audit"), None)
            is_whole = case.pieces[end - 1].endswith((b"\n", b"\r"))
            if answered and is_whole:
                in_time = wait_for(answers, output, re.compile(rb"(?:reply|world),%d," % answered))
            at = end
        process.stdin.close()
        while in_time and (more := os.read(answers, 1 << 16)):
            output += more
        outcome = ended(process)
    return dataclasses.replace(outcome, output=bytes(output), status=outcome.status if in_time else "leaves a record without an answer")


def run(program: pathlib.Path | str, case: Case) -> Outcome:
    outcome = run_live([str(program), *case.command], case) if case.live else run_plainly([str(program), *case.command], case)
    # What stands on standard error for a wrong command line is each program's own.
    return dataclasses.replace(outcome, fault=b"") if outcome.status == 2 else outcome


def shrunk(case: Case, differ: Callable[[Case], bool]) -> Case:
    """A case with fewer records, options and pieces in which the programs still differ."""
    runs = 0

    def still(tried: Case) -> bool:
        nonlocal runs
        runs += 1
        return runs < MOST_RUNS and differ(tried)

    settled = case.command[:case.command.index("--sites") + 2]
    for tried in (dataclasses.replace(case, chunks=[], live=False), dataclasses.replace(case, chunks=[], live=False, command=settled)):
        case = tried if still(tried) else case
    return dataclasses.replace(case, pieces=smaller(case.pieces, lambda pieces: still(dataclasses.replace(case, pieces=pieces))))


def expect_same(name: str, case: Case, rubis: Run, other: Run) -> None:
    """Fails where the two differ, with the case made smaller, and its input in a file."""
    if rubis(case) == other(case):
        return
    if len(case.pieces) < SMALL:
        case = shrunk(case, lambda tried: rubis(tried) != other(tried))
    file = pathlib.Path(f"differ-{name.replace(':', '-')}.input")
    file.write_bytes(case.text())
    outcomes = {"rubis": rubis(case), "other": other(case)}
    lines = [f"case {name}: rubis {shlex.join(case.command)} < {file}" + (f" on a pipe, in pieces of {case.chunks}" if case.chunks else "")]
    lines += [f"  {who}: status {outcome.status} {outcome.fault!r}, {len(outcome.output)} bytes" for who, outcome in outcomes.items()]
    found, wanted = (outcome.output.split(b"\n") for outcome in outcomes.values())
    for place in range(max(len(found), len(wanted))):
        if found[place:place + 1] != wanted[place:place + 1]:
            lines.append(f"  from line {place + 1}:\n    rubis {found[place:place + 2]}\n    other {wanted[place:place + 2]}")
            break
    raise AssertionError("\n".join(lines))
