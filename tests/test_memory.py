"""Programs run again and again, each time with one more call for memory refused, or with one more start of a thread.

A small library, built by the compiler of the toolchain and loaded before a program, has malloc and its kin refuse their n-th call, for n from
1 on, the calls at the start of a thread among them. Each scenario of crates/rubis_growths is run so, and rubis on conversations: what a scenario
tells of refused calls has to say that nothing was changed, or how far the tables are; rubis ends well with the whole text, or with a prefix of
it and `run fault: memory`. Where the start of a thread is refused, the n-th alone or all from the n-th on, nothing is told: the caller's thread
does the work.

Every n is taken up to EACH (or --count), and then every STEP-th, until RUNS runs in a row met no refusal: how often memory is asked for
depends a little on how threads take turns. Of the scenarios of WHOLE, every n is taken. Where no run told what some run has to
tell (SHOWN), those between are taken too, until one does."""

import concurrent.futures
import itertools
import os
import pathlib
import re
import subprocess
import tempfile
from collections.abc import Iterable, Sequence

import pytest

from tests.conftest import Extent
from tests.folder import Counted
from tests.needs import TOP, built, need
from tests.test_conversations import Run, runs_of

SCENARIOS: list[str] = re.findall(r'^ +"(\w+)" =>', (TOP / "crates/rubis_growths/src/main.rt").read_text(), re.M)
EACH, STEP, MANY, RUNS = 400, 37, 10 ** 9, 24
WHOLE = {"every_growth_site", "every_growth_windows", "every_growth_script", "short_apply"}
SECONDS = 60            # in which a run has to end
MARK = b"refused\n"     # is written by the library where it refuses a call

LIBRARY = r"""
typedef unsigned long size_t;

extern void *__libc_malloc(size_t);
extern void *__libc_realloc(void *, size_t);
extern void *__libc_calloc(size_t, size_t);
extern void *__libc_memalign(size_t, size_t);
extern char *getenv(const char *);
extern long strtol(const char *, char **, int);
extern long write(int, const void *, size_t);
extern int *__errno_location(void);
extern void *dlsym(void *, const char *);

static long refused_call, refused_start, refused_from;
static long calls, starts;

static long number(const char *name) {
    char *text = getenv(name);
    return text ? strtol(text, 0, 10) : 0;
}

__attribute__((constructor)) static void begin(void) {
    refused_call = number("REFUSED_CALL");
    refused_start = number("REFUSED_START");
    refused_from = number("REFUSED_FROM");
}

static int is_refused(void) {
    if (!refused_call || __atomic_add_fetch(&calls, 1, __ATOMIC_SEQ_CST) != refused_call) return 0;
    write(2, "refused\n", 8);
    *__errno_location() = 12;
    return 1;
}

void *malloc(size_t size) { return is_refused() ? 0 : __libc_malloc(size); }
void *realloc(void *old, size_t size) { return is_refused() ? 0 : __libc_realloc(old, size); }
void *calloc(size_t count, size_t size) { return is_refused() ? 0 : __libc_calloc(count, size); }
void *aligned_alloc(size_t align, size_t size) { return is_refused() ? 0 : __libc_memalign(align, size); }

int pthread_create(void *thread, const void *attributes, void *(*run)(void *), void *given) {
    long start = __atomic_add_fetch(&starts, 1, __ATOMIC_SEQ_CST);
    if (start == refused_start || (refused_from && start >= refused_from)) {
        write(2, "refused\n", 8);
        return 11;
    }
    int (*begin)(void *, const void *, void *(*)(void *), void *) = dlsym((void *)-1, "pthread_create");
    return begin(thread, attributes, run, given);
}
"""

# The scenarios that may end before their last answer, each with the line that then is the last: runs from records to text, and
# a world with a site that is behind.
ENDS = {
    "every_growth_script": b"! run fault: memory\n",
    "whole_world": b"! run fault: memory\n",
    "whole_audit": b"! run fault: memory\n",
    "world_behind": b"! World: behind, unchanged\n",
}

# What has to be told in some run of a scenario.
SHOWN = {
    "short_apply": rb"! Shard::apply: 2 done",
    "every_growth_site": rb"! Site::catch_up: \d+ parts",
    "every_growth_windows": rb"! Site::catch_up: \d+ parts",
    "two_shares_again": rb"! apply_all: memory, unchanged",
    "world_behind": rb"! World: behind, unchanged",
}

# What is answered if nothing is refused: a conversation, and how many of its records there are.
TEXTS: dict[str, tuple[str, int | None]] = {
    "every_growth_site": ("two_hundred_packets.txt", 203),
    "every_growth_windows": ("two_hundred_packets.txt", 203),
    "every_growth_script": ("two_hundred_packets.txt", 203),
    "whole_world": ("a_bid_at_another_site_comes_too_late.txt", None),
    "whole_audit": ("an_audit_of_a_sale_agrees.txt", None),
}

# What rubis is run on: a conversation, and options beyond its own.
COMMANDS: dict[str, tuple[str, list[str]]] = {
    "rubis site": ("two_hundred_packets.txt", ["--workers", "4", "--shards", "5", "--batch", "7"]),
    "rubis site, a long listing": ("three_thousand_comments.txt", ["--workers", "4", "--shards", "4", "--batch", "65536"]),
    "rubis site, messages that helpers fold": ("three_thousand_comments.txt", ["--workers", "2", "--shards", "4", "--batch", "64"]),
    "rubis keep": ("two_hundred_packets.txt", ["--workers", "4", "--shards", "5", "--batch", "7"]),
    "rubis world": ("a_bid_at_another_site_comes_too_late.txt", ["--workers", "4", "--shards", "5", "--batch", "2"]),
    "rubis audit": ("an_audit_of_a_sale_agrees.txt", []),
    "rubis lack": ("what_two_logs_lack.txt", []),
    "rubis lack --waiting": ("what_waits_at_a_site.txt", []),
    "rubis check": ("what_is_wrong_with_a_record.txt", []),
    "rubis widen": ("logs_are_widened.txt", []),
}

# What a scenario may tell of a refused call.
TOLD = re.compile(r"! [\w:]+: (memory, unchanged|behind, unchanged|\d+ parts|\d+ done)")


@pytest.fixture(scope="session")
def made(tmp_path_factory: pytest.TempPathFactory) -> pathlib.Path:
    """The library, built by the toolchain's compiler."""
    need("rt")
    folder = tmp_path_factory.mktemp("memory")
    page = subprocess.run(["rt", "doc"], capture_output=True, check=True, text=True).stdout.strip()
    tools = pathlib.Path(page).parent / "toolchain/bin"
    source, part, library = (folder / name for name in ("refuse.c", "refuse.o", "refuse.so"))
    source.write_text(LIBRARY)
    subprocess.run([tools / "clang", "-O2", "-fPIC", "-w", "-c", source, "-o", part], check=True)
    subprocess.run([tools / "ld.lld", "-shared", "-o", library, part], check=True)
    return library


def conversation(name: str) -> Run:
    """The first command of a conversation."""
    return runs_of(TOP / "conversations" / name, name)[0]


def text_of(name: str, many: int | None) -> str:
    """What a conversation says that its first records are answered with."""
    run = conversation(name)
    return "".join(f"{line}\n" for _, line in run.answers[:None if many is None else run.answers_before(many)])


class Tried:
    """A program with its arguments and its input, and what it has to write if nothing is refused."""

    def __init__(self, name: str, words: list[str], text: str, want: str | None):
        self.name, self.words, self.text, self.want = name, words, text.encode(), want
        self.status, self.whole = 0, b""        # how it ends, and what it writes, if nothing is refused
        self.is_shown = name not in SHOWN

    def run(self, number: int, made: pathlib.Path, what: str = "REFUSED_CALL", words: Sequence[str] = ()) -> tuple[int, bytes, bytes]:
        """Runs it, or that command line, with that call for memory refused, or that start of a thread: its status and what it wrote."""
        setting = {**os.environ, "LD_PRELOAD": str(made), what: str(number)}
        ran = subprocess.run(words or self.words, input=self.text, capture_output=True, env=setting, timeout=SECONDS)
        return ran.returncode, ran.stdout, ran.stderr

    def begin(self, made: pathlib.Path) -> None:
        """Runs it with nothing refused."""
        self.status, self.whole, said = self.run(0, made)
        assert self.status in (0, 1) and not said, f"{self.name}: with nothing refused: status {self.status}, {said!r}, {self.whole[-60:]!r}"
        assert self.want is None or self.answers(self.whole) == self.want.encode(), f"{self.name}: with nothing refused: not what the conversation says"

    def answers(self, wrote: bytes) -> bytes:
        return wrote

    def check(self, status: int, wrote: bytes, said: bytes) -> None:
        raise NotImplementedError

    def is_start_refused(self, number: int, made: pathlib.Path, what: str) -> bool:
        """Runs it with that start of a thread refused, and checks that it answers as if none were: whether there was such a start."""
        status, wrote, said = self.run(number, made, what)
        is_as_if_none = (status, said.replace(MARK, b""), wrote) == (self.status, b"", self.whole)
        assert is_as_if_none, f"{self.name}, {what}={number}: status {status}, {said[-200:]!r}, {wrote[-200:]!r}"
        return MARK in said

    def is_refused(self, call: int, made: pathlib.Path) -> bool:
        """Runs it with that call refused, and checks what came of it: whether there was such a call."""
        try:
            status, wrote, said = self.run(call, made)
            refused = MARK in said
            self.check(status, wrote, said.replace(MARK, b""))
        except (AssertionError, subprocess.TimeoutExpired) as fault:
            raise AssertionError(f"{self.name}, call {call} refused: {fault}") from None
        return refused


class Scenario(Tried):
    """Calls, each of which is made again where memory is refused; or the scenario is run again, if the call changes nothing."""

    def answers(self, wrote: bytes) -> bytes:
        """What was answered the last time that it was run."""
        last = re.split(rb"^scenario .*\n", wrote, flags=re.M)[-1]
        return b"".join(line for line in last.splitlines(keepends=True) if not line.startswith(b"! "))

    def begin(self, made: pathlib.Path) -> None:
        super().begin(made)
        assert b"\n! " not in b"\n" + self.whole, f"{self.name}: with nothing refused: {self.whole.decode()}"

    def check(self, status: int, wrote: bytes, said: bytes) -> None:
        assert not status and not said, f"status {status}, {said!r}, {wrote[-200:]!r}"
        end = ENDS.get(self.name, b"")
        is_cut = bool(end) and wrote.endswith(end)
        told = wrote.removesuffix(end)
        for line in re.findall("^! .*", told.decode(), re.M):
            assert TOLD.fullmatch(line), line
        got, want = self.answers(told), self.answers(self.whole)
        assert got == want or is_cut and want.startswith(got), f"other answers: {wrote[-200:]!r}"
        self.is_shown |= self.name in SHOWN and re.search(SHOWN[self.name], wrote) is not None


class Command(Tried):
    """rubis on a conversation's records."""

    fault = re.compile(rb"run fault: memory\n")

    def check(self, status: int, wrote: bytes, said: bytes) -> None:
        is_whole = status == self.status and not said and wrote == self.whole
        is_cut = status == 1 and self.fault.fullmatch(said) is not None and self.whole.startswith(wrote)
        assert is_whole or is_cut, f"status {status}, {said!r}, {len(wrote)} bytes"


class Keeping(Command):
    """rubis keep on a conversation's records, each time in a folder of its own, which is then started with nothing refused."""

    fault = re.compile(rb"run fault: (memory|[a-z ]+: out of memory)\n")

    def run(self, number: int, made: pathlib.Path, what: str = "REFUSED_CALL", words: Sequence[str] = ()) -> tuple[int, bytes, bytes]:
        """What was kept is the first of the records, and the next start answers it."""
        with tempfile.TemporaryDirectory() as folder:
            site = pathlib.Path(folder, "site")
            words = [self.words[0], "keep", str(site), *self.words[2:]]
            ran = super().run(number, made, what, words)
            again = subprocess.run(words, input=b"", capture_output=True, timeout=SECONDS)
            assert not again.returncode, f"the next start: status {again.returncode}, {again.stderr!r}"
            assert self.text.startswith((site / "kept").read_bytes()), "the next start leaves another `kept`"
            assert self.answers(self.whole).startswith((site / "out").read_bytes()), "the next start leaves another `out`"
        return ran

    def begin(self, made: pathlib.Path) -> None:
        self.whole = b"kept\n" + (self.want or "").encode()
        super().begin(made)

    def answers(self, wrote: bytes) -> bytes:
        """What follows the line `kept`."""
        return wrote.partition(b"\n")[2]


class Refusing:
    """Refuses one call after the other of what is tried: how many runs there were, and how many of them met a refusal."""

    def __init__(self, tried: Tried, made: pathlib.Path, each: int) -> None:
        self.tried, self.made = tried, made
        self.each = MANY if tried.name in WHOLE else each
        self.runs = self.met = 0
        # Beside other tests, one run at a time.
        self.pool = concurrent.futures.ThreadPoolExecutor(1 if "PYTEST_XDIST_WORKER" in os.environ else os.cpu_count())

    def refuse(self, calls: Iterable[int]) -> bool:
        """Refuses each of these, whether one of them was met."""
        answers = list(self.pool.map(lambda call: self.tried.is_refused(call, self.made), calls))
        self.runs, self.met = self.runs + len(answers), self.met + sum(answers)
        return any(answers)

    def refuse_each(self) -> None:
        self.tried.begin(self.made)
        calls = itertools.chain(range(1, self.each), itertools.count(self.each, STEP))
        while self.refuse(some := list(itertools.islice(calls, RUNS))):
            pass
        # Refuses the calls up to the last one that were passed over, until what has to be told is told. Which call it is that
        # leads to that depends on how threads take turns.
        for first in range(self.each + 1, some[-1], RUNS):
            if self.tried.is_shown:
                break
            self.refuse(range(first, first + RUNS))
        assert self.tried.is_shown, f"{self.tried.name}: no run told {SHOWN[self.tried.name].decode()}"

    def refuse_starts(self) -> int:
        """Refuses one start of a thread after the other, each alone and with all after it: how many runs met a refusal."""
        met, first, alone = 0, 1, [True]
        while any(alone):
            numbers = range(first, first + RUNS)
            alone = list(self.pool.map(lambda number: self.tried.is_start_refused(number, self.made, "REFUSED_START"), numbers))
            later = list(self.pool.map(lambda number: self.tried.is_start_refused(number, self.made, "REFUSED_FROM"), numbers))
            met, first = met + sum(alone) + sum(later), first + RUNS
        return met


def expect_all_is_told(tried: Tried, made: pathlib.Path, extent: Extent, counted: Counted) -> None:
    refusing = Refusing(tried, made, extent.count(EACH))
    with refusing.pool:
        refusing.refuse_each()
        counted("thread starts refused", refusing.refuse_starts())
    counted("runs with a call for memory refused", refusing.runs)
    counted("calls for memory refused", refusing.met)


@pytest.mark.slow
@pytest.mark.parametrize("name", SCENARIOS)
def test_scenario(name: str, made: pathlib.Path, extent: Extent, counted: Counted) -> None:
    tried = Scenario(name, [str(built("rubis_growths")), name], "", text_of(*TEXTS[name]) if name in TEXTS else None)
    expect_all_is_told(tried, made, extent, counted)


@pytest.mark.slow
@pytest.mark.parametrize("name", COMMANDS)
def test_command(name: str, program: pathlib.Path, made: pathlib.Path, extent: Extent, counted: Counted) -> None:
    told, options = COMMANDS[name]
    run = conversation(told)
    kind = Keeping if name == "rubis keep" else Command
    tried = kind(name, [str(program), *run.words, *options], "".join(f"{record}\n" for record in run.records), text_of(told, None))
    expect_all_is_told(tried, made, extent, counted)
