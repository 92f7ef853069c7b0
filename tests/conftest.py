"""Options, fixtures and the summary of all tests.

A new test is a function `test_..` in a file `tests/test_SUBJECT.py`: it opens with one sentence, says `assert claim, "what"`, and takes what
it needs by name:

- `program`, the file of the built `rubis` (pytest --program=PATH, with the sign, tries another one); `folder`, an empty folder of its own;
- `at`, a folder in which `./rubis` is the program and `./shop` the command (tests/folder.py): at.run("./shop start auction --sites 2"),
  at.start_sale(2), at.shop("ask 0 user,ann"), at.status(), at.wait(what, holds), at.kill(process), at.start(command), and
  at.goes_on("./shop start auction", "0 user,eve", "0.4", "why"); its end stops what runs there;
- `server`, a Redis server for `at` (tests/server.py), with server.start_shop(), start_sale() or start_apart(), server.say(..), server.kill(), server.start();
- `web`, `shop serve` over the shop in at's folder `auction`, which is started first: web.get(path), web.post(path, body), web.ask(0, record);
  Web(at, words) of tests/web.py where it takes options or the shop is started otherwise;
- `browser`, one page of Chromium (picture_tool/tests/browser.py); `strace`: with strace(process, "write,fsync") as calls;
- `extent`, how long it may take: extent.seed, extent.seconds(30), extent.count(15), each a default that an option replaces;
- `counted("conversations", 7)`, what the summary counts; of tests/needs.py need("cargo") skips a test by name where it isn't installed, and
  built("rubis_decider"), which is the program of another crate, where it isn't built.

Marks: slow, server, browser, kill; a test that takes the fixture `server` or `browser` has the mark."""

import collections
import contextlib
import dataclasses
import os
import pathlib
import random
import re
import signal
import subprocess
import tempfile
from collections.abc import Callable, Iterator

import pytest
from _pytest.terminal import TerminalReporter

from picture_tool.tests.browser import Browser, found
from tests.folder import SECONDS, Counted, Folder, Strace
from tests.needs import TOP, need
from tests.server import Server
from tests.web import Web

BUILT = TOP / "crates/rubis_app/out/rubis_app"


def pytest_addoption(parser: pytest.Parser) -> None:
    group = parser.getgroup("rubis")
    group.addoption("--program", type=pathlib.Path, metavar="PATH", help="the built rubis to try (by default the one that ./rubis runs)")
    group.addoption("--seconds", type=float, metavar="N", help="how long each test that runs for a time takes")
    group.addoption("--count", type=int, metavar="N", help="how many runs, kills or cases each test that counts them makes")
    group.addoption("--seed", type=int, metavar="N", help="what random tests draw from (by default another one each time)")


def pytest_configure(config: pytest.Config) -> None:
    os.environ.pop("RUBIS", None)       # else `shop` would take that program
    os.environ.pop("PYTHONDONTWRITEBYTECODE", None)     # else each of some thousand commands would compile `shop` anew
    if config.option.program is None:
        which = subprocess.run([TOP / "rubis", "--which"], stdin=subprocess.DEVNULL, capture_output=True, text=True)
        config.option.program = BUILT if which.returncode else pathlib.Path(which.stdout.rstrip("\n"))
    if config.option.seed is None:
        config.option.seed = random.randrange(1_000_000)


def pytest_report_header(config: pytest.Config) -> str:
    return f"rubis: {config.option.program}, --seed {config.option.seed}"


def pytest_ignore_collect(collection_path: pathlib.Path, config: pytest.Config) -> bool | None:
    """Of a -k of one word, leaves out files that have no such test by what they define and mark, since to import all of them takes a second.
    Where tests have parameters, the word may come from these."""
    word = config.option.keyword.lower()
    if not word.isidentifier() or word == "not" or collection_path.suffix != ".py" or word in str(collection_path).lower():
        return None
    names = " ".join(re.findall(r"^\s*(?:def|class|@|pytestmark).*", collection_path.read_text(), re.M)).lower()
    return None if word in names or "parametrize" in names else True


def pytest_collection_modifyitems(items: list[pytest.Item]) -> None:
    """Marks what takes a server or a browser; what is slow comes first, so that no processor waits for it at the end."""
    for item in items:
        for name in ("server", "browser"):
            if name in getattr(item, "fixturenames", ()):
                item.add_marker(name)
    items.sort(key=lambda item: item.get_closest_marker("slow") is None)


def pytest_terminal_summary(terminalreporter: TerminalReporter, config: pytest.Config) -> None:
    """What was counted, and how to draw the same again."""
    counts = collections.Counter[str]()
    for reports in terminalreporter.stats.values():
        for report in reports:
            if isinstance(report, pytest.TestReport) and report.when == "call":
                for name, number in report.user_properties:
                    counts[name] += int(str(number))
    if counts:
        terminalreporter.section("counted")
    for name, number in sorted(counts.items()):
        terminalreporter.line(f"{name}: {number:,}")
    if terminalreporter.stats.get("failed"):
        terminalreporter.line(f"random tests drew from --seed {config.option.seed}")


@dataclasses.dataclass(frozen=True)
class Extent:
    """How long a test may take, and the seed that it draws from; what the options say comes before what a test says."""

    seed: int
    given_seconds: float | None
    given_count: int | None

    def seconds(self, default: float) -> float:
        return default if self.given_seconds is None else self.given_seconds

    def count(self, default: int) -> int:
        return default if self.given_count is None else self.given_count


@pytest.fixture(scope="session")
def extent(request: pytest.FixtureRequest) -> Extent:
    option = request.config.option
    return Extent(option.seed, option.seconds, option.count)


@pytest.fixture(scope="session")
def program(request: pytest.FixtureRequest) -> pathlib.Path:
    found = pathlib.Path(request.config.option.program).resolve()
    assert os.access(found, os.X_OK), f"there is no program {found}: `./rubis site` builds it, --program PATH names another one"
    return found


@pytest.fixture
def counted(record_property: Callable[[str, object], None]) -> Counted:
    return record_property


@pytest.fixture
def folder() -> Iterator[pathlib.Path]:
    """An empty folder with a short name, since the path of a socket has to be short."""
    with tempfile.TemporaryDirectory(ignore_cleanup_errors=True) as path:
        yield pathlib.Path(path)


@pytest.fixture
def at(folder: pathlib.Path, program: pathlib.Path) -> Iterator[Folder]:
    made = Folder(folder, program)
    yield made
    made.close()


@pytest.fixture
def server(at: Folder) -> Server:
    return Server(at)


@pytest.fixture
def web(at: Folder) -> Web:
    at.run("./shop start auction")
    return Web(at)


@pytest.fixture
def browser() -> Iterator[Browser]:
    if not found():
        need("chromium")
    with Browser() as made:
        yield made


@pytest.fixture
def strace(at: Folder) -> Strace:
    """What a process asks of the system while the block runs: the calls of these names, a line each once it has ended."""
    need("strace")

    @contextlib.contextmanager
    def traced(process: int, calls: str) -> Iterator[list[str]]:
        lines: list[str] = []
        trace = at.start(f"strace -f -qq -y -e trace={calls} -s 200 -o trace -p {process}")
        at.wait("strace", lambda: re.search(r"TracerPid:\s*[1-9]", pathlib.Path(f"/proc/{process}/status").read_text()))
        yield lines
        os.killpg(trace.pid, signal.SIGINT)
        trace.wait(SECONDS)
        lines += at.text("trace").splitlines()
    return traced
