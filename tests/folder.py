"""A folder in which a test runs commands, with the program and the command `shop` in it."""

import concurrent.futures
import contextlib
import json
import os
import pathlib
import re
import signal
import socket
import subprocess
import tempfile
import time
from collections.abc import Callable, Iterator
from typing import Any

from shop_tool import client
from tests.needs import TOP

SECONDS = 180       # for how long anything is waited for
Strace = Callable[[int, str], contextlib.AbstractContextManager[list[str]]]
Counted = Callable[[str, int], None]     # adds to what the summary counts
SALE = "user,ann user,bob item,0.1,lamp,7,3,100,80"


def is_running(process: int) -> bool:
    """Whether a process hasn't ended yet."""
    try:
        return b") Z " not in pathlib.Path(f"/proc/{process}/stat").read_bytes()
    except OSError:
        return False


def kilobytes_of(process: int, what: str = "VmRSS") -> int:
    """The memory of a process; with VmHWM, the most that it had."""
    return int(re.findall(rf"{what}:\s*(\d+) kB", pathlib.Path(f"/proc/{process}/status").read_text())[0])


class Folder:
    """A folder in which a test runs, and what it has running there."""

    def __init__(self, path: pathlib.Path, program: pathlib.Path) -> None:
        self.path, self.program = path, program
        os.symlink(program, self.path / "rubis")
        os.symlink(TOP / "shop", self.path / "shop")
        self.running: list[subprocess.Popen[bytes]] = []

    def start(self, command: str, **streams: int) -> "subprocess.Popen[bytes]":
        """Starts a command that runs on, with nothing to read and nobody to read it but for these streams."""
        given = dict.fromkeys(("stdin", "stdout", "stderr"), subprocess.DEVNULL) | streams
        made: "subprocess.Popen[bytes]" = subprocess.Popen(["sh", "-c", f"exec {command}"], cwd=self.path, start_new_session=True, **given)  # type: ignore
        self.running.append(made)
        return made

    def run(self, command: str, status: int = 0, says: str = "") -> str:
        """What a command writes. It has to end with this status, and to say this on standard error."""
        with tempfile.TemporaryFile() as written, tempfile.TemporaryFile() as told:
            # By `timeout`, since a wait of Python's that has an end looks only every 50 ms.
            done = subprocess.run(["timeout", "--foreground", str(SECONDS), "sh", "-c", command], cwd=self.path, stdin=subprocess.DEVNULL,
                                  stdout=written, stderr=told)
            written.seek(0)
            told.seek(0)
            fault = told.read().decode("utf-8", "surrogateescape").strip()
            assert done.returncode == status, f"`{command}` ended with status {done.returncode}: {fault}"
            assert says in fault, f"`{command}` said: {fault}"
            return written.read().decode("utf-8", "surrogateescape")

    def run_at_once(self, commands: dict[str, str], status: int) -> None:
        """Commands beside each other, each of which has to end with this status and to say its text on standard error."""
        with concurrent.futures.ThreadPoolExecutor() as pool:
            list(pool.map(lambda command: self.run(command, status, commands[command]), commands))

    def shop(self, words: str, status: int = 0, says: str = "", folder: str = "auction") -> str:
        return self.run(f"./shop -C {folder} {words}", status, says)

    def start_sale(self, sites: int = 1, options: str = "", published: bool = False) -> None:
        """Starts a shop with this number of sites, and sells something at the first."""
        self.run(f"./shop start auction --sites {sites} {options}")
        self.shop(f"ask 0 {SALE}{' --published' * published}")

    def goes_on(self, command: str, ask: str, id: str, why: str, folder: str = "auction", audit: str = "") -> None:
        """After that command a shop accepts an ask under that id, and where a folder is named for it, its audit agrees."""
        self.run(command)
        assert self.shop(f"ask {ask}", folder=folder) == f"ok,{id}\n", why
        if audit:
            self.shop("audit", folder=audit)

    def accepts_nothing(self, command: str, why: str, ask: str, folder: str = "auction") -> None:
        """That start says why a site doesn't run, which then accepts nothing."""
        self.run(command, 3, why)
        self.shop(f"ask {ask}", 3, "nothing was given to it", folder)

    def read_all(self, *sites: int, folder: str = "auction") -> None:
        """Waits until each of these has read what there is."""
        for site in sites:
            self.shop(f"wait {site}", folder=folder)

    def status(self, folder: str = "auction") -> dict[str, Any]:
        """What `shop status --json` prints of a shop that runs."""
        answer = client.one(str(self.path / folder), {"op": "status"}, SECONDS)
        found: dict[str, Any] = answer["shop"] | {"well": answer["well"]}
        return found

    def site(self, number: int, folder: str = "auction") -> dict[str, Any]:
        found: dict[str, Any] = self.status(folder)["site"][number]
        return found

    def keeper(self, number: int, folder: str = "auction") -> int:
        """The process that keeps a site, once there is one: after a kill the next may be still to come."""
        self.wait(f"a process of site {number}", lambda: self.site(number, folder)["pid"])
        process: int = self.site(number, folder)["pid"]
        return process

    def text(self, name: str) -> str:
        return (self.path / name).read_text()

    def line(self, folder: str = "auction", seconds: float = SECONDS) -> socket.socket:
        """A connection to the supervisor's socket."""
        made = socket.socket(socket.AF_UNIX)
        made.connect(os.path.relpath(self.path / folder / "sock"))      # which waits for room; with a time-out it would fail at once
        made.settimeout(seconds)
        return made

    def write_secret(self, name: str, text: str) -> None:
        """Writes a file that nobody else may read."""
        (self.path / name).write_text(text)
        (self.path / name).chmod(0o600)

    def said(self, line: bytes, folder: str = "auction") -> list[dict[str, Any]]:
        """What the supervisor answers to one line of its socket."""
        with self.line(folder) as asked:
            asked.sendall(line + b"\n")
            with asked.makefile("rb") as answers:
                return [json.loads(answer) for answer in answers]

    def said_at_once(self, requests: list[dict[str, Any]]) -> list[dict[str, Any]]:
        """The last answers to requests that are made over one connection, some hundred at once."""
        last: dict[int, dict[str, Any]] = {}
        with self.line() as asked:
            asked.sendall(b'{"op": "several"}\n')
            with asked.makefile("rb") as answers:
                for begin in range(0, len(requests), 200):
                    some = range(begin, min(begin + 200, len(requests)))
                    asked.sendall(b"".join(json.dumps(requests[number] | {"call": number}).encode() + b"\n" for number in some))
                    while not all(number in last for number in some):
                        answer = json.loads(answers.readline())
                        if answer.get("end"):
                            last[answer["call"]] = answer
        return [last[number] for number in range(len(requests))]

    def wait(self, what: str, holds: Callable[[], object]) -> None:
        end = time.monotonic() + SECONDS
        while not holds():
            assert time.monotonic() < end, f"after {SECONDS} seconds still not: {what}"
            time.sleep(0.05)

    def kill(self, process: int) -> None:
        """Ends a process at once, if it hasn't ended, and waits until it has: on a busy machine its socket takes connections until then."""
        with contextlib.suppress(ProcessLookupError):
            os.kill(process, signal.SIGKILL)
        until = time.monotonic() + SECONDS
        while is_running(process) and time.monotonic() < until:
            time.sleep(0.01)

    @contextlib.contextmanager
    def standing_still(self, process: int) -> Iterator[None]:
        """While the block runs the process is stopped, and goes on then."""
        os.kill(process, signal.SIGSTOP)
        try:
            yield
        finally:
            os.kill(process, signal.SIGCONT)

    def close(self) -> None:
        for made in self.running:
            try:
                os.killpg(made.pid, signal.SIGKILL)
            except ProcessLookupError:
                pass
            made.wait()
        for settings in self.path.glob("*/shop.json"):
            subprocess.run([self.path / "shop", "stop", settings.parent], capture_output=True)


def sends(at: Folder, site: str) -> list[str]:
    """The packets in a site's file `out`, without one that is torn."""
    lines = (at.path / site / "out").read_text(errors="replace").split("\n")[:-1]
    return [line[5:] for line in lines if line.startswith("send,")]
