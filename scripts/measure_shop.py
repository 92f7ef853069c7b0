#!/usr/bin/env python3
"""Measures what asks of a shop cost: scripts/measure_shop.py PROGRAM [--sync] [--seconds N]

One site is asked over connections that are kept, by 16 askers with one request at a time each, for N seconds: by the socket,
and over HTTP with one ask a request and with a hundred. Beside that, where they are installed: a server of aiohttp that reads such a
request and answers, Redis and etcd by 16 clients, SQLite with a transaction for each insert; and each as a command. Each has the
processor time of an ask too, of the supervisor (or the other server), the keeper, the server over HTTP, and the client, since rates are
those of a machine that has nothing else to do only where that is so. Figures go to standard output as JSON."""

import argparse
import base64
import contextlib
import json
import os
import pathlib
import selectors
import shlex
import shutil
import socket
import sqlite3
import subprocess
import sys
import tempfile
import time
from collections.abc import Callable, Iterator, Sequence
from typing import Any

from top import TOP

from shop_tool import client


def parts_of(seconds: list[float]) -> dict[str, float]:
    """Within how many milliseconds half of them, 99 of 100, and all are."""
    found = sorted(seconds)
    within = {"half": found[len(found) // 2], "99 of 100": found[len(found) * 99 // 100], "all": found[-1]}
    return {name: round(1000 * span, 1) for name, span in within.items()}


@contextlib.contextmanager
def selling(program: str, folder: str, sync: bool) -> Iterator[None]:
    """A shop in that folder, whose site sells something while the block runs."""
    def shop(*words: str) -> None:
        subprocess.run([TOP / "shop", *words], check=True, stdout=subprocess.DEVNULL, env=os.environ | {"RUBIS": program})
    shop("start", folder, *["--sync"] * sync)
    try:
        shop("-C", folder, "ask", "0", "user,ann", "user,bob", "item,0.1,lamp,7,1,100,0")
        yield
    finally:
        shop("stop", folder)


def bid(number: int) -> str:
    return f"bid,0.3,0.2,{1000 + number}"


ASKERS = 16
BARE = """
import json, sys
from aiohttp import web

async def answer(request):
    said = await request.json()
    asks = said if isinstance(said, list) else [said]
    told = [json.dumps({"record": ask["record"], "answer": "ok", "id": "0.1"}) for ask in asks]
    return web.Response(text="".join(line + chr(10) for line in told), content_type="application/json")

app = web.Application()
app.router.add_post("/sites/0/asks", answer)
web.run_app(app, host="127.0.0.1", port=int(sys.argv[1]), access_log=None, print=None)
"""


def free_port() -> int:
    with socket.socket() as made:
        made.bind(("127.0.0.1", 0))
        port: int = made.getsockname()[1]
        return port


def processor_seconds(process: int) -> float:
    """The processor time that a process has taken, without its children."""
    fields = pathlib.Path(f"/proc/{process}/stat").read_text().rpartition(")")[2].split()
    return (int(fields[11]) + int(fields[12])) / os.sysconf("SC_CLK_TCK")


def driven(opened: Callable[[], socket.socket], request: Callable[[int], bytes], is_whole: Callable[[bytes], bool], seconds: float, asks: int,
           processes: dict[str, int]) -> dict[str, Any]:
    """What 16 askers get who have a request of `asks` asks under way each, and the processor time of an ask."""
    lines, come, sent, spans, count = [opened() for _ in range(ASKERS)], dict[socket.socket, bytes](), dict[socket.socket, float](), [], 0
    before, own = {name: processor_seconds(process) for name, process in processes.items()}, time.process_time()
    with selectors.DefaultSelector() as waits, contextlib.ExitStack() as stack:
        for line in lines:
            stack.enter_context(line)
            waits.register(line, selectors.EVENT_READ)
            come[line], sent[line] = b"", time.monotonic()
            line.sendall(request(count := count + asks))
        began = time.monotonic()
        while time.monotonic() < began + seconds:
            for key, _ in waits.select():
                line = key.fileobj              # type: ignore[assignment]
                come[line] += line.recv(1 << 20)
                if is_whole(come[line]):
                    spans.append(time.monotonic() - sent[line])
                    come[line], sent[line] = b"", time.monotonic()
                    line.sendall(request(count := count + asks))
        took, done = time.monotonic() - began, len(spans) * asks
        taken = {name: processor_seconds(process) - before[name] for name, process in processes.items()} | {"client": time.process_time() - own}
    return {"a second": round(done / took), "ms a request": parts_of(spans),
            "processor µs an ask": {name: round(1e6 * span / done, 1) for name, span in taken.items()}}


def to_socket(folder: str) -> Callable[[], socket.socket]:
    def opened() -> socket.socket:
        line = socket.socket(socket.AF_UNIX)
        line.connect(f"{folder}/sock")
        line.sendall(b'{"op": "several"}\n')
        return line
    return opened


def to_port(port: int) -> Callable[[], socket.socket]:
    return lambda: socket.create_connection(("127.0.0.1", port))


def http(path: str, body: Any) -> bytes:
    text = json.dumps(body)
    head = f"POST {path} HTTP/1.1\r\nHost: 127.0.0.1\r\nContent-Type: application/json\r\nContent-Length: {len(text)}\r\n\r\n"
    return (head + text).encode()


def is_whole_http(text: bytes) -> bool:
    """Whether a response is there to its end; it has to say that all is well."""
    head, blank, body = text.partition(b"\r\n\r\n")
    if not blank:
        return False
    if not head.startswith((b"HTTP/1.1 200", b"HTTP/1.1 201")) or b"refused" in body:
        raise AssertionError(text)
    lower = head.lower()
    if b"chunked" in lower:
        return body.endswith(b"0\r\n\r\n")
    return len(body) >= int(lower.partition(b"content-length: ")[2].split(b"\r\n")[0])


def is_whole_line(text: bytes) -> bool:
    assert b"refused" not in text and b"fault" not in text, text
    return text.endswith(b'"end": true}\n')


def ask_by_socket(count: int) -> bytes:
    ask = {"op": "ask", "site": 0, "records": [bid(count)], "timeout": 60, "fetch": True, "call": 1}
    return json.dumps(ask).encode() + b"\n"


BY_HTTP: list[tuple[str, Callable[[int], bytes], int]] = [
    ("one ask a request", lambda count: http("/sites/0/asks", {"record": bid(count)}), 1),
    ("a hundred a request", lambda count: http("/sites/0/asks", [{"record": bid(count + each)} for each in range(100)]), 100),
]


@contextlib.contextmanager
def running(*command: str, port: int) -> Iterator[int]:
    """A server, once it takes connections; its process."""
    server = subprocess.Popen(command, stdout=subprocess.DEVNULL, stderr=subprocess.DEVNULL)
    try:
        until = time.monotonic() + 20
        while True:
            try:
                socket.create_connection(("127.0.0.1", port)).close()
                break
            except OSError:
                assert time.monotonic() < until and server.poll() is None, command
                time.sleep(0.05)
        yield server.pid
    finally:
        server.terminate()
        server.wait()


def seconds_of(command: Sequence[str], **given: Any) -> float:
    """The processor time of a command and of all that it waits for."""
    made = subprocess.Popen(command, **given)
    _, status, used = os.wait4(made.pid, 0)
    made.returncode = os.waitstatus_to_exitcode(status)
    assert made.returncode == 0, f"{command} ended with status {made.returncode}"
    return float(used.ru_utime + used.ru_stime)


def as_command(*command: str, **environment: str) -> dict[str, float]:
    """The processor time of a command, in milliseconds: the least of thirty, and half of them."""
    taken = sorted(1000 * seconds_of(command, stdout=subprocess.DEVNULL, env=os.environ | environment) for _ in range(30))
    return {"least": round(taken[0], 1), "half": round(taken[15], 1)}


def measured(folder: str, seconds: float) -> dict[str, Any]:
    """What asks of the shop in that folder cost."""
    found, command, port = dict[str, Any](), str(TOP / "shop"), free_port()
    status = client.one(folder, {"op": "status"}, 10)["shop"]
    own = {"supervisor": status["pid"], "keeper": status["site"][0]["pid"]}
    found["`python3 -I -S -c pass`, ms"] = as_command("/usr/bin/python3", "-I", "-S", "-c", "pass")
    found["`shop ask`, ms"] = as_command(command, "-C", folder, "ask", "0", bid(0))
    found["by the socket"] = driven(to_socket(folder), ask_by_socket, is_whole_line, seconds, 1, own)
    with running(command, "-C", folder, "serve", "--listen", f"127.0.0.1:{port}", port=port) as server:
        own["shop serve"] = server
        for name, request, asks in BY_HTTP:
            found[f"over HTTP, {name}"] = driven(to_port(port), request, is_whole_http, seconds, asks, own)
    return found


def beside(folder: str, sync: bool, seconds: float) -> dict[str, Any]:
    """The same of other servers, as far as they are installed."""
    found, port, peer = dict[str, Any](), free_port(), free_port()
    with running("/usr/bin/python3", "-c", BARE, str(port), port=port) as server:
        for name, request, asks in BY_HTTP:
            found[f"a bare server of aiohttp, {name}"] = driven(to_port(port), request, is_whole_http, seconds, asks, {"server": server})
    port = free_port()
    if shutil.which("redis-server"):
        options = f"--port {port} --bind 127.0.0.1 --dir {folder} --save '' --appendonly yes --appendfsync {'always' if sync else 'everysec'}"
        with running("redis-server", *shlex.split(options), port=port) as server:
            found["`redis-cli incr`, ms"] = as_command("redis-cli", "-p", str(port), "incr", "n")
            found["redis, INCR"] = driven(to_port(port), lambda count: b"INCR n\r\n", lambda text: text.endswith(b"\r\n"), seconds, 1, {"server": server})
    port = free_port()
    if shutil.which("etcd") and shutil.which("etcdctl"):
        urls = [f"http://127.0.0.1:{number}" for number in (port, peer)]
        words = ["--data-dir", f"{folder}/etcd", "--listen-client-urls", urls[0], "--advertise-client-urls", urls[0], "--listen-peer-urls", urls[1],
                 "--initial-advertise-peer-urls", urls[1], "--initial-cluster", f"default={urls[1]}"]
        with running("etcd", *words, port=port) as server:
            time.sleep(2.0)     # until it has elected itself
            found["`etcdctl put`, ms"] = as_command("etcdctl", "--endpoints", urls[0], "put", "a", "b", ETCDCTL_API="3")
            name = base64.b64encode(b"a").decode()
            found["etcd, put"] = driven(to_port(port), lambda count: http("/v3/kv/put", {"key": name, "value": name}), is_whole_http, seconds,
                                        1, {"server": server})
    found["SQLite, a transaction for each insert"] = inserted(f"{folder}/rows.db", sync, seconds)
    return found


def inserted(path: str, sync: bool, seconds: float) -> dict[str, Any]:
    """One process that inserts rows, each in a transaction of its own."""
    with contextlib.closing(sqlite3.connect(path, isolation_level=None)) as rows:
        rows.execute("PRAGMA journal_mode=WAL")
        rows.execute(f"PRAGMA synchronous={'FULL' if sync else 'OFF'}")
        rows.execute("CREATE TABLE bid (id INTEGER PRIMARY KEY, item TEXT, bidder TEXT, amount INTEGER)")
        began, own, count = time.monotonic(), time.process_time(), 0
        while time.monotonic() < began + seconds:
            rows.execute("INSERT INTO bid (item, bidder, amount) VALUES (?, ?, ?)", ("0.3", "0.2", count))
            count += 1
        return {"a second": round(count / (time.monotonic() - began)), "processor µs an ask": {"client": round(1e6 * (time.process_time() - own) / count, 1)}}


def main() -> int:
    words = argparse.ArgumentParser(description=__doc__, formatter_class=argparse.RawDescriptionHelpFormatter)
    words.add_argument("program")
    words.add_argument("--sync", action="store_true")
    words.add_argument("--seconds", metavar="N", type=float, default=10.0)
    args = words.parse_args()
    load = os.getloadavg()[0]
    with tempfile.TemporaryDirectory() as folder:
        with selling(os.path.abspath(args.program), f"{folder}/shop", args.sync):
            found = {"sync": args.sync} | measured(f"{folder}/shop", args.seconds)
        found |= beside(folder, args.sync, args.seconds)
    print(json.dumps(found | {"load": [load, os.getloadavg()[0]]}, indent=1, ensure_ascii=False))
    return 0


if __name__ == "__main__":
    sys.exit(main())
