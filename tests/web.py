"""A server of a test's shop over HTTP, asked by curl."""

import json
import socket
import subprocess
from typing import Any, NamedTuple

from tests.folder import SECONDS, Folder
from tests.needs import need

JSON, CSV = "application/json", "text/csv"


class Said(NamedTuple):
    """What the server answers."""

    status: int
    headers: dict[str, str]
    text: str

    @property
    def json(self) -> Any:
        return json.loads(self.text)


class Web:
    """A server of the shop in a test's folder."""

    def __init__(self, at: Folder, words: str = "") -> None:
        need("curl", "python3:aiohttp", "python3:prometheus_client")
        self.at = at
        self.process = at.start(f"./shop -C auction serve --listen 127.0.0.1:0 {words}", stdout=subprocess.PIPE)
        assert self.process.stdout
        self.url = self.process.stdout.readline().decode().strip().rstrip("/")
        assert self.url.startswith("http"), "it says where it listens"

    def line(self, seconds: float = SECONDS) -> socket.socket:
        """A connection to it."""
        host, port = self.url.removeprefix("http://").split(":")
        return socket.create_connection((host, int(port)), seconds)

    def get(self, path: str, *words: str) -> Said:
        command = ["curl", "-sS", "-i", "--max-time", str(SECONDS), *words, f"{self.url}{path}"]
        done = subprocess.run(command, cwd=self.at.path, capture_output=True)
        head, _, text = done.stdout.partition(b"\r\n\r\n")
        assert done.returncode == 0, f"{path}: {done.stderr.decode()}"
        first, *lines = head.decode().split("\r\n")
        headers = {name.lower(): value for name, _, value in (line.partition(": ") for line in lines)}
        return Said(int(first.split()[1]), headers, text.decode("utf-8", "surrogateescape"))

    def post(self, path: str, body: Any, *words: str, content: str = JSON) -> Said:
        text = body if isinstance(body, str) else json.dumps(body)
        return self.get(path, "-H", f"Content-Type: {content}", "--data-binary", text, *words)

    def ask(self, site: int, record: str, key: str | None = None) -> Said:
        return self.post(f"/sites/{site}/asks", {"record": record}, *(["-H", f"Idempotency-Key: {key}"] if key else []))
