"""The access log: a line of JSON for each request, with whose key it had and an id that its answer has too."""

import json
import os
import re
import sys
import time
from typing import TextIO

from aiohttp import web

from shop_tool.times import utc_stamp

ID = "X-Request-Id"
_ID = re.compile(r"[\w.-]{1,64}")


def id_of(request: web.Request) -> str:
    """The id of a request: the one that it brings, as from a proxy, or a new one."""
    said = request.headers.get(ID, "")
    return said if said.isascii() and _ID.fullmatch(said) else os.urandom(8).hex()


class AccessLog:
    """The log of a file, or of standard error for `-`; None has none."""

    def __init__(self, path: str | None) -> None:
        self._path = path
        self._file: TextIO | None = None
        self.open()

    def open(self) -> None:
        """Opens the file, which may have been put aside."""
        if self._path and self._path != "-":
            opened = open(self._path, "a", opener=lambda path, flags: os.open(path, flags, 0o600))
            if self._file:
                self._file.close()
            self._file = opened
        elif self._path:
            self._file = sys.stderr

    def tell(self, request: web.Request, name: str, whose: str, status: int, began: float) -> None:
        if self._file is None:
            return
        said = {"at": utc_stamp(), "level": "error" if status >= 500 else "warning" if status >= 400 else "info", "id": name, "whose": whose,
                "from": request.remote, "method": request.method, "path": request.path_qs, "status": status,
                "seconds": round(time.monotonic() - began, 6)}
        try:
            print(json.dumps(said), file=self._file, flush=True)
        except OSError:
            pass        # a full disk must not stop what is served
