"""shorten: takes out of a site's recording what changed nothing, so that a start replays less and the limit of records is further away."""

import argparse
import contextlib
import os
import subprocess

from . import program
from .carrier.sums import why_changed
from .ends import Fault, Status
from .site import KEYS, SUMS, checked, keep_command, lines_of
from .stopped import stopped_shop


def shorten(args: argparse.Namespace) -> int:
    """Shortens the recording of a site of a stopped shop. Killed at any moment, it is the old one or the new one."""
    now = stopped_shop(args)
    kept = f"{args.folder}/{args.site}/kept"
    before, folder = count_lines(kept), f"{args.folder}/{args.site}"
    if line := checked(folder)[1]:
        raise Fault(Status.REFUSED, f"site {args.site}: {why_changed(args.site, line)}")
    for name in (SUMS, KEYS):       # other lines stand in their places now; the next start writes sums anew
        with contextlib.suppress(FileNotFoundError):
            os.unlink(f"{folder}/{name}")
    _run(args.site, [*keep_command(folder, args.site, now, program.path()), "--shorten"])
    print(f"site {args.site}: {count_lines(kept)} of {before} records are left")
    return Status.WELL


def _run(site: int, command: list[str]) -> None:
    done = subprocess.run(command, stdin=subprocess.DEVNULL, capture_output=True, text=True)
    if done.returncode:
        raise Fault(Status.REFUSED, f"site {site}: {done.stderr.strip() or f'ended with status {done.returncode}'}; it is as it was")


def count_lines(path: str) -> int:
    return sum(line.endswith(b"\n") for line in lines_of(path))
