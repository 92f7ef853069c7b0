"""backup and restore: the sites of a folder as they were at one moment, in one file."""

import argparse
import hashlib
import io
import json
import os
import shutil
import tarfile
from collections.abc import Iterable
from typing import IO, Any, cast

from . import client, settings
from .ends import Fault, Status
from .folders import put, put_in_place, synced
from .lock import take_lock
from .render import confirmed
from .running import reached
from .site import lines_of
from .times import stamp

FORM = 1                    # of the file
CONTENTS = "contents.json"  # its last member: the form, and the sizes and sums of the others, so that a torn file is seen
SIZED = ("out", "kept")     # of a site, each up to a size; in this order, since a start refuses an `out` that has more than its `kept`
WHOLE = ("setup", "life", "fenced", "yields")
PIECE = 1 << 20


class Part(io.RawIOBase):
    """The first bytes of a file, that many, which are summed as they are read."""

    def __init__(self, file: IO[bytes], size: int) -> None:
        self._file, self.left, self.sum, self.lines = file, size, hashlib.blake2b(digest_size=16), 0

    def readable(self) -> bool:
        return True

    def read(self, most: int = -1) -> bytes:
        data = self._file.read(min(self.left, PIECE if most < 0 else most))
        self.left -= len(data)
        self.sum.update(data)
        self.lines += data.count(b"\n")
        return data


def backup(args: argparse.Namespace) -> int:
    """Writes a file that has the sites of this folder as they were at one moment, also while they run."""
    now = settings.existing(args.folder)
    if os.path.isdir(args.file):
        raise Fault(Status.MISUSE, f"{args.file} is a folder; name the file of the backup, as {args.file}/shop.tar.gz")
    line = reached(args.folder)
    if line:
        line.close()
        cut = client.one(args.folder, {"op": "cut"}, args.timeout)["cut"]
    else:
        take_lock(args.folder, "it may be about to begin")
        cut = {}
    contents: dict[str, Any] = {}
    with open(f"{args.file}.new", "wb", opener=lambda path, flags: os.open(path, flags, 0o600)) as file:
        with tarfile.open(fileobj=file, mode="w:gz" if args.file.endswith("gz") else "w") as tar:
            for site in now.here:
                for name in SIZED + WHOLE:
                    _add(tar, args.folder, f"{site}/{name}", cut.get(str(site), {}).get(name), contents)
            for name in ("lives", "shop.json"):
                _add(tar, args.folder, name, None, contents)
            _put_contents(tar, {"form": FORM, "at": stamp(), "here": now.here, "sites": now.sites, "files": contents})
        file.flush()
        os.fsync(file.fileno())
    os.rename(f"{args.file}.new", args.file)
    synced(os.path.dirname(os.path.abspath(args.file)))
    for site in now.here:
        print(f"site {site}: {contents.get(f'{site}/kept', {'lines': 0})['lines']} records")
    return Status.WELL


def _add(tar: tarfile.TarFile, folder: str, name: str, size: int | None, contents: dict[str, Any]) -> None:
    """Adds a file, or its first bytes, if it is there."""
    try:
        file = open(f"{folder}/{name}", "rb")
    except FileNotFoundError:
        return
    with file:
        found = os.fstat(file.fileno())
        made = tarfile.TarInfo(name)
        made.size, made.mtime, made.mode = found.st_size if size is None else size, int(found.st_mtime), 0o600
        part = Part(file, made.size)
        tar.addfile(made, cast(IO[bytes], part))
    contents[name] = {"size": made.size, "sum": part.sum.hexdigest(), "lines": part.lines}


def _put_contents(tar: tarfile.TarFile, contents: dict[str, Any]) -> None:
    text = json.dumps(contents, indent=1).encode()
    made = tarfile.TarInfo(CONTENTS)
    made.size, made.mode = len(text), 0o600
    tar.addfile(made, io.BytesIO(text))


def restore(args: argparse.Namespace) -> int:
    """Puts the sites of a backup in the place of those of this folder, which stay beside them. The shop is stopped meanwhile."""
    contents = read_contents(args.file)
    sites = [args.site] if args.site is not None else contents["here"]
    if not set(sites) <= set(contents["here"]):
        raise Fault(Status.MISUSE, f"{args.file} has site {', '.join(map(str, contents['here']))}, and not {args.site}")
    before = settings.read(args.folder)
    if before and before.sites != contents["sites"]:
        raise Fault(Status.MISUSE, f"{args.folder} has --sites {before.sites}, and {args.file} has {contents['sites']}")
    os.makedirs(args.folder, mode=0o700, exist_ok=True)
    take_lock(args.folder, "stop it first")
    made, unchanged = f"{args.folder}/restored.new", f"{args.folder} is as it was"
    shutil.rmtree(made, ignore_errors=True)
    try:
        _unpack(args.file, made, contents)
        lacking = {site: count for site in sites if (count := _records_beyond(f"{args.folder}/{site}/kept", f"{made}/{site}/kept"))}
        for site, count in lacking.items():
            print(f"site {site}: {count} records that {args.folder}/{site} has aren't in {args.file}")
        if lacking and not args.yes and not confirmed("Put them aside?", unchanged):
            raise Fault(Status.REFUSED, unchanged)
        _put(args.folder, made, sites, is_whole=len(sites) == len(contents["here"]), has_settings=before is not None)
    finally:
        shutil.rmtree(made, ignore_errors=True)
    return Status.WELL


def _put(folder: str, made: str, sites: Iterable[int], is_whole: bool, has_settings: bool) -> None:
    """Puts sites in their places. Killed, some have theirs, and the rest is done again."""
    if is_whole and os.path.exists(f"{made}/lives"):
        with open(f"{made}/lives") as lives:
            put(f"{folder}/lives", lives.read())
    for site in sites:
        shutil.rmtree(f"{folder}/{site}.made", ignore_errors=True)
        os.rename(f"{made}/{site}", f"{folder}/{site}.made")
        lost = put_in_place(folder, site)
        print(f"site {site}: is as in the backup" + (f"; what was there is {lost}" if lost else ""))
    if not has_settings:
        os.rename(f"{made}/shop.json", settings.path_of(folder))
    synced(folder)


def read_contents(path: str) -> dict[str, Any]:
    """What a backup has; a Fault if it is none, or isn't whole."""
    try:
        with tarfile.open(path) as tar:
            members = {member.name: member for member in tar}
            file = tar.extractfile(members[CONTENTS])
            assert file
            contents: dict[str, Any] = json.load(file)
            if contents["form"] != FORM:
                raise Fault(Status.MISUSE, f"{path} is a backup of another form, {contents['form']}: restore it by the shop that made it")
            for name, said in contents["files"].items():
                file = tar.extractfile(members[name])
                assert file
                part = Part(file, said["size"])
                while part.read():
                    pass
                if part.left or part.sum.hexdigest() != said["sum"]:
                    raise Fault(Status.REFUSED, f"{path}: {name} isn't as it was when the backup was made; nothing was changed")
            return contents
    except (tarfile.TarError, KeyError, ValueError, EOFError, AssertionError) as fault:
        raise Fault(Status.MISUSE, f"{path} is no backup, or isn't whole; nothing was changed") from fault


def _unpack(path: str, made: str, contents: dict[str, Any]) -> None:
    with tarfile.open(path) as tar:
        for name in contents["files"]:
            to = f"{made}/{name}"
            os.makedirs(os.path.dirname(to), mode=0o700, exist_ok=True)
            file = tar.extractfile(name)
            assert file
            with open(to, "wb", opener=lambda path, flags: os.open(path, flags, 0o600)) as out:
                shutil.copyfileobj(file, out, PIECE)
                out.flush()
                os.fsync(out.fileno())
    for site in contents["here"]:
        if os.path.isdir(f"{made}/{site}"):
            synced(f"{made}/{site}")


def _records_beyond(kept: str, copy: str) -> int:
    """How many lines of a file `kept` stand behind those that a copy has too."""
    lines, copied = lines_of(kept), lines_of(copy)
    for line in lines:
        if line != next(copied, None):
            return 1 + sum(1 for _ in lines)
    return 0
