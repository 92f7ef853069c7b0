#!/usr/bin/env python3
"""Writes the program that comes with a release, bin/rubis-x86_64-linux.gz, and what it is of, bin/rubis.sum.

    scripts/release.py
    scripts/release.py --check PROGRAM

It takes crates/rubis_app/out/rubis_app, on a clean tree and only if that was proved of its sources. bin/rubis.sum has the version, the
sums of both files, the toolchain, and the sum of each source of the program's crates: `./rubis` runs the release where they agree. It is
committed with the changelog, and with nothing else.

With --check, what is in bin/ is compared with PROGRAM, which was built of these sources, byte for byte, unless bin/ is of other sources.
"""
from __future__ import annotations

import gzip
import hashlib
import pathlib
import subprocess
import sys

from prove_program import program_crates, sum_of
from report import report

TOP = pathlib.Path(__file__).resolve().parent.parent
PACKED, NOTES = TOP / "bin/rubis-x86_64-linux.gz", TOP / "bin/rubis.sum"
# How many lines of the notes are before those of the sources: version, packed, toolchain, program.
OF_FILES = 4
# What the commit of a release changes.
OF_RELEASE = ("bin", "CHANGELOG.md")


def fault_of_tree() -> str | None:
    """Why nothing can be released from this tree."""
    kept = [f":(exclude){name}" for name in OF_RELEASE]
    changed = subprocess.run(["git", "status", "--porcelain", "--", ".", *kept], cwd=TOP, stdout=subprocess.PIPE, text=True, check=True).stdout
    if changed:
        return f"the tree isn't clean: {changed.splitlines()[0].strip()}"
    app = program_crates()[-1]
    try:
        noted = pathlib.Path(f"{app.program}.sum").read_text(encoding="utf-8")
    except FileNotFoundError:
        return f"it isn't noted of what {app.program} was proved: `./rubis --anew` or the gate proves it"
    if noted.split("\n", 1)[1] != f"program {sum_of(app.program)}\n{app.sources()}":
        return f"{app.program} isn't of these sources: `./rubis --anew` or the gate proves it"
    return None


def write() -> int:
    """Writes both files: the status."""
    if fault := fault_of_tree():
        sys.stderr.write(f"release.py: {fault}\n")
        return 1
    program = program_crates()[-1].program
    version = subprocess.run([program, "--version"], stdin=subprocess.DEVNULL, stdout=subprocess.PIPE, text=True, check=True).stdout.strip()
    PACKED.parent.mkdir(exist_ok=True)
    with open(program, "rb") as plain, open(PACKED, "wb") as packed:
        subprocess.run(["gzip", "-n9"], stdin=plain, stdout=packed, check=True)
    noted = pathlib.Path(f"{program}.sum").read_text(encoding="utf-8")
    NOTES.write_text(f"version {version}\npacked {sum_of(str(PACKED))}\n{noted}", encoding="utf-8")
    print(f"{version}: {PACKED.stat().st_size:,} bytes; commit {' and '.join(OF_RELEASE)}")
    return 0


def faults_of_release(built: pathlib.Path) -> list[str]:
    """What isn't as it has to be in bin/, where a program was built of these sources."""
    lines = NOTES.read_text(encoding="utf-8").splitlines(keepends=True)
    noted, sources = dict(line.rstrip("\n").split(" ", 1) for line in lines[:OF_FILES]), "".join(lines[OF_FILES:])
    if sum_of(str(PACKED)) != noted["packed"]:
        return [f"{PACKED.relative_to(TOP)} isn't what {NOTES.relative_to(TOP)} says"]
    unpacked = gzip.decompress(PACKED.read_bytes())
    if hashlib.sha256(unpacked).hexdigest() != noted["program"]:
        return [f"{PACKED.relative_to(TOP)} has another program than {NOTES.relative_to(TOP)} says"]
    if sources != program_crates()[-1].sources():
        print(f"{noted['version']} came with other sources than these, so it wasn't compared")
        return []
    return [] if unpacked == built.read_bytes() else [f"{noted['version']}, which came with these sources, isn't {built}, which was built of them"]


def main() -> int:
    match sys.argv[1:]:
        case []:
            return write()
        case ["--check", program]:
            return report("the release", 1, faults_of_release(pathlib.Path(program)) if NOTES.exists() else [])
    sys.exit("usage: release.py [--check PROGRAM]")


if __name__ == "__main__":
    sys.exit(main())
