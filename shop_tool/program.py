"""Which program `rubis` is used."""

import argparse
import glob
import hashlib
import os
import shutil
import subprocess
import sys
import tempfile

from .ends import Fault, Status


def path() -> str:
    """$RUBIS, or ./rubis beside the command `shop`, or the one of the search path."""
    if named := os.environ.get("RUBIS"):
        found = shutil.which(named)
    else:
        beside = os.path.join(os.path.dirname(os.path.abspath(sys.argv[0])), "rubis")
        found = shutil.which(beside) or shutil.which("rubis")
    if not found:
        raise Fault(Status.MISUSE, f"there is no program {named or 'rubis'} (the variable RUBIS names it)")
    return os.path.abspath(found)


def checked_path() -> str:
    """The program, once it has run: ./rubis of the repository says on standard error if it proves and builds it first, and then which file it runs."""
    program = path()
    version_of(program)
    which = subprocess.run([program, "--which"], stdin=subprocess.DEVNULL, stdout=subprocess.PIPE, stderr=subprocess.DEVNULL, text=True)
    return program if which.returncode else which.stdout.rstrip("\n")


def version_of(program: str) -> str:
    """What a program says that it is, which has to be rubis."""
    try:
        done = subprocess.run([program, "--version"], stdin=subprocess.DEVNULL, stdout=subprocess.PIPE)
    except OSError as fault:
        raise Fault(Status.MISUSE, f"{program} can't be run: {fault.strerror} (the variable RUBIS names the program)") from fault
    said = (done.stdout.decode("utf-8", "replace").splitlines() or [""])[0]
    if done.returncode or not said.startswith("rubis "):
        why = f"ended with status {done.returncode}" if done.returncode else f"says {said[:80]!r}"
        raise Fault(Status.MISUSE, f"{program} is no rubis: {program} --version {why} (the variable RUBIS names the program)")
    return said


def version(args: argparse.Namespace) -> int:
    """Prints which shop this is, by the hash of its modules, and which rubis it runs."""
    print(f"shop {build()} of {version_of(path())}")
    return Status.WELL


def build() -> str:
    """Names these modules: two machines on which it is the same have the same ones."""
    top, digest = os.path.dirname(os.path.dirname(os.path.abspath(__file__))), hashlib.blake2b(digest_size=6)
    for package in ("shop_ask", "shop_tool", "shop_web"):
        for name in sorted(glob.glob(f"{top}/{package}/**/*.py", recursive=True)):
            if "/tests/" not in name[len(top):]:
                with open(name, "rb") as file:
                    digest.update(os.path.relpath(name, top).encode() + b"\0" + file.read())
    return digest.hexdigest()


def known_by(program: str, *places: str) -> tuple[bool, bool]:
    """Whether the program answers questions, lines that begin with `?`, and whether it knows keys. An older one keeps them as records, so it
    has to be seen: in a temporary folder, or where those are full in one of these places."""
    why = ""
    for place in (None, *places):
        try:
            with tempfile.TemporaryDirectory(dir=place) as folder:
                done = subprocess.run([program, "keep", f"{folder}/0"], input=b"?state\nkey,k,user,a\n", capture_output=True)
        except OSError as fault:
            why = why or fault.strerror or str(fault)
            continue
        if done.stdout.startswith(b"kept,"):
            return b"\n?state," in done.stdout, b"\nsend,key,k," in done.stdout
        why = why or done.stderr.decode("utf-8", "replace").strip()
    raise Fault(Status.AWAY, f"it can't be tried whether {program} answers questions: {why}")


def refuses(program: str, options: list[str]) -> str | None:
    """What the program says where it doesn't take these options of a site."""
    done = subprocess.run([program, "site", *options], stdin=subprocess.DEVNULL, capture_output=True, text=True)
    return (done.stderr.splitlines() or [f"{program} ended with status {done.returncode}"])[0] if done.returncode else None
