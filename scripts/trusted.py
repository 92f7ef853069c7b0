#!/usr/bin/env python3
"""The list of what is trusted, in docs/PROMISES.md: scripts/trusted.py [--write] PROGRAM

PROGRAM is the built rubis. The list has the libraries of the toolchain that the program's crates stand on, and those below them; the C
functions whose contracts the proof assumes, by `rt check --list-axioms`; those that the program calls, by its symbols; and the seams: the
functions that make a call and add what happens by it to a history, in files whose names end in seam.rt, and those that say by it where their
calls begin. Of these reading has to show that the two agree.

With --write it is written, in crates/rubis_app, where the crates below are proved: on a new machine that check would take as long as the
gate. Else the libraries and the seams are compared, and that the program calls no C function beyond the list. The last line says how many
names were looked at; the status is 1 where something differed.
"""

import pathlib
import re
import subprocess
import sys

from prove_program import Kit, listed_crates
from report import report
from top import TOP

PAGE = TOP / "docs/PROMISES.md"
PROGRAM_CRATE = "rubis_app"
BLOCK = re.compile(r"(?<=```text\n)libraries: .*?(?=```)", re.S)
WIDTH = 120     # of a line of the list
ADDS = re.compile(r"History::new\(\)|\.(?:past|came|went)\.add\(|\b(?:self|history)\.(?:add|begins)\(")
TELLS = re.compile(r"\bhistory\.begins\(")


def libraries(tools: pathlib.Path) -> list[str]:
    """The libraries that the program's crates stand on, and those that these stand on."""
    below = listed_crates()
    found: set[str] = set()
    open_names = [PROGRAM_CRATE]
    while open_names:
        name = open_names.pop()
        if name in found:
            continue
        found.add(name)
        deps = below.get(name)
        open_names += re.findall(r"^dep (\w+)$", (tools / f"rlibs/{name}.rlib/format").read_text(), re.M) if deps is None else deps
    return sorted(found - set(below))


def assumed() -> list[str]:
    """The C functions whose contracts the proof of the program assumes."""
    ran = subprocess.run(["rt", "check", "--list-axioms"], cwd=TOP / "crates" / PROGRAM_CRATE, capture_output=True, text=True)
    if "logic=proved" not in ran.stdout:
        raise SystemExit(f"{PROGRAM_CRATE} isn't proved: {ran.stdout[-300:]}")
    threads = re.findall(r"^logic=proved .*\bthreads=(\S+)", ran.stdout, re.M)
    reached = [found.split("::")[-1] for found in re.findall(r"^  (\S+) +reached$", ran.stdout, re.M)]
    return sorted({*reached, *",".join(threads).split(",")} - {""})


def called(tools: pathlib.Path, program: str) -> list[str]:
    """The C functions that the program calls."""
    command = ["llvm-nm", "-D", "--undefined-only", "-j", program]
    ran = subprocess.run(command, executable=tools / "toolchain/bin/clang", capture_output=True, check=True, text=True)
    return sorted({name.partition("@")[0] for name in ran.stdout.split()})


def seams() -> list[str]:
    """The functions whose events nothing can prove: those of the seams that begin a history or add to it, and those that tell one of a deed."""
    found = []
    for path in sorted((TOP / "crates").glob("*/src/*.rt")):
        adds = ADDS if path.stem.endswith("seam") else TELLS
        parts = re.split(r"\bfn (\w+)", path.read_text())[1:]
        found += [f"{path.parent.parent.name}::{path.stem}::{name}" for name, text in zip(parts[::2], parts[1::2]) if adds.search(text)]
    return sorted(set(found))


def listed() -> dict[str, list[str]]:
    """The parts of the page's list, by their words."""
    found = BLOCK.search(PAGE.read_text())
    if not found:
        raise SystemExit("docs/PROMISES.md has no list of what is trusted")
    parts = re.split(r"^(\w+): ", found.group(), flags=re.M)[1:]
    return {word: names.split() for word, names in zip(parts[::2], parts[1::2])}


def laid_out(word: str, names: list[str]) -> str:
    """A part of the list, in lines."""
    lines = [f"{word}:"]
    for name in names:
        if len(lines[-1]) + len(name) >= WIDTH:
            lines.append(" ")
        lines[-1] += f" {name}"
    return "\n".join(lines) + "\n"


def main() -> int:
    words = [word for word in sys.argv[1:] if word != "--write"]
    tools = pathlib.Path(Kit().folder)
    stands_on, calls = libraries(tools), called(tools, words[0])
    if "--write" in sys.argv[1:]:
        text = laid_out("libraries", stands_on) + laid_out("assumed", assumed()) + laid_out("called", calls) + laid_out("seams", seams())
        PAGE.write_text(BLOCK.sub(lambda _: text, PAGE.read_text()))
    now = listed()
    faults = [f"docs/PROMISES.md: `{name}` is a {what} that is {'not listed' if name in there else 'not there'}"
              for what, there, known in (("library", stands_on, now["libraries"]), ("seam", seams(), now["seams"]))
              for name in sorted(set(there) ^ set(known))]
    more = set(calls) - set(now["assumed"]) - set(now["called"])
    faults += [f"docs/PROMISES.md: the program calls `{name}`, which isn't listed" for name in sorted(more)]
    return report("trusted", len(stands_on) + len(calls) + len(seams()), faults)


if __name__ == "__main__":
    sys.exit(main())
