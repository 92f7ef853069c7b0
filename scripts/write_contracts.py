#!/usr/bin/env python3
"""Prints every public call of the crates, and each crate's wrong bodies with the function that they change: scripts/write_contracts.py

A call stands with the first sentence of its comment and its clauses, word for word. Those that the pages cite are docs/CONTRACTS.md, which
scripts/check_pages.py compares, and writes with --fix."""

import pathlib
import re
from collections.abc import Iterator
from dataclasses import dataclass, field

from prove_program import listed_crates
from top import TOP

PAGE = TOP / "docs/CONTRACTS.md"

OPENING = """# Contracts of the calls that the pages cite

`scripts/check_pages.py --fix` writes this page from the sources, and the gate compares it. For each crate, in the order of
[crates.txt](../crates.txt): the calls that a page cites, with the first sentence of their comments and their clauses.
`scripts/write_contracts.py` prints every public call, and the wrong bodies, each of which the prover has to refuse.
What the contracts promise together is told in [PROMISES.md](PROMISES.md), and the notation in [MODEL.md](MODEL.md#how-statements-are-written).
"""

# A link to lines of a source.
LINK = re.compile(r"\[`([\w:]+)`\]\(([^)#\s]*crates/[^)#\s]+)(?:#L(\d+)-L(\d+))?\)")

IMPL = re.compile(r"^impl\b")
FUNCTION = re.compile(r"^(\s*)((?:pub )?)(?:pub\(\w+\) )?fn (\w+)")
CLAUSE = re.compile(r"^\s*(requires|ensures)\b")


@dataclass
class Call:
    """A function of a source: its name with that of its type, its lines, whether it is public, what its comment says first, and
    its clauses."""

    name: str
    path: pathlib.Path
    first: int
    last: int
    is_public: bool
    sentence: str
    clauses: list[str] = field(default_factory=list)


def owner_of(line: str) -> str:
    """The type that an `impl` is of, and the trait, if it is one's."""
    text = re.sub(r"^impl", "", line).rstrip(" {\n")
    while (less := re.sub(r"<[^<>]*>", "", text)) != text:
        text = less
    words = text.split(" where ")[0].split(" for ")
    return "" if len(words) > 1 else words[0].strip()


def sentence_of(comment: list[str]) -> str:
    """The first sentence of a comment's lines."""
    text = " ".join(line.strip().removeprefix("///").strip() for line in comment).split("  ")[0]
    found = re.match(r".*?[.:](?= [A-Z`]|$)", text)
    return (found.group(0) if found else text).strip()


def clauses_of(lines: list[str], at: int) -> tuple[list[str], int]:
    """The clauses of the function that begins at that line, each on one line, and the line of its body."""
    clauses: list[str] = []
    while at < len(lines) and lines[at].strip() not in ("{", "{}") and not lines[at].rstrip().endswith(("{}", ";")):
        if CLAUSE.match(lines[at]):
            clauses.append(lines[at].strip())
        elif clauses and lines[at].strip():
            clauses[-1] += " " + lines[at].strip()
        elif lines[at].rstrip().endswith(" {"):
            break
        at += 1
    return clauses, at


def calls_of(path: pathlib.Path) -> Iterator[Call]:
    """The functions of a source, in order."""
    lines = path.read_text().splitlines()
    owner = ""
    for at, line in enumerate(lines):
        if IMPL.match(line):
            owner = owner_of(line)
        elif line == "}":
            owner = ""
        found = FUNCTION.match(line)
        if not found:
            continue
        start = at
        while start > 0 and lines[start - 1].strip().startswith(("///", "#[")):
            start -= 1
        comment = [it for it in lines[start:at] if it.strip().startswith("///")]
        clauses, end = clauses_of(lines, at)
        name = f"{owner}::{found[3]}" if owner and found[1] else found[3]
        is_public = bool(found[2]) and (not found[1] or bool(owner))
        yield Call(name, path, start + 1, end, is_public, sentence_of(comment), clauses)


def changed_texts(edit: pathlib.Path) -> list[tuple[pathlib.Path, str]]:
    """The texts that a wrong body changes, each with its file."""
    files = re.findall(r"^file: (.*)\n((?:old: .*\nnew: .*\n)+)", edit.read_text(), re.M)
    return [(edit.parent.parent / file, old) for file, pairs in files for old in re.findall(r"^old: (.*)", pairs, re.M)]


def changed_function(edit: pathlib.Path, calls: list[Call]) -> str:
    """The name of the function that a wrong body changes, or that of its file."""
    path, old = changed_texts(edit)[0]
    at = next((number for number, line in enumerate(path.read_text().splitlines(), 1) if old in line), 0)
    before = [call for call in calls if call.path == path and call.first <= at]
    return before[-1].name if before else path.name


def cited() -> set[tuple[str, str]]:
    """The calls that the pages cite: the file of each, below `crates`, and its own name."""
    pages = [TOP / "README.md", *(page for page in sorted(TOP.glob("docs/*.md")) if page != PAGE)]
    links = [link for page in pages for link in LINK.findall(page.read_text())]
    return {(path.split("crates/")[1], name.split("::")[-1]) for name, path, _, _ in links}


def section_of(crate: str, among: set[tuple[str, str]] | None) -> str:
    """What is said of a crate: of those calls, or of all with its wrong bodies."""
    folder = TOP / "crates" / crate
    root_path = next(path for path in (folder / "src/lib.rt", folder / "src/main.rt") if path.exists())
    root = root_path.read_text()
    intro = " ".join(line.removeprefix("//!").strip() for line in root.splitlines() if line.startswith("//!"))
    calls = [call for path in sorted((folder / "src").rglob("*.rt")) for call in calls_of(path)]
    parts = [f"\n## {crate}\n\n{intro}\n"]
    exported = re.findall(r"\w+", "".join(re.findall(r"^pub use [^;]*;", root, re.M)))      # the calls and types that the crate's root passes on
    for call in calls:
        if not call.is_public or not call.clauses or call.name.split("::")[0] not in exported:
            continue
        if among is not None and (str(call.path.relative_to(TOP / "crates")), call.name.split("::")[-1]) not in among:
            continue
        link = f"../{call.path.relative_to(TOP)}#L{call.first}-L{call.last}"
        parts.append(f"\n[`{call.name}`]({link}): {call.sentence}\n\n" + "".join(f"    {clause}\n" for clause in call.clauses))
    edits = sorted((folder / "must-fail").glob("*.edit"))
    if edits and among is None:
        parts.append("\nWrong bodies: " + "; ".join(f"`{edit.stem}` (`{changed_function(edit, calls)}`)" for edit in edits) + ".\n")
    return "".join(parts) if len(parts) > 1 else ""


def page(among: set[tuple[str, str]] | None) -> str:
    """The page of those calls, or of all."""
    tests = ("rubis_tests", "rubis_growths", "rubis_app", "rubis_site")
    return OPENING + "".join(section_of(crate, among) for crate in listed_crates() if crate not in tests)


if __name__ == "__main__":
    print(page(None), end="")
