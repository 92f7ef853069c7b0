#!/usr/bin/env python3
"""Looks through the names of the sources: lemmas, definitions and sets of rules that nothing names, names that are imported for clauses
and proofs and that their file doesn't use, or passed on and not imported, and types that share a name: scripts/unused.py

A definition that only unused ones name is found too. An import is no use of a name, unless it hands the name on (`pub use`), and not for
its own crate alone, as the files `Common` do. Of definitions, answers to goals, examples, the files `Lib` and operators are left out."""

import collections
import pathlib
import re
import sys
from collections.abc import Iterator
from dataclasses import dataclass

from report import report
from top import TOP

TOKEN = re.compile(r"[^\s()\[\]{},;:.=λ→]+")
COMMENT = re.compile(r"--(?=[ -]).*")
IMPORT = re.compile(r"\s*(?:unfoldable )?(?:pub )?use ")
# A line that imports names for the file alone.
IMPORTED = re.compile(r"\s*(?:ghost )?use Rattle[^{]*\.\{([^}]*)\};?\s*")
# In code comments begin otherwise.
OF_CODE = re.compile(r"//.*")
TYPE = re.compile(r"(?:pub(?:\(crate\))? )?(?:struct|enum|trait|type) (\w+)")
MODULE = re.compile(r"(?:pub )?mod ")
# What stands before the name in a definition.
BEFORE = re.compile(r"(?:(?:abbrev|pub|unfoldable|opaque|instance|record|data|private|ruleset) )*")
# Files whose names are the toolchain's: they answer goals, or list a crate's modules.
OF_GOALS = {"Answers", "Invariants", "Proof", "Lib"}


@dataclass
class Definition:
    """A lemma or a definition: where it stands, and how often its text names each word."""

    file: pathlib.Path
    line: int
    name: str
    words: collections.Counter[str]

    def at(self) -> str:
        return f"{self.file.relative_to(TOP)}:{self.line}"


def words_of(text: str) -> collections.Counter[str]:
    return collections.Counter(TOKEN.findall(text))


def head(line: str) -> str:
    """The name that a line at the margin defines or goes on with."""
    found = TOKEN.match(line, BEFORE.match(line).end())     # type: ignore[union-attr]
    return found.group() if found else ""


def definitions(file: pathlib.Path, text: str) -> Iterator[Definition]:
    """The definitions of a file: each goes on until another name stands at the margin."""
    current = None
    for number, line in enumerate(text.split("\n"), 1):
        if line and line[0] not in " )}|":
            if IMPORT.match(line) or MODULE.match(line):
                current = None
                continue
            name = head(line)
            if name and not (current and current.name == name):
                current = Definition(file, number, name, collections.Counter())
                yield current
        if current:
            current.words.update(words_of(line))


def sources(pattern: str) -> Iterator[pathlib.Path]:
    """The files of all crates, but for what was built of them."""
    return (file for file in sorted(TOP.glob(pattern)) if "out" not in file.relative_to(TOP).parts)


def unnamed() -> list[str]:
    """Each definition that nothing names, with where it stands."""
    used: collections.Counter[str] = collections.Counter()
    found: list[Definition] = []
    for file in sources("crates/*/*/**/*.antt"):
        text = COMMENT.sub("", file.read_text())
        hands_on = file.stem != "Common"
        used.update(words_of("\n".join(line for line in text.split("\n") if not IMPORT.match(line) or hands_on and "pub use" in line)))
        if file.stem not in OF_GOALS and "Example" not in str(file):
            found += [it for it in definitions(file, text) if "◌" not in it.name]
    for file in sources("crates/*/src/**/*.rt"):
        lines = (line for line in file.read_text().split("\n") if not line.lstrip().startswith("ghost use "))
        # The code has `_` where a lemma's name has `-`.
        words = words_of("\n".join(lines))
        used.update(words)
        used.update({word.replace("_", "-"): count for word, count in words.items() if "_" in word})
    gone = []
    while now := [it for it in found if used[it.name] <= it.words[it.name]]:
        for it in now:
            found.remove(it)
            used.subtract(it.words)
            gone.append(f"{it.at()}: nothing names {it.name}")
    return gone


def is_used(name: str, text: str) -> bool:
    """Whether a text uses a name; an operator by the signs between its operands, and one that a `do` block is read by without any."""
    if "◌" in name:
        return ">>" in name or all(sign in text for sign in name.split("◌"))
    return re.search(rf"(?<![\w?'-]){re.escape(name)}(?![\w?'])", text) is not None


def idle() -> Iterator[str]:
    """Each name that a file imports and doesn't use."""
    for file in [*sources("crates/*/*/**/*.antt"), *sources("crates/*/src/**/*.rt")]:
        lines = (COMMENT if file.suffix == ".antt" else OF_CODE).sub("", file.read_text()).split("\n")
        text = "\n".join(line for line in lines if not IMPORTED.fullmatch(line))
        for number, line in enumerate(lines, 1):
            if found := IMPORTED.fullmatch(line):
                names = (name.split(" as ")[-1].strip() for name in found[1].split(","))
                yield from (f"{file.relative_to(TOP)}:{number}: nothing here uses {name}" for name in names if not is_used(name, text))


def names_in(lines: str) -> set[str]:
    """The names that `use` lines bring."""
    return {name.split(" as ")[0].strip() for names in re.findall(r"\{(.*)\}", lines) for name in names.split(",")}


def unasked() -> Iterator[str]:
    """Each name that a crate's file `Common` passes on to its proofs and that none of them imports from there."""
    for common in sources("crates/*/proofs/Common.antt"):
        crate = common.parent.parent.name
        uses = (line for file in sources(f"crates/{crate}/proofs/**/*.antt") for line in file.read_text().split("\n"))
        asked = names_in("\n".join(line for line in uses if f"use Rattle.{crate}.proofs.Common." in line))
        yield from (f"{common.relative_to(TOP)}: nothing imports {name}" for name in names_in(common.read_text()) - asked)


def shared() -> Iterator[str]:
    """Each name that two types have."""
    first: dict[str, str] = {}
    for file in sources("crates/*/src/**/*.rt"):
        for number, line in enumerate(file.read_text().split("\n"), 1):
            if found := TYPE.match(line):
                at = f"{file.relative_to(TOP)}:{number}"
                if found[1] in first:
                    yield f"{at}: {first[found[1]]} has a type {found[1]} too"
                first.setdefault(found[1], at)


def main() -> int:
    faults = sorted([*unnamed(), *idle(), *unasked(), *shared()])
    return report("names of definitions, imports and types", len(faults) + 1, faults)


if __name__ == "__main__":
    sys.exit(main())
