#!/usr/bin/env python3
"""Checks the pages against the sources, each of its functions something else: scripts/check_pages.py [--fix]

With --fix, links are set to their lines, pictures are drawn and docs/CONTRACTS.md is written anew first. Each fault is told by file and line;
the last line says how many names and statements were looked at."""

import pathlib
import re
import sys
from collections.abc import Iterator
from typing import Any

import write_contracts
from prove_program import listed_crates
from report import report
from top import TOP
from write_contracts import LINK, calls_of, changed_texts

from picture_tool.cli import drawn
from shop_tool.carrier.records import REFUSALS

CRATES = TOP / "crates"
Checked = Iterator[str | None]      # of each thing that is looked at, what is wrong with it, if anything is

# What stands in the specs: definitions, records with their fields, and the constructors of data types.
DEFINITION = re.compile(r"^\s*(?:unfoldable |abbrev )?(?:pub )?(?:abbrev |record |data )?(?:pub )?([A-Za-z][\w-]*)\b", re.M)
# What stands in the code: functions, types, constants, variants, fields and modules.
ITEM = re.compile(r"\b(?:fn|struct|enum|trait|const|mod|type)\s+(\w+)")
VARIANT = re.compile(r"^\s+(\w+)(?:\(|,|\s\{)", re.M)
CODE_SPAN = re.compile(r"`([^`]+)`")
PATH_OR_NAME = re.compile(r"^[A-Za-z_]\w*(?:::\w+)*$")

# A link to a heading, of the same page or of another one.
ANCHOR = re.compile(r"\]\(([\w./-]*\.md)?#([^)\s]+)\)")
HEADING = re.compile(r"^#+ (.*)$", re.M)
FENCED = re.compile(r"^(```|~~~).*?^\1", re.M | re.S)
ID = re.compile(r'<a (?:id|name)="([^"]+)"')

CRATE_ROW = re.compile(r"^\| `(rubis_\w+)` \| .* \| (.*) \| .*$")
IMAGE = re.compile(r"!\[[^]]*\]\(([^)\s]+)\)")

# The pictures of docs/, each with what scripts/picture.py is given for it.
PICTURES = {
    "docs/two_sites.svg": ["conversations/two_sites_and_the_token.txt"],
    "docs/two_holders.svg": ["conversations/an_audit_finds_two_holders_of_the_token.txt"],
    "docs/two_versions.svg": ["conversations/an_audit_finds_two_versions_of_a_message.txt"],
    "docs/lost.svg": ["conversations/a_lost_message_is_waited_for_at_three_sites.txt"],
    "docs/lagging.svg": ["--grid", "conversations/a_site_waits_for_what_was_lost.txt"],
}

# Words in code spans that are no names of ours: Rust's, the toolchain's and the crates' that we stand on.
FOREIGN = {"Ok", "Err", "None", "Some", "true", "false", "clap", "csv", "deps", "none", "requires", "ensures"}


def squeezed(text: str) -> str:
    """The words of a text, with single spaces."""
    return " ".join(text.split())


def files(kind: str, suffix: str) -> list[pathlib.Path]:
    return sorted(path for path in CRATES.glob(f"*/{kind}/**/*{suffix}") if "out" not in path.parts)


def code_names() -> set[str]:
    names = {path.parent.name for path in CRATES.glob("*/src")}
    for path in files("src", ".rt"):
        text = path.read_text()
        names.update(ITEM.findall(text))
        names.update(VARIANT.findall(text))
    return names


def found_in(page: pathlib.Path, pattern: re.Pattern[str], but: str = "\n") -> list[tuple[str, Any]]:
    """What of a pattern stands in the lines of a page, but for those that begin so; each with its place."""
    lines = [(f"{page.relative_to(TOP)}:{at}", line) for at, line in enumerate(page.read_text().splitlines(), 1) if not line.startswith(but)]
    return [(place, found) for place, line in lines for found in pattern.findall(line)]


def check_names(page: pathlib.Path, names: set[str], but: str = "\n") -> Checked:
    """Each of these names and each file of specs that the page names is there, but for lines that begin so."""
    for place, span in found_in(page, CODE_SPAN, but):
        if "/specs/" in span or PATH_OR_NAME.match(span):
            is_there = (CRATES / f"{span}.antt").is_file() if "/specs/" in span else names.issuperset(span.split("::"))
            yield None if is_there else f"{place}: `{span}` stands nowhere"


def quotes(page: pathlib.Path) -> list[tuple[int, str]]:
    """The indented statements of a page; one that begins at the block's own indent begins a new one."""
    made: list[tuple[int, list[str], int]] = []
    indent = None
    for at, line in enumerate(page.read_text().splitlines(), 1):
        depth = len(line) - len(line.lstrip(" "))
        if not line.strip() or depth < 4:
            indent = None
            continue
        if indent is None or (depth == indent and line.strip()[0] not in "}×→"):
            indent = depth
            made.append((at, [line], depth))
        else:
            made[-1][1].append(line)
    return [(at, "\n".join(lines)) for at, lines, _ in made]


def check_quotes(page: pathlib.Path) -> Checked:
    """Each statement that the page quotes is its source, word for word."""
    sources = [squeezed(path.read_text()) for path in files("specs", ".antt")]
    for at, text in quotes(page):
        is_so = any(squeezed(text) in source for source in sources)
        yield None if is_so else f"{page.relative_to(TOP)}:{at}: this statement isn't its source word for word"


def check_old_texts() -> Checked:
    """Each old text of a wrong body occurs once in its file: the gate passes over one that doesn't."""
    for path in sorted(CRATES.glob("*/must-fail/*.edit")):
        name = path.relative_to(TOP)
        if not re.fullmatch(r"(file: .*\n(old: .*\nnew: .*\n)+)+", path.read_text()):
            yield f"{name}: not a file, each with lines of old and new text"
        for file, old in changed_texts(path):
            is_once = file.read_text().count(old) == 1
            yield None if is_once else f"{name}: this doesn't stand once in its file: {old}"


def lines_of_function(path: pathlib.Path, name: str) -> tuple[int, int] | str:
    """The lines from a public function's comment to its last clause, from 1; or what is wrong. It is named with its type where a file has
    several of the name."""
    own = [call for call in calls_of(path) if call.is_public and call.name.rpartition("::")[2] == name.rpartition("::")[2]]
    call = next((call for call in own if call.name == name), own[0] if own else None)
    return "is no public function there" if not call else (call.first, call.last) if call.clauses else "has no contract there"


def lines_of_definition(path: pathlib.Path, name: str) -> tuple[int, int] | str:
    """The lines of a definition with the comment before it, from 1; or what is wrong."""
    lines = path.read_text().splitlines()
    at = next((at for at, line in enumerate(lines) if (found := DEFINITION.match(line)) and found.group(1) == name), None)
    if at is None:
        return "is no definition there"
    first, last = at, at
    while first > 0 and lines[first - 1].startswith("-- "):
        first -= 1
    while last < len(lines) and lines[last].strip():
        last += 1
    return first + 1, last


def check_links(page: pathlib.Path, fix: bool) -> Checked:
    """Each link to lines of a source, as [`name`](crates/..#L1-L2), names those of that function with its contract, or of that definition."""
    def lines_of(name: str, path: str) -> tuple[int, int] | str:
        source = (page.parent / path).resolve()
        if not source.is_file():
            return "stands in a file that isn't there"
        return lines_of_function(source, name) if source.suffix == ".rt" else lines_of_definition(source, name.split("::")[-1])

    def fixed(link: re.Match[str]) -> str:
        found = lines_of(link.group(1), link.group(2))
        return str(link.group(0)) if isinstance(found, str) else f"[`{link.group(1)}`]({link.group(2)}#L{found[0]}-L{found[1]})"

    if fix:
        page.write_text(LINK.sub(fixed, page.read_text()))
    for place, (name, path, first, last) in found_in(page, LINK):
        found = lines_of(name, path)
        if isinstance(found, str):
            yield f"{place}: `{name}` {found}: {path}"
        else:
            is_so = (first, last) == (str(found[0]), str(found[1]))
            yield None if is_so else f"{place}: `{name}` stands in lines {found[0]} to {found[1]} of {path}; check_pages.py --fix writes that"


def check_callers(page: pathlib.Path) -> Checked:
    """Each piece of code on the page for callers stands so in the tests, where it is proved. A client is a program of its own, which
    tests/test_clients.py runs."""
    proved = squeezed((CRATES / "rubis_tests/src/callers.rt").read_text())
    for piece in re.findall(r"```rust\n(.*?)```", page.read_text(), re.S):
        if "fn main()" not in piece:
            yield None if squeezed(piece) in proved else f"{page.name}: no such code in rubis_tests: {piece.splitlines()[0]}"


def check_crates(page: pathlib.Path) -> Checked:
    """The page's table of crates has those of crates.txt in their order, each with those that it stands on, unless it stands on what it tests."""
    listed, rows = listed_crates(), found_in(page, CRATE_ROW)
    if [*listed] != [name for _, (name, _) in rows]:
        yield f"{page.relative_to(TOP)}: its table hasn't the crates of crates.txt in their order"
    for place, (name, below) in rows:
        stands = {word.strip("`") if word.startswith("`") else f"rubis_{word}" for word in re.findall(r"`?\w+`?", below)}
        is_so = below == "what it tests" or stands == set(listed.get(name, ()))
        yield None if is_so else f"{place}: {name} doesn't stand on these crates"


def anchors_of(page: pathlib.Path) -> set[str]:
    """The anchors of a page's headings, as GitHub and GitLab make them, and those that it names itself."""
    text, found = FENCED.sub("", page.read_text()), set[str]()
    for heading in HEADING.findall(text):
        words = re.sub(r"\[([^]]*)\]\([^)]*\)", r"\1", heading.strip())
        anchor = re.sub(r"[^\w\- ]", "", words.lower()).replace(" ", "-")
        count = sum(re.fullmatch(rf"{re.escape(anchor)}(-\d+)?", other) is not None for other in found)
        found.add(f"{anchor}-{count}" if count else anchor)
    return found | set(ID.findall(text))


def check_anchors(page: pathlib.Path) -> Checked:
    """Each link to a heading has one."""
    for place, (path, anchor) in found_in(page, ANCHOR):
        to = page.parent / path if path else page
        yield None if to.is_file() and anchor in anchors_of(to) else f"{place}: there is no heading {path}#{anchor}"


OF_WORLDS = ("BadEvent", "NoSuchPacket")      # refusals that `shop` meets nowhere


def check_refusals(page: pathlib.Path) -> Checked:
    """The manual's table of refusals has the numbers and names of the program's, and its words are those of the program's code and of `shop`."""
    code = (CRATES / "rubis_schema/src/refusals.rt").read_text()
    numbers = dict(re.findall(r"Refusal::(\w+) => (\d+),", code))
    meanings = {name: words[0].lower() + words[1:] for words, name in re.findall(r"/// (.*)\.\n    (\w+),", code)}
    rows = found_in(page, re.compile(r"^\| (\d+) \| (\w+) \| (.*) \|$"))
    for name in numbers.keys() - {name for _, (_, name, _) in rows}:
        yield f"{page.relative_to(TOP)}: there is no {name}"
    for place, (number, name, words) in rows:
        is_so = (numbers.get(name), meanings.get(name)) == (number, words) and REFUSALS.get(name) in (None if name in OF_WORLDS else "", words.replace("`", ""))
        yield None if is_so else (f"{place}: {name} is {numbers.get(name)} of the program, {meanings.get(name)!r}, and "
                                  f"shop_tool/carrier/records.py says {REFUSALS.get(name)!r}")


def check_images(page: pathlib.Path) -> Checked:
    """Each image that a page shows is there."""
    for place, path in found_in(page, IMAGE):
        yield None if (page.parent / path).is_file() else f"{place}: there is no image {path}"


def check_written(fix: bool) -> Checked:
    """Each picture of docs/ is what scripts/picture.py draws of its conversation, and docs/CONTRACTS.md is what the sources say."""
    texts = {TOP / name: drawn([*options, str(TOP / conversation)]) for name, (*options, conversation) in PICTURES.items()}
    for path, text in (texts | {write_contracts.PAGE: write_contracts.page(write_contracts.cited())}).items():
        if fix:
            path.write_text(text)
        is_so = path.exists() and path.read_text() == text
        yield None if is_so else f"{path.relative_to(TOP)}:1: isn't what is drawn or written of the sources; check_pages.py --fix does so"


def main() -> int:
    fix = sys.argv[1:] == ["--fix"]
    names = {name for path in files("specs", ".antt") for name in DEFINITION.findall(path.read_text())} | code_names() | FOREIGN
    edits = {path.stem for path in CRATES.glob("*/must-fail/*.edit")}
    found = [
        # The lines of the model's notation begin with code.
        *check_names(TOP / "docs/MODEL.md", names, "- `"), *check_names(TOP / "docs/PROMISES.md", names | edits), *check_quotes(TOP / "docs/PROMISES.md"),
        *check_old_texts(), *check_written(fix), *check_callers(TOP / "docs/CALLING.md"), *check_refusals(TOP / "docs/MANUAL.md"),
        *check_crates(TOP / "docs/ARCHITECTURE.md"), *(None for _ in edits),
    ]
    for page in [*sorted(TOP.glob("*.md")), *sorted(TOP.glob("docs/*.md"))]:
        found += [*check_links(page, fix), *check_anchors(page), *check_images(page)]
    return report("pages", len(found), [fault for fault in found if fault])


if __name__ == "__main__":
    sys.exit(main())
