"""Plays the conversations, and the examples of the pages.

A conversation is a text file of one command or several, each a run of its own. A line as `$ rubis site --sites 2` is the
command; below it a line that begins with `> ` is a record of the input, and the lines below that are the answers to it.
A line `? 1` is the status, 0 where there is none. Lines that begin with `#` are notes. Of each command that reads records `rubis
check` has to name those, and only those, that were answered as outside the grammar. A command is played under several settings of batch,
shards and workers, which change no answer; what it sets itself stays as it is. Lines before it that begin with `% ` give the settings in place of these, as
`% --batch 1 7 64 --workers 1 16`: each choice of a value for each option. Lines between `* 4 3003` and `*` are repeated
for each n from 4 to 3003, with the numbers for `{n}` and `{n-1}`.

An example is a block of a page that begins with ```console: what follows `$ ` is run by a shell, and the lines below it
are what it writes on standard output; its status has to be 0. The examples of a page are run one after the other in a new folder, which looks
like the top of the repository: `./rubis` is the program, and `shop`, `scripts`, `conversations` and `docs` are there. A block that
begins with ```console NAME.. needs the programs of these names, and modules of Debian's Python as python3:NAME; where one is missing
the page's other examples are run, and the test is then skipped by that name."""

import contextlib
import csv
import dataclasses
import io
import itertools
import os
import pathlib
import re
import shlex
import signal
import subprocess
import tempfile
from collections.abc import Iterator
from typing import NoReturn

import pytest

from tests.folder import Counted
from tests.needs import PATHS, TOP, is_there, need

SECONDS = 120
# As what `rubis check` reads the records of a command, and the answer to one that is outside the grammar.
CHECKED = {
    "site": ("site", r"reply,(\d+),refused,1,BadRecord"),
    "world": ("world", r"(?:at,\d+,reply,(?=\d+,refused,1,)|world,(?=\d+,refused,30,))(\d+),refused,.*"),
    "audit": ("audit", r"audit,BadRecord,(\d+)"),
    "lack": ("audit", r"audit,BadRecord,(\d+)"),
    "widen": ("audit", r"widen,BadRecord,(\d+)"),
}
# Settings that change no answer.
SETTINGS: list[dict[str, int]] = [
    {}, {"--batch": 1, "--shards": 1, "--workers": 1}, {"--batch": 7, "--shards": 5, "--workers": 2}, {"--batch": 65536, "--shards": 64, "--workers": 16}]


def fault(text: str) -> NoReturn:
    """Fails by file and line, without the lines of this file."""
    pytest.fail(text, pytrace=False)


def compare(name: str, lines: list[tuple[int, str]], last: int, got: str, how: str) -> None:
    """Tells the first line of the output that isn't the one written down; `last` is the line to name at its end."""
    found = got.removesuffix("\n").split("\n") if got else []
    if got and not got.endswith("\n"):
        found.append("(no end of the line)")
    for wanted, given in itertools.zip_longest(lines, found):
        line, written = wanted or (last, "(no more lines)")
        if written != given:
            fault(f"{name}:{line}: {how}\n    written: {written}\n    given:   {'(no more lines)' if given is None else given}")


def settings_of(words: list[str]) -> list[list[str]]:
    """The command under each of the settings that it leaves open."""
    if words[0] not in ("site", "world"):
        return [words]
    given = {word.split("=")[0] for word in words}
    more = [" ".join(f"{option} {value}" for option, value in setting.items() if option not in given) for setting in SETTINGS]
    return [words + setting.split() for setting in dict.fromkeys(more)]


def settings_in(line: str) -> list[list[str]]:
    """Each choice of a value for each option of a line as `--batch 1 7 64 --workers 1 16`."""
    options = [[[f"--{name}", value] for value in values] for name, *values in (part.split() for part in line.split("--")[1:])]
    return [[part for pair in chosen for part in pair] for chosen in itertools.product(*options)]


@dataclasses.dataclass
class Run:
    """A command of a conversation, its records and their answers; `last` is the last line of it in the file."""

    words: list[str]
    settings: list[list[str]]
    last: int
    status: int = 0
    records: list[str] = dataclasses.field(default_factory=list)
    answers: list[tuple[int, str]] = dataclasses.field(default_factory=list)
    begins: list[int] = dataclasses.field(default_factory=list)     # how many lines of answers stand before each record

    def answers_before(self, record: int) -> int:
        return [*self.begins, len(self.answers)][record]

    def commands(self) -> list[list[str]]:
        """The command under each of its settings."""
        return [self.words + setting for setting in self.settings] or settings_of(self.words)

    def play(self, program: pathlib.Path, name: str) -> None:
        said = "".join(record + "\n" for record in self.records)
        for command in self.commands():
            shown = shlex.join(["rubis", *command])
            done = subprocess.run([program, *command], input=said.encode(), capture_output=True, timeout=SECONDS)
            compare(name, self.answers, self.last, done.stdout.decode("utf-8", "replace"), shown)
            if done.returncode != self.status:
                fault(f"{name}:{self.last}: {shown} ended with status {done.returncode}: {done.stderr.decode()}")
        # What waits at a site doesn't say which of its records were outside the grammar.
        if self.words[0] in CHECKED and "--waiting" not in self.words:
            self.check(program, name, said)

    def check(self, program: pathlib.Path, name: str, said: str) -> None:
        """Whether `rubis check` names the records that were answered as outside the grammar, and no others."""
        sites = next((value for word, value in zip(self.words, self.words[1:]) if word == "--sites"), "1")
        reading, pattern = CHECKED[self.words[0]]
        command = ["check", "--sites", sites, reading]
        done = subprocess.run([program, *command], input=said.encode(), capture_output=True, timeout=SECONDS)
        rows = list(csv.reader(io.StringIO(done.stdout.decode("utf-8", "replace"))))
        bad = [int(row[1]) for row in rows[:-1]]
        answered = [int(found.group(1)) for _, text in self.answers if (found := re.fullmatch(pattern, text))]
        if (bad[:1] if reading == "audit" else bad) != answered:
            fault(f"{name}:{self.last}: {shlex.join(['rubis', *command])} names the records {bad}, and refused were {answered}")


def written_out(numbered: list[tuple[int, str]]) -> list[tuple[int, str]]:
    """The lines of a file, each with its number, and those to repeat as often as they say."""
    made: list[tuple[int, str]] = []
    inside: list[tuple[int, str]] = []
    turns = range(0)
    for line, text in numbered:
        if text == "*":
            made += [(at, re.sub(r"{n(-1)?}", lambda found: str(n + int(found.group(1) or 0)), it)) for n in turns for at, it in inside]
            inside, turns = [], range(0)
        elif text.startswith("* "):
            first, last = text.split()[1:]
            turns = range(int(first), int(last) + 1)
        elif turns:
            inside.append((line, text))
        else:
            made.append((line, text))
    return made


def runs_of(path: pathlib.Path, name: str) -> list[Run]:
    """The commands of a conversation, each with what follows it."""
    runs: list[Run] = []
    settings: list[list[str]] = []
    for line, text in written_out(list(enumerate(path.read_text().splitlines(), 1))):
        if text.startswith("% "):
            settings += settings_in(text[2:])
        elif text.startswith("$ rubis "):
            runs.append(Run(shlex.split(text)[2:], settings, line))
            settings = []
        elif text.startswith("? ") and runs:
            runs[-1].status = int(text[2:])
        elif not text.startswith("#"):
            if not runs:
                fault(f"{name}:{line}: the command is missing, as `$ rubis site`")
            runs[-1].last = line
            if text.startswith("> "):
                runs[-1].begins.append(len(runs[-1].answers))
                runs[-1].records.append(text[2:])
            else:
                runs[-1].answers.append((line, text))
    if not runs:
        fault(f"{name}:1: the command is missing, as `$ rubis site`")
    return runs


def examples_of(path: pathlib.Path) -> list[tuple[int, list[str], str, list[tuple[int, str]], int]]:
    """The examples of a page: line, programs that it needs, command, the output's lines, and the last line."""
    made = []
    inside, needs = False, []
    lines = path.read_text().splitlines()
    at = 0
    while at < len(lines):
        line = lines[at]
        at += 1
        if line.startswith("```"):
            words = line[3:].split()
            inside, needs = words[:1] == ["console"], words[1:]
        elif inside and line.startswith("$ "):
            start, command = at, line[2:]
            mark = re.search(r"<<'(\w+)'", command)
            while at < len(lines) and (mark or command.endswith("\\")):
                command += "\n" + lines[at]
                at += 1
                if mark and lines[at - 1] == mark.group(1):
                    break
            output = []
            while at < len(lines) and not lines[at].startswith(("```", "$ ")):
                output.append((at + 1, lines[at]))
                at += 1
            made.append((start, needs, command, output, at))
    return made


@contextlib.contextmanager
def ending_what_runs_in(folder: pathlib.Path) -> Iterator[None]:
    """At the end, ends what an example that failed has left running there."""
    try:
        yield
    finally:
        for process in pathlib.Path("/proc").glob("[0-9]*"):
            try:
                if os.readlink(process / "cwd").startswith(os.path.realpath(folder)):
                    os.kill(int(process.name), signal.SIGTERM)
            except OSError:
                pass        # it has ended, or isn't ours


PARTS = ("shop", "scripts", "conversations", "docs")      # what the folder of a page's examples has of the repository


def play_examples(program: pathlib.Path, folder: pathlib.Path, page: str, counted: Counted) -> None:
    """Runs the examples of a page, but for those that need what isn't installed; for these the test is then skipped."""
    missing = list[str]()
    (folder / "rubis").symlink_to(program)
    for part in PARTS:
        (folder / part).symlink_to(TOP / part)
    examples = examples_of(TOP / page)
    with tempfile.TemporaryFile() as written, ending_what_runs_in(folder):
        for start, needs, command, output, last in examples:
            if lacks := [name for name in needs if not is_there(name)]:
                missing += lacks
                continue
            # A file, since what a command leaves running keeps its output open.
            written.seek(0)
            written.truncate()
            done = subprocess.run(["sh", "-c", command], cwd=folder, env={**os.environ, "PATH": PATHS}, stdout=written, stderr=subprocess.DEVNULL,
                                  timeout=SECONDS)
            written.seek(0)
            compare(page, output, last, written.read().decode("utf-8", "replace"), f"the example of line {start}")
            if done.returncode != 0:
                fault(f"{page}:{start}: the example ended with status {done.returncode}")
            counted("conversations and examples", 1)
        # Else what the next page makes may meet it.
        if left := sorted(set(os.listdir(folder)) - {"rubis", *PARTS}):
            fault(f"{page}: its examples leave {', '.join(left)}")
    need(*missing)


def named(pattern: str) -> list[str]:
    return sorted(str(path.relative_to(TOP)) for path in TOP.glob(pattern))


@pytest.mark.parametrize("name", named("conversations/**/*.txt"))
def test_conversation(name: str, program: pathlib.Path, counted: Counted) -> None:
    """Each command of a conversation under each of its settings."""
    runs = runs_of(TOP / name, name)
    for run in runs:
        run.play(program, name)
    counted("conversations and examples", sum(len(run.commands()) for run in runs))


@pytest.mark.parametrize("page", [page for page in ("README.md", *named("docs/*.md")) if examples_of(TOP / page)])
def test_examples(page: str, program: pathlib.Path, folder: pathlib.Path, counted: Counted) -> None:
    """Each example of a page."""
    play_examples(program, folder, page, counted)
