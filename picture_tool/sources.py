"""What is drawn: tells files and folders apart, and makes a run of them."""

import dataclasses
import os
import shutil
import subprocess

from shop_tool.carrier.records import line_of

from .logs import listed_logs, logs_of, run_of_logs
from .messages import Fault, Fields, fields_of, number_at, records_of
from .run import Run
from .sites import Recording, recordings_of, run_of_sites
from .worlds import Said, run_of_world, sites_in, world_said

KINDS = {
    "site": "the folder of a site, or of a shop",
    "audit": "the input of `rubis audit`: logs",
    "conversation": "a conversation, as in conversations/",
    "world-records": "the input of `rubis world`",
    "world-answers": "the output of `rubis world`",
    "site-records": "the input of `rubis site`",
    "site-answers": "the output of `rubis site`, or of `rubis keep`",
    "verdict": "the answer of `rubis audit`",
}
REQUESTS = {"user", "item", "bid", "buy", "close", "comment", "restock", "rename", "pass", "list", "msg", "token", "broken"}
ANSWERS = {"reply", "send", "row", "kept"}
SECONDS = 60


@dataclasses.dataclass
class Given:
    """What the command line says of the input."""

    kind: str | None = None         # of the first file, where it isn't told by its records
    verdict: str = ""
    site: int | None = None
    sites: int | None = None
    program: str | None = None


@dataclasses.dataclass
class Source:
    """A file or a folder; `text` is that of a file."""

    path: str
    kind: str
    text: str = ""

    def records(self) -> list[Fields]:
        return records_of(self.text)


def kind_of_text(text: str, path: str) -> str:
    """What a file is, by its first records."""
    if any(line.startswith("$ ") for line in text[:100_000].split("\n")):
        return "conversation"
    first = records_of(text[:100_000])[:20]
    for fields in first:
        word = fields[0]
        if word == "audit" and len(fields) > 1 and len(first) == 1:
            return "verdict"
        if word in ("site", "deliver"):
            return "audit" if word == "site" else "world-records"
        if word in ("at", "world"):
            return "world-answers" if word == "world" or fields[2:3] and fields[2] in ANSWERS else "world-records"
        if word in ANSWERS or word in REQUESTS:
            return "site-answers" if word in ANSWERS else "site-records"
    said = line_of(first[0])[:60] if first else "nothing"
    raise Fault(f"{path} begins with no record that is known: {said}; --as says what it is")


def source_of(path: str, text: str | None = None, kind: str | None = None) -> Source:
    if text is None and os.path.isdir(path):
        return Source(path, "site")
    if text is None:
        with open(path, "rb") as file:
            text = file.read().decode("utf-8", "replace")
    text = text.removeprefix("\ufeff")      # a byte order mark
    return Source(path, kind or kind_of_text(text, path), text)


def run_of(sources: list[Source], given: Given) -> Run:
    """The run that these say together."""
    kinds = {source.kind for source in sources}
    of = {source.kind: source for source in sources}
    verdict = given.verdict or (of["verdict"].text.strip() if "verdict" in of else "")
    kinds.discard("verdict")
    if kinds == {"site"}:
        return run_of_sites(recordings_of(source.path for source in sources))
    if kinds == {"audit"}:
        return run_of_logs(logs_of(fields for source in sources if source.kind == "audit" for fields in source.records()), verdict)
    if kinds == {"conversation"}:
        return run_of_conversation(of["conversation"].text, verdict, given)
    if kinds <= {"world-records", "world-answers"} and kinds:
        return _world(of.get("world-records"), of.get("world-answers"), given)
    if kinds <= {"site-records", "site-answers"} and "site-records" in kinds:
        return _site(of["site-records"], of.get("site-answers"), given)
    raise Fault(f"no picture of {' and '.join(KINDS[kind] for kind in sorted(kinds)) or 'nothing'}; --help has what is drawn")


def _of_repository() -> str | None:
    """The program that ./rubis of the repository runs, unless that has to be proved first."""
    beside = os.path.join(os.path.dirname(os.path.dirname(os.path.abspath(__file__))), "rubis")
    which = subprocess.run([beside, "--which"], stdin=subprocess.DEVNULL, capture_output=True, text=True)
    return None if which.returncode else which.stdout.rstrip("\n")


def answered(command: list[str], text: str, given: Given) -> str:
    """What the program answers to records."""
    if not (program := shutil.which(given.program or os.environ.get("RUBIS") or _of_repository() or "rubis")):
        raise Fault("these are records without their answers: give both, or the program that answers them (--program)")
    done = subprocess.run([program, *command], input=text.encode("utf-8", "replace"), capture_output=True, timeout=SECONDS)
    if done.returncode:
        raise Fault(f"{program}: {done.stderr.decode('utf-8', 'replace').strip() or done.returncode}")
    return done.stdout.decode("utf-8", "replace")


def _world(records: Source | None, answers: Source | None, given: Given) -> Run:
    if records is None:
        assert answers
        return run_of_logs(listed_logs(answers.records()))
    asked = records.records()
    sites = given.sites or sites_in(asked)
    if answers is None:
        said = answered(["world", "--sites", str(sites)], records.text, given)
        return run_of_world(sites, world_said(asked, records_of(said)))
    rows = answers.records()
    counted = next((len(row[8].split(":")) for row in rows if row[2:4] == ["send", "msg"] and len(row) > 8), sites)
    return run_of_world(max(sites, counted), world_said(asked, rows))


def _site(records: Source, answers: Source | None, given: Given) -> Run:
    asked = records.records()
    counted = next((len(fields[5].split(":")) for fields in asked if fields[0] == "msg" and len(fields) > 6), 1)
    sites = given.sites or max(counted, 1 + (given.site or 0))
    said = answers.text if answers else answered(["site", "--site", str(given.site or 0), "--sites", str(sites)], records.text, given)
    return run_of_sites([Recording(records.path, asked, records_of(said), given.site, given.sites)])


# Conversations.


def run_of_conversation(text: str, verdict: str, given: Given) -> Run:
    """The first command of a conversation."""
    lines = [line for line in written_out(text.split("\n")) if line and not line.startswith(("#", "% "))]
    start = next((at for at, line in enumerate(lines) if line.startswith("$ ")), None)
    if start is None:
        raise Fault("a conversation has a line `$ rubis ..`")
    words = lines[start].split()
    rest = lines[start + 1:]
    end = next((at for at, line in enumerate(rest) if line.startswith("$ ")), len(rest))
    return _conversation_of(words, rest[:end], verdict, given)


def written_out(lines: list[str]) -> list[str]:
    """The lines of a conversation; those between `* FIRST LAST` and `*` for each n, which stands for {n} and {n-1}."""
    made: list[str] = []
    again: tuple[range, list[str]] | None = None
    for line in lines:
        words = line.split()
        if again is None and words[:1] == ["*"] and len(words) == 3:
            again = range(number_at(words, 1), number_at(words, 2) + 1), []
        elif again is not None and words == ["*"]:
            made += [one.replace("{n}", str(n)).replace("{n-1}", str(n - 1)) for n in again[0] for one in again[1]]
            again = None
        else:
            (made if again is None else again[1]).append(line)
    return made


def _conversation_of(words: list[str], lines: list[str], verdict: str, given: Given) -> Run:
    command = words[2] if len(words) > 2 else ""
    records = [line[2:] for line in lines if line.startswith("> ")]
    answers = "\n".join(line for line in lines if not line.startswith("> "))
    if command in ("audit", "lack"):
        found = next((line for line in answers.split("\n") if line.startswith("audit,")), "")
        return run_of_logs(logs_of(map(fields_of, records)), verdict or found)
    if command == "world":
        return run_of_world(_number(words, "--sites", 1), _said(lines))
    if command in ("site", "keep"):
        sites = _number(words, "--sites", 1)
        recording = Recording("the conversation", [fields_of(record) for record in records], records_of(answers))
        recording.site, recording.sites = given.site or _number(words, "--site", 0), sites
        return run_of_sites([recording])
    raise Fault(f"no picture of a conversation of `rubis {command}`")


def _said(lines: list[str]) -> list[Said]:
    said: list[Said] = []
    for line in lines:
        if line.startswith("> "):
            said.append((fields_of(line[2:]), []))
        elif said:
            said[-1][1].append(fields_of(line))
    return said


def _number(words: list[str], option: str, otherwise: int) -> int:
    return number_at(words, words.index(option) + 1) if option in words else otherwise
