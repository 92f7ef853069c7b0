"""Tries `./rubis` in a fresh clone, with and without a release, over a stand-in for the toolchain.

The stand-in builds nothing: it writes down which crates it was asked to prove, and fails if it gets one before those that it stands on."""

import gzip
import hashlib
import os
import pathlib
import re
import shutil
import signal
import subprocess
import time
from collections.abc import Callable, Iterator

import pytest

from tests.folder import SECONDS, is_running
from tests.needs import TOP

CRATES = {
    "rubis_numbers": "itoa", "rubis_board": "rubis_numbers", "rubis_clock": "rubis_numbers", "rubis_site": "rubis_board clap",
    "rubis_app": "rubis_board rubis_clock clap", "rubis_tests": "rubis_app",
}

RT = """#!/bin/sh
case "$1" in
    doc) echo "$KIT/START-HERE.md" ;;
    version) echo "stand-in 1" ;;
    *) exit 2 ;;
esac
"""

# What stands in for `rattle`: a crate that the file `broken` names isn't proved, and one that `slow` names takes some minutes.
RATTLE = """#!/usr/bin/env python3
import os, sys, time
words = sys.argv[1:]
crate, to = words[words.index("--crate-name") + 1], words[words.index("-o") + 1]
assert words[0] == "build" and words[words.index("--incremental") + 1] == "out/incremental" and int(words[words.index("--jobs") + 1]) > 0
libraries = [word.split("=")[1] for word in words if "=" in word and "/crates/" in word and word.endswith(".rlib")]
assert all(os.path.isdir(it) for it in libraries), "a crate is begun before one that it stands on"
assert not os.path.exists("must-fail/asked") and os.path.isfile(words[3])
top = os.path.dirname(os.path.dirname(os.getcwd()))
says = lambda name: os.path.exists(f"{top}/{name}") and crate in open(f"{top}/{name}").read().split()
with open(f"{top}/made", "a") as made:
    made.write(f"{crate} ")
print("so far: 1 of 2 functions checked", flush=True)
if says("slow"):
    with open(f"{top}/pid", "w") as pid:
        pid.write(str(os.getpid()))
    time.sleep(300)
if says("broken"):
    print(f"error: src/lib.rt:1: {crate} isn't so", flush=True)
    sys.exit(1)
print("so far: 2 of 2 functions checked", flush=True)
if "--toolchain" in words:
    open(to, "w").close()
else:
    os.makedirs(to)
"""
# A program writes a word, the command line and its input; the word is that of the file `word` when it is built.
LINK = """#!/bin/sh
while [ "$1" != -o ]; do shift; done
printf '#!/bin/sh\\n[ "$1" != --version ] || { echo rubis 0.2.0; exit; }\\necho %s "$@"\\ncat\\n' "$(cat "$KIT/word")" > "$2"
chmod +x "$2"
"""
# All that `./rubis` needs where a release can be run.
TOOLS = "sh awk cat chmod dirname find getconf grep gzip head mkdir mv rm sed sha256sum sort uname uniq xargs".split()

ASKED = ("world", "--sites", "2")
RAN = "ran world --sites 2\nuser,ann\n"
RAN_SITE = "ran site --site 0\nuser,ann\n"
RELEASED = "released world --sites 2\nuser,ann\n"
CAME = "rubis: rubis 0.2.0, which came with these sources; `./rubis --anew` proves it here\n"
PACKED, NOTES, UNPACKED = "bin/rubis-x86_64-linux.gz", "bin/rubis.sum", "out/rubis"
SOURCE = "crates/rubis_clock/src/lib.rt"


class Clone:
    """A repository of some small crates with `./rubis`, and a stand-in for the toolchain."""

    def __init__(self, room: pathlib.Path) -> None:
        self.top, self.kit, self.temporary, self.home = (room / name for name in ("rubis", "kit", "temporary", "home"))
        for folder in (self.temporary, self.home, self.kit / "bin", self.top / "scripts"):
            folder.mkdir(parents=True)
        for name, text in (("rt", RT), ("rattle", RATTLE), ("rattle-link", LINK)):
            (self.kit / "bin" / name).write_text(text)
            (self.kit / "bin" / name).chmod(0o755)
        (self.kit / "word").write_text("ran")
        for name in ("rubis", ".gitignore", "scripts/prove_program.py", "scripts/proof_times.py", "scripts/proof_times.txt", "scripts/release.py",
                     "scripts/report.py"):
            shutil.copy(TOP / name, self.top / name)
        (self.top / "crates.txt").write_text("# crates\n" + "".join(f"{name}: {below}\n" for name, below in CRATES.items()))
        for name in CRATES:
            for part in ("src", "specs", "proofs", "must-fail"):
                (self.top / "crates" / name / part).mkdir(parents=True)
            root = "main.rt" if name in ("rubis_app", "rubis_site") else "lib.rt"
            (self.top / "crates" / name / "src" / root).write_text("//! A crate.\n\nfn a() {}\n\npub fn b() {}\n")
        shutil.copytree(TOP / "crates/rubis_command/src", self.top / "crates/rubis_command/src")
        self.words = {**os.environ, "KIT": str(self.kit), "TMPDIR": str(self.temporary), "HOME": str(self.home)}
        # The stand-in needs no memory, so crates are proved beside each other on a machine that has little of it left, too.
        self.change("scripts/prove_program.py", "OF_ONE, OF_MORE, USED = 3_600_000_000, 700_000_000,", "OF_ONE, OF_MORE, USED = 1, 1,")
        self.words.pop("XDG_CACHE_HOME", None)
        self.with_toolchain()

    def with_toolchain(self) -> None:
        self.words["PATH"] = f"{self.kit}/bin:{os.environ['PATH']}"

    def without_toolchain(self, *lacking: str) -> None:
        """Leaves it the tools of a machine without the toolchain and without python3, but for these."""
        tools = self.kit / "tools"
        shutil.rmtree(tools, ignore_errors=True)
        tools.mkdir()
        for name in TOOLS:
            if name not in lacking:
                (tools / name).symlink_to(shutil.which(name) or "")
        self.words["PATH"] = str(tools)

    def start(self, *asked: str) -> subprocess.Popen[str]:
        return subprocess.Popen(asked, env=self.words, cwd=self.top, text=True, stdin=subprocess.PIPE, stdout=subprocess.PIPE,
                                stderr=subprocess.PIPE, start_new_session=True)

    def ended(self, *asked: str, given: str = "") -> tuple[int, str, str]:
        """How a command ends: its status, and what it writes and says."""
        run = self.start(*asked)
        out, said = run.communicate(given)
        return run.returncode, out, said

    def run(self, *asked: str) -> tuple[int, str, str]:
        return self.ended("./rubis", *(asked or ASKED), given="user,ann\n")

    def script(self, *words: str) -> tuple[int, str]:
        """Runs one of its scripts: the status, and what it says."""
        status, out, said = self.ended("python3", *words)
        return status, out + said

    def says(self, status: int, text: str, *words: str) -> None:
        """Expects that a script ends so, and says that."""
        ended, said = self.script(*words)
        assert ended == status and text in said, said

    def made(self) -> list[str]:
        """The crates that were asked for since the last look, in their order."""
        made = self.top / "made"
        words = made.read_text().split() if made.exists() else []
        made.unlink(missing_ok=True)
        return words

    def name(self, file: str, *crates: str) -> None:
        (self.top / file).write_text(" ".join(crates))

    def change(self, file: str, old: str, new: str) -> None:
        """Changes a text, and makes its file older than all others."""
        path = self.top / file
        text = path.read_text()
        assert old in text, f"{file} has no {old}"
        path.write_text(text.replace(old, new))
        os.utime(path, (0, 0))

    def flip(self, file: str) -> None:
        """Changes one byte of a file."""
        data = bytearray((self.top / file).read_bytes())
        data[len(data) // 2] ^= 1
        (self.top / file).write_bytes(data)

    def commit(self) -> None:
        for words in (("init", "--quiet"), ("add", "."), ("commit", "--quiet", "--allow-empty", "--message", "all")):
            subprocess.run(["git", "-c", "user.name=ann", "-c", "user.email=ann", *words], cwd=self.top, check=True)

    def release(self, word: str = "released") -> None:
        """Makes a release whose program writes that word, and leaves nothing that was built; what is built from then on writes `ran`."""
        (self.kit / "word").write_text(word)
        status, _, said = self.run("--anew")
        assert status == 0, said
        self.made()
        self.commit()
        self.says(0, "", "scripts/release.py")
        (self.kit / "word").write_text("ran")
        self.forget()

    def forget(self) -> None:
        """Leaves nothing that was built or unpacked, as in a fresh clone."""
        for out in (self.top / "out", self.home / ".cache", *self.top.glob("crates/*/out")):
            shutil.rmtree(out, ignore_errors=True)

    def runs(self, out: str, *asked: str, says: str = "", proves: int = 0) -> None:
        """Expects what the program writes, how many crates are proved, and what is said: no more than that where none is."""
        status, wrote, said = self.run(*asked)
        made = self.made()
        assert status == 0 and wrote == out, f"it ends with {status}, {wrote!r} and {said}"
        assert says in said if proves else says == said, f"it says {said!r}"
        assert len(made) == proves, f"it proves {made}"

    def runs_nothing(self, status: int, *asked: str, says: tuple[str, ...] = ()) -> None:
        """Expects that nothing is run nor proved."""
        ends, out, said = self.run(*asked)
        assert (ends, out, self.made()) == (status, "", []), f"it ends with {ends}, {out!r} and {said}"
        assert all(it in said for it in says), f"it says {said!r}"


@pytest.fixture
def clone(folder: pathlib.Path) -> Iterator[Clone]:
    made = Clone(folder)
    yield made
    left = list(made.temporary.iterdir())
    assert not left, f"it leaves {left}"


def test_crate_that_is_not_proved(clone: Clone) -> None:
    """It ends the run at once, with its errors and no others'; the next run goes on with what was proved."""
    clone.name("broken", "rubis_board")
    clone.name("slow", "rubis_clock")
    began = time.monotonic()
    status, out, said = clone.run()
    assert status == 3 and out == "", f"it ends with {status} and {out!r}"
    assert "rubis_board isn't so" in said and "rubis_board isn't proved, so nothing is run" in said, f"not its errors: {said}"
    assert "rubis_clock" not in said and time.monotonic() - began < SECONDS, f"it goes on, or tells of another crate: {said}"
    made = clone.made()
    assert made[0] == "rubis_numbers" and "rubis_board" in made and "rubis_app" not in made, f"it proves {made}"
    clone.name("broken")
    clone.name("slow")
    status, out, said = clone.run()
    assert status == 0 and out == RAN, f"what is proved ends with {status}, {out!r} and {said}"
    assert "8 of 8 functions proved, 4 of 4 crates" in said, f"it doesn't say how far it is: {said}"
    made = clone.made()
    assert sorted(made[:2]) == ["rubis_board", "rubis_clock"] and made[2:] == ["rubis_app"], f"what was proved is proved again, or in another order: {made}"


def test_what_was_built_is_known_by_its_sources(clone: Clone) -> None:
    """By their sums and never by the time of a file: a later run proves nothing, and one after an edit what changed."""
    clone.runs(RAN, says="proving the program", proves=4)
    clone.runs(RAN)
    for file in clone.top.glob("crates/*/src/*.rt"):
        file.touch()
    clone.runs(RAN)
    clone.change("crates/rubis_board/src/lib.rt", "A crate", "A crate that changed")
    clone.runs(RAN, says="4 of 4 crates", proves=2)
    clone.change("crates.txt", "# crates", "# The crates")
    clone.runs(RAN)
    clone.change("crates.txt", "rubis_app: rubis_board rubis_clock", "rubis_app: rubis_clock rubis_board")
    clone.runs(RAN, says="4 of 4 crates", proves=1)
    clone.flip("crates/rubis_app/out/rubis_app")
    clone.runs(RAN, says="4 of 4 crates", proves=1)


def test_source_that_changes_meanwhile(clone: Clone) -> None:
    """What was built is of the sources that there were when the run began: the next one proves what changed."""
    clone.name("slow", "rubis_board")
    run = clone.start("./rubis", *ASKED)
    wait_for(clone.top / "pid")
    clone.change("crates/rubis_numbers/src/lib.rt", "A crate", "A crate that changed")
    os.kill(int((clone.top / "pid").read_text()), signal.SIGTERM)
    run.communicate()
    clone.name("slow")
    clone.made()
    clone.runs(RAN, says="4 of 4 crates", proves=4)


def wait_for(*files: pathlib.Path) -> None:
    until = time.monotonic() + SECONDS
    while not all(it.exists() and it.read_text() for it in files):
        assert time.monotonic() < until, f"there is none of {files}"
        time.sleep(0.05)


def test_interruption(clone: Clone) -> None:
    """Ctrl-C ends the toolchain too, and leaves nothing among the temporary files; the next run goes on where that one was."""
    clone.name("slow", "rubis_clock")
    # A command in the background is started with this signal ignored, and hands that on.
    run = clone.start("env", "--default-signal=INT", "./rubis", *ASKED)
    wait_for(clone.top / "pid", clone.top / "crates/rubis_board/out/rlib/sum")
    os.killpg(run.pid, signal.SIGINT)
    _, said = run.communicate()
    assert run.returncode != 0 and "the next run goes on where this one was" in said, f"interrupted, it ends with {run.returncode} and {said}"
    assert not is_running(int((clone.top / "pid").read_text())), "the toolchain goes on"
    clone.made()
    clone.name("slow")
    clone.runs(RAN, says="4 of 4 crates", proves=2)


def test_site_has_a_program_of_its_own(clone: Clone) -> None:
    """It is proved without the crates of the other commands, and isn't where the program with all commands is there."""
    site = ("site", "--site", "0")
    clone.runs(RAN_SITE, *site, says="the program of one site", proves=3)
    clone.runs(RAN_SITE, *site)
    clone.runs(RAN, says="4 of 4 crates", proves=2)
    (clone.top / "crates/rubis_site/out/rubis_site").unlink()
    clone.runs(RAN_SITE, *site)
    clone.change("crates/rubis_board/src/lib.rt", "A crate", "A crate that changed")
    clone.runs(RAN_SITE, *site, says="3 of 3 crates", proves=2)


def test_times_are_measured(clone: Clone) -> None:
    """Of the crates that were proved from nothing; those of others stay, if there are such crates."""
    times = clone.top / "scripts/proof_times.txt"
    times.write_text("# Times\nrubis_clock 1 2 3.0 4\nrubis_tests 5 6 1.0 7\nrubis_gone 1 1 1.0 1\n")
    (clone.top / "crates/rubis_clock/out/incremental").mkdir(parents=True)
    clone.says(0, "", "scripts/prove_program.py", "--times")
    lines = times.read_text().splitlines()
    assert {"rubis_clock 1 2 3.0 4", "rubis_tests 5 6 1.0 7"} <= set(lines), f"what wasn't measured has changed: {lines}"
    measured = [line.split()[0] for line in lines if not line.startswith("#")]
    assert sorted(measured) == ["rubis_app", "rubis_board", "rubis_clock", "rubis_numbers", "rubis_tests"], lines


def test_toolchain_that_is_not_whole(clone: Clone) -> None:
    (clone.kit / "bin/rattle").unlink()
    clone.runs_nothing(3, says=("rubis_numbers isn't proved",))
    (clone.kit / "bin/rt").write_text("#!/bin/sh\nexit 2\n")
    clone.runs_nothing(3, says=("the toolchain can't be called",))


def test_what_the_gate_built_is_noted(clone: Clone) -> None:
    """Of the sources that there are, if all is proved and none changed meanwhile."""
    clone.run("site")
    clone.run()
    clone.made()
    notes = [clone.top / f"crates/{name}/out/{name}.sum" for name in ("rubis_app", "rubis_site")]
    noted = [it.read_text() for it in notes]
    shared = clone.top / "crates/rubis_numbers/src/lib.rt"
    kept = shared.read_text()
    for command, status, is_noted in (("false", 1, False), (f"echo >> {shared}", 0, False), ("true", 0, True)):
        for it in notes:
            it.unlink()
        assert clone.script("scripts/prove_program.py", "--noting", "sh", "-c", command) == (status, "")
        assert [it.exists() for it in notes] == [is_noted, is_noted], f"after `{command}`"
        shared.write_text(kept)
        for it, text in zip(notes, noted):
            assert not is_noted or it.read_text() == text
            it.write_text(text)
    clone.runs(RAN)


def test_words_that_no_command_line_has(clone: Clone) -> None:
    """They are told before anything is proved; all that the completions offer is taken, and what stands for itself behind `--`."""
    for asked in (("site", "--sitse", "3"), ("site", "--sitse=3"), ("sites",), ("keep", "folder", "--snyc"), ("--sitse", "site")):
        clone.runs_nothing(2, *asked, says=("there is no ", "docs/MANUAL.md has the commands"))
    clone.without_toolchain()
    offered = re.findall(r"^    '*(\w*)(?:,\*,0)?'*\) words='(.*)'", (TOP / "completions/rubis.bash").read_text(), re.M)
    assert len(offered) > 7, "the completions can't be read"
    for command, words in offered:
        for line in [f"{command} {words}"] if command else words.split():
            clone.runs_nothing(3, *line.split(), says=("there is no rt here",))
    for line in ("keep a--folder -- --folder", "site --sites=2"):
        clone.runs_nothing(3, *line.split(), says=("there is no rt here",))


def test_release_needs_no_toolchain(clone: Clone) -> None:
    """Nor python3. That it is one is told once."""
    clone.release()
    clone.without_toolchain()
    clone.runs_nothing(3, "--anew", *ASKED, says=("there is no rt here",))
    clone.runs(RELEASED, says=CAME)
    clone.runs(RELEASED)
    clone.runs(RELEASED.replace("world --sites 2", "site"), "site")
    clone.runs(f"{clone.top}/{UNPACKED}\n", "--which", *ASKED)
    clone.flip(UNPACKED)
    clone.runs(RELEASED, says=CAME)
    clone.change("crates.txt", "# crates", "# The crates")
    clone.runs(RELEASED)
    for tool in ("sha256sum", "gzip"):
        clone.forget()
        clone.without_toolchain(tool)
        clone.runs_nothing(3, says=(f"there is no {tool} here",))


def test_release_is_installed(clone: Clone) -> None:
    """Also the command `shop` of the clone runs it."""
    clone.release()
    for name in ("clients", "completions", "docs", "examples", "monitoring", "picture_tool", "shop_ask", "shop_tool", "shop_web", "systemd"):
        shutil.copytree(TOP / name, clone.top / name, ignore=shutil.ignore_patterns("__pycache__"))     # others write there meanwhile
    for name in ("install", "shop", "CHANGELOG.md", "scripts/picture.py"):
        shutil.copy(TOP / name, clone.top / name)
    assert clone.ended("./install", str(clone.home / "usr")) == (0, "", CAME)
    assert (clone.home / "usr/bin/rubis").read_bytes() == gzip.decompress((clone.top / PACKED).read_bytes())
    _, out, said = clone.ended("./shop", "--version")
    assert (re.sub("^shop [0-9a-f]{12} of ", "", out), said) == ("rubis 0.2.0\n", "")
    assert clone.made() == []


@pytest.mark.parametrize("file, change", [
    (SOURCE, lambda path: path.write_text(path.read_text().replace("fn b", "fn c"))),
    (SOURCE, pathlib.Path.unlink),
    ("crates/rubis_clock/specs/Added.antt", pathlib.Path.touch),
    ("crates.txt", lambda path: path.write_text(path.read_text().replace("rubis_clock: rubis_numbers", "rubis_clock:"))),
], ids=["letter", "removed", "added", "crates"])
def test_release_of_other_sources(clone: Clone, file: str, change: Callable[[pathlib.Path], object]) -> None:
    """It isn't run, and the source that changed is told; what was proved of these sources is run before it."""
    clone.release()
    kept = {name: (clone.top / name).read_text() for name in (SOURCE, "crates.txt")}
    clone.without_toolchain()
    clone.runs(RELEASED, says=CAME)
    change(clone.top / file)
    told = f"sources have changed since rubis 0.2.0 ({file}), so it isn't run; `./rubis --released` runs it all the same"
    clone.runs_nothing(3, says=(told, "there is no rt here"))
    clone.runs_nothing(1, "--which", *ASKED, says=(told,))
    clone.runs(RELEASED, "--released", *ASKED)
    clone.with_toolchain()
    if (clone.top / SOURCE).exists():
        clone.runs(RAN, says=told, proves=4)
        clone.runs(RAN)
    for name, text in kept.items():
        (clone.top / name).write_text(text)
    (clone.top / "crates/rubis_clock/specs/Added.antt").unlink(missing_ok=True)
    clone.runs(RELEASED)


def test_proved_here_comes_before_the_release(clone: Clone) -> None:
    clone.release()
    clone.runs(RELEASED.replace("released world --sites 2", "ran world"), "--anew", "world", says="proving the program", proves=4)
    clone.runs(RAN)
    clone.runs("rubis 0.2.0\n", "--anew")
    clone.runs(RELEASED, "--released", *ASKED, says=CAME.replace("which came with these sources", "as it was released"))
    clone.flip("crates/rubis_app/out/rubis_app")
    clone.runs(RELEASED)


def sum_in(notes: bytes, word: str) -> str:
    return str(re.findall(f"^{word} (.*)$", notes.decode(), re.M)[0])


@pytest.mark.parametrize("damage", ["byte", "sum", "file", "no file", "no sums"])
def test_release_that_is_not_what_its_sums_say(clone: Clone, damage: str) -> None:
    """A flipped byte, an older sum, another file, and none: it is told, and nothing is run."""
    clone.release()
    older = (clone.top / NOTES).read_bytes()
    clone.change(SOURCE, "fn b", "fn c")
    clone.release("released since")
    packed, notes = (clone.top / name for name in (PACKED, NOTES))
    kept = {it: it.read_bytes() for it in (packed, notes)}
    if damage == "byte":
        clone.flip(PACKED)
    elif damage == "sum":
        notes.write_bytes(older)
    elif damage == "file":
        packed.write_bytes(gzip.compress(b"#!/bin/sh\necho other\n"))
        clone.change(NOTES, sum_in(kept[notes], "packed"), hashlib.sha256(packed.read_bytes()).hexdigest())
    elif damage == "no file":
        packed.unlink()
    else:
        notes.write_text("")
    clone.without_toolchain()
    told = f"{PACKED} isn't what {NOTES} says, so it isn't run; `git checkout bin` brings both back"
    clone.runs_nothing(3, says=(told, "there is no rt here"))
    clone.runs_nothing(3, "--released", *ASKED, says=(told, "there is no release that can be run"))
    assert not (clone.top / "out/rubis").exists() and not list((clone.top / "out").glob("new*")), "it is unpacked"
    for file, data in kept.items():
        file.write_bytes(data)
    clone.runs(RELEASED.replace("released", "released since"), says=CAME)


def test_clone_that_cannot_be_written(clone: Clone) -> None:
    """The release is unpacked where the user keeps what can be made again, and that is told."""
    clone.release()
    clone.without_toolchain()
    (clone.top / "out").write_text("no folder\n")
    for name, value, cache in (("XDG_CACHE_HOME", clone.home / "cache", clone.home / "cache"), ("HOME", clone.home, clone.home / ".cache")):
        clone.words[name] = str(value)
        clone.runs(RELEASED, says=f"rubis: {clone.top}/out can't be written, so {cache}/rubis has the program\n{CAME}")
        clone.runs(RELEASED)
        clone.runs(f"{cache}/rubis/rubis\n", "--which")
        del clone.words[name]
    clone.runs_nothing(3, says=("can be unpacked into none of these",))


def test_machine_that_cannot_run_the_release(clone: Clone) -> None:
    """What it needs is told, with what the loader says of an older C library, and the program is proved."""
    (clone.kit / "bin/rattle-link").write_text(LINK.replace("sh\\n[", "sh\\n[ ! -e old ] || { echo GLIBC_2.34 not found >&2; exit 1; }\\n["))
    clone.release()
    (clone.kit / "bin/rattle-link").write_text(LINK)
    (clone.top / "old").touch()
    told = "rubis 0.2.0 needs Linux on x86-64 with glibc 2.34 or later; here is Linux "
    clone.runs(RAN, says=told, proves=4)
    clone.forget()
    clone.without_toolchain()
    clone.runs_nothing(3, says=(told, "GLIBC_2.34 not found", "there is no rt here"))


def test_what_is_released(clone: Clone) -> None:
    """Only what was proved of a clean tree; the same program gives the same file; the gate compares it with what it built."""
    release = "scripts/release.py"
    built, other = (str(clone.top / name) for name in ("crates/rubis_app/out/rubis_app", "other"))
    clone.commit()
    clone.says(1, "it isn't noted of what", release)
    assert clone.script(release, "--check", built) == (0, "the release: 1 passed, 0 failed\n")
    clone.run("--anew")
    clone.made()
    clone.says(0, "rubis 0.2.0: ", release)
    first = (clone.top / PACKED).read_bytes()
    clone.says(0, "rubis 0.2.0: ", release)
    assert (clone.top / PACKED).read_bytes() == first, "it isn't the same again"
    assert sum_in((clone.top / NOTES).read_bytes(), "toolchain") == "stand-in 1"
    assert clone.script(release, "--check", built) == (0, "the release: 1 passed, 0 failed\n")

    (clone.top / "other").write_text("#!/bin/sh\n")
    clone.says(1, "rubis 0.2.0, which came with these sources, isn't ", release, "--check", other)
    clone.says(1, "the tree isn't clean: ?? other", release)
    (clone.top / "other").unlink()
    clone.flip(PACKED)
    clone.says(1, f"{PACKED} isn't what {NOTES} says", release, "--check", built)
    (clone.top / PACKED).write_bytes(first)
    clone.change(SOURCE, "fn b", "fn c")
    clone.says(0, "came with other sources than these, so it wasn't compared", release, "--check", other)
    clone.commit()
    clone.says(1, "isn't of these sources", release)
