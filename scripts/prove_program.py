#!/usr/bin/env python3
"""Proves the crates that a program is made of and builds it, on all processors: this is what `./rubis` calls where no program is of these sources.

    prove_program.py [--times] [PROGRAM]
    prove_program.py --noting COMMAND ..

The program is `rubis_app`, which has all commands, or `rubis_site`, which has the one that runs a site and is proved in less time. Beside
it stands what it was built of, the sums of all that its proof read, by which `./rubis` knows it.

Each crate is built by `rattle build`, as its help says, once those below it are, the longest chain first. What is proved stays in the
crate's folder `out`, function by function, where `rt check` keeps the same: a run that was interrupted goes on where it was, and after an
edit only what changed is proved. Standard error tells how far it is, on a terminal in one line that is written over. The first crate that
isn't proved ends the run, with its errors and no others', and status 1. With `--times`, what the proofs took that began with nothing kept is
written down (scripts/proof_times.txt), one after the other: by that the longest chain is known, which proofs several jobs speed up, and what is left.

The gate takes nothing from here: `rt ci` proves every crate on its own. With `--noting` a command as that is run, and it is noted of what
it built the programs, if it says that they are proved and no source changed meanwhile.
"""
from __future__ import annotations

import argparse
import fcntl
import hashlib
import os
import pathlib
import re
import resource
import shutil
import signal
import subprocess
import sys
import tempfile
import time
from collections.abc import Iterator

import proof_times
from proof_times import Estimate, Times

TOP = os.path.dirname(os.path.dirname(os.path.abspath(__file__)))
APP = "rubis_app"
PROGRAMS = (APP, "rubis_site")
PARTS = ("src", "specs", "proofs")      # the folders of a crate that its proof reads
FUNCTION = re.compile(r"^\s*(?:pub(?:\(\w+\))? )?(?:const )?fn (\w+)", re.M)
# How many jobs a proof can use, and how many there are at once for each processor: a proof has steps that one job does.
MOST, CROWDED = 4, 1.5
# How many bytes a proof with one job was seen to take at most, and each job more; and how much of the free memory is used.
OF_ONE, OF_MORE, USED = 3_600_000_000, 700_000_000, 0.85
# How much a proof beside the longest chain gives way to it.
BEHIND = 10


class Unproved(Exception):
    """A crate that isn't proved, or a program that isn't built, and what the toolchain says of it."""


def sum_of(file: str) -> str:
    return hashlib.sha256(pathlib.Path(file).read_bytes()).hexdigest()


class Kit:
    """The toolchain, found by its command `rt`."""

    def __init__(self) -> None:
        page = subprocess.run(["rt", "doc"], stdout=subprocess.PIPE, text=True, check=True).stdout.strip()
        self.folder = os.path.dirname(page)
        self.version = subprocess.run(["rt", "version"], stdout=subprocess.PIPE, text=True, check=True).stdout.strip()

    def build(self, crate: Crate, to: str, jobs: int) -> list[str]:
        """Returns the command that proves a crate over what is kept of it, and builds it."""
        at = self.folder
        words = [f"{at}/bin/rattle", "build", "--crate-name", crate.name, crate.root]
        for name in ("std", *crate.of_kit):
            words += ["--extern", f"{name}={at}/rlibs/{name}.rlib"]
        words += ["-L", f"dependency={at}/rlibs"]
        for below in crate.uses:
            words += ["--extern", f"{below.name}={below.library}"]
        for below in crate.below():
            words += ["-L", f"dependency={os.path.dirname(below.library)}"]
        words += ["--antt-project", f"{at}/rattle/logic/antt-project.json", "--logic-built", f"{at}/logic_built"]
        words += ["--incremental", "out/incremental", "--jobs", str(jobs), "-o", to]
        return words + (["--toolchain", f"{at}/toolchain", "--backend", "llvm"] if crate.is_program else [])

    def link(self, program: str, to: str) -> list[str]:
        """Returns the command that makes a program of what was built."""
        words = [f"{self.folder}/bin/rattle-link", "--target", "x86_64-unknown-linux-gnu", "--toolchain", f"{self.folder}/toolchain"]
        return [*words, "-o", to, program, f"{self.folder}/c/libos_c.a", f"{self.folder}/c/liblibc_c.a"]


class Crate:
    """A crate of crates.txt."""

    def __init__(self, name: str, deps: list[str], uses: list[Crate], measured: Times | None) -> None:
        self.name, self.deps, self.uses = name, deps, uses
        self.of_kit = [it for it in deps if it not in {below.name for below in uses}]
        self.folder = f"{TOP}/crates/{name}"
        self.is_program = os.path.isfile(f"{self.folder}/src/main.rt")
        self.root = "src/main.rt" if self.is_program else "src/lib.rt"
        self.library = f"{self.folder}/out/rlib/{name}.rlib"
        self.program = f"{self.folder}/out/{name}"
        self.kept = f"{self.folder}/out/incremental"
        self._below = {below.name: below for it in uses for below in [*it.below(), it]}
        # How many functions are proved, and how many there are: a guess until the proof has begun.
        self.proved, self.functions = 0, sum(len(FUNCTION.findall(pathlib.Path(it).read_text("utf-8"))) for it in self.files("src"))
        self.times = measured or proof_times.guess(self.functions)

    def below(self) -> list[Crate]:
        """Returns the crates that it stands on, each after those that it stands on itself."""
        return [*self._below.values()]

    def expected(self, jobs: int) -> Times:
        """Returns what its proof takes as it was measured, without its functions if an earlier run kept any."""
        times = self.times if jobs > 1 else self.times.with_one_job()
        return times._replace(work=0.0) if os.path.isdir(self.kept) else times

    def files(self, *parts: str) -> Iterator[str]:
        for part in parts:
            for at, folders, names in os.walk(f"{self.folder}/{part}"):
                folders.sort()
                yield from (f"{at}/{name}" for name in sorted(names))

    def sources(self) -> str:
        """Returns all that its proof reads: the crates, and the sum of each of their files. `./rubis` makes the same list."""
        crates = [*self.below(), self]
        lines = sorted(" ".join([f"{it.name}:", *it.deps]) for it in crates)
        lines += (f"{sum_of(file)}  {file[len(TOP) + 1 :]}" for file in sorted(file for it in crates for file in it.files(*PARTS)))
        return "".join(f"{line}\n" for line in lines)

    def note(self, toolchain: str, sources: str) -> tuple[str, str]:
        """Returns the file that says of what its library or its program was built, and what it has to say."""
        says = f"toolchain {toolchain}\n"
        if self.is_program:
            return f"{self.program}.sum", f"{says}program {sum_of(self.program)}\n{sources}"
        return f"{os.path.dirname(self.library)}/sum", hashlib.sha256(f"{says}{sources}".encode()).hexdigest()

    def is_built(self, toolchain: str, sources: str) -> bool:
        """Returns whether its library or its program is that of these sources."""
        try:
            file, says = self.note(toolchain, sources)
            return pathlib.Path(file).read_text("utf-8") == says and (self.is_program or os.path.isdir(self.library))
        except FileNotFoundError:
            return False

    def keep_note(self, toolchain: str, sources: str) -> None:
        """Notes that its library or its program was built of the sources that there were before, unless one has changed since."""
        if sources == self.sources():
            file, says = self.note(toolchain, sources)
            pathlib.Path(file).write_text(says, "utf-8")


def listed_crates() -> dict[str, list[str]]:
    """Returns the crates of crates.txt in their order, each with those that it stands on."""
    lines = pathlib.Path(f"{TOP}/crates.txt").read_text("utf-8").splitlines()
    return {name: below.split("#")[0].split() for name, below in (line.split(":", 1) for line in lines if re.match(r"\w", line))}


def program_crates(top: str | None = APP) -> list[Crate]:
    """Returns the crates of the program, or all, each after those that it stands on."""
    listed, measured = listed_crates(), proof_times.read()
    found: dict[str, Crate] = {}

    def crate(name: str) -> Crate:
        if name not in found:
            found[name] = Crate(name, listed[name], [crate(it) for it in listed[name] if it in listed], measured.get(name))
        return found[name]

    for name in [top] if top else listed:
        crate(name)
    return [*found.values()]


def free_memory() -> int:
    """Returns how many bytes of memory are free."""
    found = re.search(r"^MemAvailable:\s+(\d+) kB", pathlib.Path("/proc/meminfo").read_text("ascii"), re.M)
    return int(found[1]) * 1024 if found else OF_ONE


def time_of_children() -> float:
    """Returns how much processor time those children took that have ended."""
    used = resource.getrusage(resource.RUSAGE_CHILDREN)
    return used.ru_utime + used.ru_stime


class Proof:
    """A crate's proof that is under way."""

    def __init__(self, kit: Kit, crate: Crate, sources: str, jobs: int, way: int, room: str) -> None:
        self.kit, self.crate, self.sources, self.jobs = kit, crate, sources, jobs
        self.log = f"{room}/{crate.name}.log"
        self.is_whole, self.expected = not os.path.isdir(crate.kept), crate.expected(jobs)
        # When it began, and when the first and the last function so far was proved; once it has ended, when that was, and its processor time.
        self.began, self.seen, self.ended, self.took = time.monotonic(), (0.0, 0.0), 0.0, 0.0
        self.made = f"{room}/{crate.name}.o" if crate.is_program else crate.library
        os.makedirs(f"{crate.folder}/out", exist_ok=True)
        if not crate.is_program:
            shutil.rmtree(os.path.dirname(crate.library), ignore_errors=True)
            os.makedirs(os.path.dirname(crate.library))
        self.read = 0
        self.run = self.start(kit.build(crate, self.made, jobs), way)

    def start(self, words: list[str], way: int = 0) -> subprocess.Popen[bytes]:
        with open(self.log, "ab") as out:
            return subprocess.Popen(["nice", "-n", str(way), *words], cwd=self.crate.folder, stdin=subprocess.DEVNULL, stdout=out, stderr=out,
                                    start_new_session=True)

    def said(self) -> str:
        return pathlib.Path(self.log).read_text("utf-8", "replace")

    def look(self) -> None:
        """Looks how many functions are proved."""
        with open(self.log, "rb") as text:
            text.seek(self.read)
            more = text.read()
        self.read += more.rfind(b"\n") + 1
        for done, all_of in re.findall(rb"^so far: (\d+) of (\d+) functions checked", more, re.M):
            self.crate.proved, self.crate.functions = int(done), int(all_of)
            self.seen = self.seen[0] or time.monotonic(), time.monotonic()

    def is_over(self) -> bool:
        """Returns whether the command has ended."""
        before = time_of_children()
        if self.run.poll() is None:
            return False
        self.ended, self.took = time.monotonic(), time_of_children() - before
        return True

    def used(self) -> float:
        """Returns how much processor time the command took, without that of copies that it still waits for."""
        try:
            fields = pathlib.Path(f"/proc/{self.run.pid}/stat").read_text("utf-8").rpartition(")")[2].split()
            return sum(map(int, fields[11:15])) / os.sysconf("SC_CLK_TCK")
        except OSError:
            return self.took

    def measured(self) -> Times:
        """Returns what it took, once it has ended."""
        first, last = self.seen
        if last <= first:
            return Times(self.took, 0.0, 1.0, 0.0)
        front, tail = first - self.began, self.ended - last
        work = max(self.took - front - tail, 0.0)
        return Times(front, work, max(work / (last - first), 1.0), tail)

    def end(self) -> None:
        """Takes what was built, once the command has ended. A crate that isn't proved is raised."""
        if self.run.returncode == -signal.SIGKILL and self.jobs > 1:
            # It was killed, most likely for memory.
            self.jobs = 1
            self.run = self.start(self.kit.build(self.crate, self.made, 1))
            self.run.wait()
        if self.run.returncode:
            raise Unproved(f"{self.said()[-20000:]}rubis: {self.crate.name} isn't proved, so nothing is run\n")
        if self.crate.is_program:
            self.link()
        self.crate.keep_note(self.kit.version, self.sources)
        self.crate.proved = self.crate.functions

    def link(self) -> None:
        """Makes the program of what was built."""
        made = f"{self.crate.program}.new"
        if self.start(self.kit.link(self.made, made)).wait():
            raise Unproved(f"{self.said()[-4000:]}rubis: the program isn't built, so nothing is run\n")
        os.replace(made, self.crate.program)

    def stop(self) -> None:
        if self.run.poll() is None:
            os.killpg(self.run.pid, signal.SIGTERM)
            self.run.wait()


class Progress:
    """How far the proofs are."""

    def __init__(self, crates: list[Crate]) -> None:
        self.crates, self.shown, self.began = crates, "", time.monotonic()
        self.estimate = Estimate({it.name: [below.name for below in it.uses] for it in crates}, len(os.sched_getaffinity(0)))

    def show(self, left: dict[str, Times]) -> None:
        """Writes how far it is, where this is left of the crates: over the last line on a terminal, and else where a crate more is proved."""
        gone = time.monotonic() - self.began
        seconds = self.estimate.seconds(left, gone)
        proved, all_of = (sum(count) for count in zip(*((it.proved, it.functions) for it in self.crates)))
        crates = sum(crate.proved == crate.functions for crate in self.crates)
        text = f"rubis: {proved} of {all_of} functions proved, {crates} of {len(self.crates)} crates, {gone / 60:.0f} min gone"
        text += f", about {seconds / 60 + 0.5:.0f} min left"
        if sys.stderr.isatty():
            sys.stderr.write(f"\r{text}\x1b[K")
        elif self.shown != str(crates):
            sys.stderr.write(f"{text}\n")
        sys.stderr.flush()
        self.shown = str(crates)


class Lanes:
    """The proofs, as many side by side as there are processors and memory."""

    def __init__(self, kit: Kit, crates: list[Crate], room: str, one_by_one: bool) -> None:
        self.one_by_one = one_by_one
        self.kit, self.room, self.memory, self.progress = kit, room, int(USED * free_memory()), Progress(crates)
        self.processors = self.progress.estimate.processors
        self.behind = self.progress.estimate.chains({it.name: it.times if it.times.is_wide else it.times.with_one_job() for it in crates})
        # Of what each is built: what changes while this runs is proved by the next run.
        self.sources = {it.name: it.sources() for it in crates}
        self.left = [it for it in crates if not it.is_built(kit.version, self.sources[it.name])]
        for it in crates:
            if it not in self.left:
                it.proved = it.functions
        self.running: list[Proof] = []
        self.ended: list[Proof] = []

    def times_left(self) -> dict[str, Times]:
        """Returns what is left of the crates' proofs, as they were measured."""
        speed = proof_times.speed(sum(it.took for it in self.ended), sum(it.expected.processor for it in self.ended))
        left = {it.name: it.expected(MOST if it.times.is_wide else 1) for it in self.left}
        return left | {proof.crate.name: proof.expected.left(proof.used() / speed) for proof in self.running}

    def longest(self) -> Crate:
        """Returns the crate, of those that aren't proved, with which the longest chain begins."""
        return max([*self.left, *(it.crate for it in self.running)], key=lambda it: self.behind[it.name])

    def jobs_for(self, crate: Crate) -> int:
        """Returns how many jobs its proof gets now, or none if it has to wait. The longest chain waits for nothing but memory."""
        crowd = sum(it.jobs for it in self.running)
        memory = self.memory - sum(OF_ONE + OF_MORE * (it.jobs - 1) for it in self.running)
        if self.running and (crowd >= CROWDED * self.processors or memory < OF_ONE):
            return 0
        if self.running and self.one_by_one:
            return 0
        slack = self.behind[self.longest().name] - self.behind[crate.name]
        is_late = slack < crate.times.with_one_job().clock(1) - crate.times.clock(self.processors)
        wanted = min(MOST, self.processors) if self.one_by_one or crate.times.is_wide and is_late else 1
        return max(1, min(wanted, 1 + max(memory - OF_ONE, 0) // OF_MORE))

    def start(self) -> None:
        """Starts what can run, the longest chain first."""
        waited = {it.name for it in [*self.left, *(proof.crate for proof in self.running)]}
        ready = [it for it in self.left if not waited.intersection(below.name for below in it.below())]
        for crate in sorted(ready, key=lambda it: -self.behind[it.name]):
            jobs = self.jobs_for(crate)
            if jobs:
                way = 0 if crate is self.longest() else BEHIND
                self.running.append(Proof(self.kit, crate, self.sources[crate.name], jobs, way, self.room))
                self.left.remove(crate)

    def run(self) -> None:
        """Proves all crates, and says how far that is."""
        try:
            while self.left or self.running:
                self.start()
                for proof in [*self.running]:
                    is_over = proof.is_over()
                    proof.look()
                    if is_over:
                        proof.end()
                        self.running.remove(proof)
                        self.ended.append(proof)
                self.progress.show(self.times_left())
                time.sleep(0.2)
        finally:
            for proof in self.running:
                proof.stop()
            if sys.stderr.isatty():
                sys.stderr.write("\n")


def lock(crates: list[Crate]) -> list[int]:
    """Waits until no `rt` works in these crates' folders, and keeps others out until the run ends."""
    held = [os.open(folder, os.O_RDONLY) for folder in sorted(os.path.realpath(it.folder) for it in crates)]
    for folder in held:
        try:
            fcntl.flock(folder, fcntl.LOCK_EX)
        except OSError:
            pass        # some file systems have no locks
    return held


def note_built(command: list[str]) -> int:
    """Runs a command that proves and builds all programs, and notes of what they are built: its status."""
    toolchain = Kit().version
    before = [(it, it.sources()) for it in (program_crates(name)[-1] for name in PROGRAMS)]
    status = subprocess.run(command).returncode
    for crate, sources in before if status == 0 else ():
        crate.keep_note(toolchain, sources)
    return status


def keep_times(ended: list[Proof]) -> None:
    """Keeps what those took that began with nothing kept."""
    known = proof_times.read() | {it.crate.name: it.measured() for it in ended if it.is_whole}
    proof_times.write(known, [it.name for it in program_crates(None)])


def prove(program: str, is_measured: bool) -> None:
    """Proves the crates of a program and builds it; what each took is kept if that is measured."""
    what = "the program" if program == APP else "the program of one site, and the others when they are first asked for"
    sys.stderr.write(f"rubis: proving {what}, once: later runs start at once. For a look without proofs: ./rubis --try\n")
    signal.signal(signal.SIGTERM, lambda *_: sys.exit(1))
    crates = program_crates(program)
    kit, _held = Kit(), lock(crates)
    with tempfile.TemporaryDirectory(prefix="rubis-proving-") as room:
        lanes = Lanes(kit, crates, room, is_measured)
        lanes.run()
    if is_measured:
        keep_times(lanes.ended)


def main() -> int:
    words = argparse.ArgumentParser(description="Proves the crates that a program is made of and builds it.")
    words.add_argument("program", nargs="?", choices=PROGRAMS, default=APP)
    words.add_argument("--times", action="store_true", help="write down what the proofs took")
    words.add_argument("--noting", nargs=argparse.REMAINDER, metavar="COMMAND", help="run a command that builds the programs, and note of what")
    asked = words.parse_args()
    try:
        if asked.noting:
            return note_built(asked.noting)
        prove(asked.program, asked.times)
    except Unproved as fault:
        sys.stderr.write(str(fault))
        return 1
    except (OSError, subprocess.SubprocessError) as fault:
        sys.stderr.write(f"rubis: the toolchain can't be called: {fault}\n")
        return 1
    except KeyboardInterrupt:
        sys.stderr.write("\nrubis: interrupted: the next run goes on where this one was\n")
        return 1
    return 0


if __name__ == "__main__":
    sys.exit(main())
