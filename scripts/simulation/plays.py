"""Plays runs, decides whether they are runs of the model, and finds the events that a broken one needs."""

import random
import subprocess
import tempfile
import traceback
from typing import NamedTuple

from shop_tool.carrier.records import under
from shrink import smaller

from .askers import asked
from .run import Run
from .stand_in import MOST, StandIn, records_of
from .without import taken_out
from .world import Violation

NO_STEP = "step "       # how it begins what is said of a list that is no run of the model
RECORDS = 6000          # how many records are compared with the program's answers
OWN = "a fault of its own: "


class Played(NamedTuple):
    """How a run was."""

    seed: str
    broken: str | None
    excused: str | None
    counts: dict[str, int]
    least: dict[str, int]
    planned: int            # how many events could be left out
    lines: list[str]        # the model's steps
    none: dict[int, str]    # those that the model doesn't have, by number, and why
    why_none: str | None = None     # why the list is no run of the model


def play(seed: str, without: str | None = None, skip: frozenset[int] = frozenset()) -> Played:
    broken = None
    with taken_out(without):
        run = Run(seed, skip)
        try:
            run.play()
        except Violation as violation:
            broken = str(violation)
        except Exception:
            broken = OWN + traceback.format_exc()
    lines = run.world.steps.lines()
    counts = dict(run.world.counts)
    least = {"events": sum(counts.values()), "faults": run.fault_count, "asks": len(run.askers), "turns": counts.get("Passes", 0)}
    return Played(seed, broken, run.why_excused(), counts, least, run.planned, lines, run.world.steps.none())


def text_of(lines: list[str]) -> str:
    return "".join(f"{line}\n" for line in lines)


def answers_of(decider: str, lists: list[list[str]]) -> list[int | None]:
    """Of each list of steps the number of the first that may not happen, if there is one."""
    done = subprocess.run([decider], input="".join(map(text_of, lists)), capture_output=True, text=True)
    if done.returncode or len(answers := done.stdout.split()) != len(lists):
        raise ValueError(f"{decider}: status {done.returncode}, {done.stderr or done.stdout!r}")
    return [None if answer == "run" else int(answer) for answer in answers]


def not_given(lines: list[str]) -> tuple[list[str], int] | None:
    """The list without the last ask's being given that was accepted; and the number of the step at which that is seen."""
    at = next((at for at in range(len(lines) - 1, 0, -1) if lines[at].startswith("Accepts,")), None)
    if at is None:
        return None
    given = lines.index(lines[at].replace("Accepts", "Gives"))
    return lines[:given] + lines[given + 1:], at - 1


def not_compared(lines: list[str]) -> tuple[list[str], int] | None:
    """The list, in which a folder whose message another one has just read is lost, and opens all the same; and the number of that step."""
    for at in range(len(lines) - 1, 0, -1):
        if lines[at].startswith("Reads,") and len(fields := lines[at].split(",")) == 5:      # a message
            folder = next((line.split(",")[1] for line in lines[:at] if line.startswith("Accepts,") and line.split(",")[2] == fields[4]), None)
            if folder and folder != fields[1]:
                events = [f"{word},{folder}" for word in ("IsKilled", "IsLost", "Starts", "Opens")]
                return lines[:at + 1] + events + lines[at + 1:], at + len(events)
    return None


def decided(decider: str, plays: list[Played]) -> list[Played]:
    """The plays, of which those are broken whose lists aren't runs of the model, but at a step that it doesn't have; it is tried too that
    lists with a step too many are none."""
    answers = answers_of(decider, [played.lines for played in plays])
    for played, answer in zip(plays, answers):
        if answer is None:
            wrong = [spoiled for spoiled in (not_given(played.lines), not_compared(played.lines)) if spoiled]
            if answers_of(decider, [lines for lines, _ in wrong]) != [number for _, number in wrong]:
                raise ValueError(f"{played.seed}: {decider} doesn't see a step too many: {wrong}")
            break
    return [played if answer is None else played._replace(why_none=played.none[answer]) if answer in played.none else
            played._replace(broken=played.broken or f"{NO_STEP}{answer} of its list may not happen: {played.lines[answer]}")
            for played, answer in zip(plays, answers)]


def compared(program: str, seed: str) -> int:
    """That the simulated sites answer as the program does, on records as askers and other sites give them, half of the asks under some keys; how
    many these are."""
    dice = random.Random(seed)
    sites = dice.randint(2, 5)
    stand_ins = [StandIn(site, sites, dice.choice([MOST, 200])) for site in range(sites)]
    given: list[list[bytes]] = [[] for _ in range(sites)]
    said: list[bytes] = [b""] * sites
    packets, before = list[bytes](), set[bytes]()
    for number in range(RECORDS):
        site = dice.randrange(sites)
        records = [dice.choice(packets)] if packets and dice.random() < 0.5 else asked(dice, number, sites, before)
        records = [under(b'a "key", %d' % dice.randrange(RECORDS // 20), record) if dice.random() < 0.5 and b"\n" not in record else record
                   for record in records]
        records += [b"pass,%d" % dice.randrange(sites + 1)] if dice.random() < 0.1 else []
        for line in (line for record in records for line in record.split(b"\n")):
            for record in records_of(line.rstrip(b"\r")):
                answer = stand_ins[site].answer(record)
                packets += [text[5:] for text in answer.split(b"\n") if text.startswith(b"send,")]
                given[site].append(record)
                said[site] += answer
    for site in range(sites):
        with tempfile.TemporaryDirectory() as folder:
            command = [program, "keep", f"{folder}/0", "--site", str(site), "--sites", str(sites), "--keep", str(stand_ins[site].keep)]
            done = subprocess.run(command, input=b"".join(record + b"\n" for record in given[site]), capture_output=True, check=True)
        answers = done.stdout.partition(b"\n")[2]
        if answers != said[site]:
            at = next(at for at, (one, other) in enumerate(zip(answers.split(b"\n"), said[site].split(b"\n"))) if one != other)
            raise ValueError(f"site {site} answers {answers.splitlines()[at]!r}, and the simulated one {said[site].splitlines()[at]!r}")
    return sum(map(len, given))


def told(played: Played, without: str | None) -> str:
    """What is wrong with a run, and how it is played again without the events that it doesn't need for that."""
    again = f"scripts/simulate_shop.py {played.seed}" + (f" --without {without}" if without else "")
    said = f"{played.seed}: {played.broken or 'no promise is broken'}"
    if not played.broken or played.broken.startswith((OWN, NO_STEP)):
        return said
    events = frozenset(range(played.planned))
    skip = events - set(smaller(sorted(events), lambda left: bool(play(played.seed, without, events - set(left)).broken)))
    least = play(played.seed, without, skip).broken
    return f"{said}\nsmaller: {again} --skip {','.join(map(str, sorted(skip)))}\n{played.seed}: {least}"
