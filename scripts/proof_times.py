"""How long the crates' proofs take from nothing, as it was measured (scripts/proof_times.txt), and what is left by that."""
from __future__ import annotations

import os
from collections.abc import Iterable
from typing import NamedTuple

FILE = os.path.join(os.path.dirname(os.path.abspath(__file__)), "proof_times.txt")
HEAD = """# What the proof of each crate takes from nothing with four jobs: seconds until its first function is proved, seconds of all processors for its
# functions, how many processors these keep busy, and seconds after the last. `prove_program.py --times` writes this, on an idle machine.
"""
# What a crate is taken for that wasn't measured: the seconds before its functions and after them, those for each function, and how many processors.
FRONT, OF_FUNCTION, WIDTH, TAIL = 30.0, 5.0, 3.0, 25.0
# Which share of the time for its functions one job takes, since it loads the libraries once, and each of four does in each wave of functions that
# call those before. Measured: 0.49 to 0.67 of four crates. A proof that keeps fewer processors busy than this gets one job.
ONE_JOB, WIDE = 0.6, 2.0
BEFORE = 60.0       # seconds that count as if they had gone as they were measured: a run says too little of the machine before


class Times(NamedTuple):
    front: float
    work: float
    width: float
    tail: float

    @property
    def processor(self) -> float:
        return self.front + self.work + self.tail

    def clock(self, processors: float) -> float:
        return self.front + self.work / min(self.width, processors) + self.tail

    @property
    def is_wide(self) -> bool:
        return self.width >= WIDE

    def with_one_job(self) -> Times:
        return Times(self.front, ONE_JOB * self.work, 1.0, self.tail)

    def left(self, used: float) -> Times:
        """What is left once so much processor time was used."""
        after_front = max(used - self.front, 0.0)
        after_work = max(after_front - self.work, 0.0)
        return Times(max(self.front - used, 0.0), max(self.work - after_front, 0.0), self.width, max(self.tail - after_work, self.tail / 10))


class Estimate:
    """How long it takes to prove crates, each of which stands on others of them."""

    def __init__(self, uses: dict[str, list[str]], processors: int) -> None:
        """Takes the crates, each after those that it stands on."""
        self.uses, self.processors, self.all = uses, processors, 0.0

    def chains(self, left: dict[str, Times]) -> dict[str, float]:
        """How long the longest chain takes that begins with each crate, where this is left of them."""
        found = dict.fromkeys(self.uses, 0.0)
        for name in reversed(self.uses):
            found[name] += left[name].clock(self.processors) if name in left else 0.0
            for below in self.uses[name]:
                found[below] = max(found[below], found[name])
        return found

    def seconds(self, left: dict[str, Times], gone: float) -> float:
        """How long it takes from now on, where this is left: the longest chain, or all of it on all processors, at the pace of the run so far."""
        measured = max(*self.chains(left).values(), sum(it.processor for it in left.values()) / self.processors)
        self.all = max(self.all, measured)
        return measured * (BEFORE + gone) / (BEFORE + self.all - measured)


def speed(took: float, measured: float) -> float:
    """How much longer proofs take here, of processor time, than where they were measured."""
    return (BEFORE + took) / (BEFORE + measured)


def guess(functions: int) -> Times:
    return Times(FRONT, OF_FUNCTION * functions, WIDTH, TAIL)


def read() -> dict[str, Times]:
    """The measured times, by the names of the crates."""
    with open(FILE, encoding="utf-8") as lines:
        rows = [line.split() for line in lines if not line.startswith("#")]
    return {name: Times(*map(float, numbers)) for name, *numbers in rows}


def write(times: dict[str, Times], names: Iterable[str]) -> None:
    """Keeps the times of the crates of these names."""
    with open(FILE, "w", encoding="utf-8") as file:
        file.write(HEAD)
        for name in names:
            if name in times:
                front, work, width, tail = times[name]
                file.write(f"{name} {front:.0f} {work:.0f} {width:.1f} {tail:.0f}\n")
