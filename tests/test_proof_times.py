"""Tries how the first `./rubis` says what is left of its proofs, on runs that are made up of the measured times."""

import itertools
import math
import random
from collections.abc import Iterator

import proof_times
import pytest
from proof_times import Estimate, Times
from prove_program import program_crates

CRATES = {it.name: it for it in program_crates()}
USES = {name: [below.name for below in it.uses] for name, it in CRATES.items()}


def run(processors: int, speed: float, draws: random.Random) -> Iterator[tuple[float, dict[str, Times], dict[str, float]]]:
    """A run of which each crate takes some tenths more or less than was measured: at each moment what is left of the crates then, what is used of
    each, and last that nothing is. Processors go to the longest chain first."""
    real = {}
    for name, it in CRATES.items():
        front, work, tail = (part * speed * math.exp(draws.gauss(0, 0.15)) for part in (it.times.front, it.times.work, it.times.tail))
        real[name] = Times(front, work, it.times.width, tail)
    first = Estimate(USES, processors).chains({name: it.times for name, it in CRATES.items()})
    used, now = dict.fromkeys(CRATES, 0.0), 0.0
    while True:
        left = {name: it.left(used[name]) for name, it in real.items() if used[name] < it.processor - 1e-6}
        yield now, {name: real[name] for name in left}, used
        if not left:
            return
        free, shares = float(processors), dict[str, float]()
        for name in sorted(left, key=lambda it: -first[it]):
            if free > 0 and not left.keys() & set(USES[name]):
                is_alone = left[name].front > 0 or left[name].work <= 0
                shares[name] = min(free, 1.0 if is_alone else real[name].width)
                free -= shares[name]
        step = min(min((left[name].front or left[name].work or real[name].processor - used[name]) / share for name, share in shares.items()), 20.0)
        for name, share in shares.items():
            used[name] += step * share + 1e-9
        now += step


@pytest.mark.parametrize("processors, speed", itertools.product((1, 2, 4, 8), (0.5, 1.0, 2.5)))
def test_what_is_left_is_told_within_a_quarter(processors: int, speed: float) -> None:
    """From the first fifth of a run on, nine times of ten, by median within an eighth, however fast the machine is; its last tenth says little in minutes."""
    draws, faults = random.Random(processors), []
    for _ in range(4):
        estimate, told = Estimate(USES, processors), list[tuple[float, float]]()
        for now, left, used in run(processors, speed, draws):
            ended = CRATES.keys() - left.keys()
            here = proof_times.speed(sum(used[name] for name in ended), sum(CRATES[name].times.processor for name in ended))
            told.append((now, estimate.seconds({name: CRATES[name].times.left(used[name] / here) for name in left}, now)))
        end = told[-1][0]
        faults += [abs(seconds / (end - now) - 1) for now, seconds in told if 0.2 * end <= now <= 0.9 * end]
    faults.sort()
    half, most = faults[len(faults) // 2], faults[len(faults) * 9 // 10]
    assert half < 0.125 and most < 0.25, f"half are within {half:.2f}, nine tenths within {most:.2f}"


def test_measured_crates_are_there() -> None:
    assert not proof_times.read().keys() - {it.name for it in program_crates(None)}, "prove_program.py --times measures what there is"
