#!/usr/bin/env python3
"""Simulates whole shops: scripts/simulate_shop.py SEED [COUNT] [--without RULE] [--skip N,..] [--steps FOLDER]

docs/SHOP.md says what is simulated. `pytest -k simulation --seed SEED --count COUNT` plays many; this plays a few, and one again: run number N
of a seed is SEED.N, and is the same each time. One that breaks a promise is printed, and made smaller: --skip plays it without some of its
events. With --without one rule of the carrier is taken out, to see that this is found. With --steps each run is written to a file as a list
of the model's steps. The status is 1 if a promise was broken."""

import argparse
import pathlib
import sys

import top      # by which the packages of the repository are found; pylint: disable=unused-import
from simulation.plays import play, text_of, told
from simulation.without import RULES


def main() -> int:
    words = argparse.ArgumentParser(description=__doc__, formatter_class=argparse.RawDescriptionHelpFormatter)
    words.add_argument("seed")
    words.add_argument("count", type=int, nargs="?", help="how many runs of the seed; without it SEED names one run")
    words.add_argument("--without", choices=RULES)
    words.add_argument("--steps", metavar="FOLDER", type=pathlib.Path)
    words.add_argument("--skip", metavar="N,..", default="")
    args = words.parse_args()
    skip = frozenset(int(part) for part in args.skip.split(",") if part)
    for seed in [args.seed] if args.count is None else (f"{args.seed}.{number}" for number in range(args.count)):
        played = play(seed, args.without, skip)
        if args.steps:
            args.steps.mkdir(parents=True, exist_ok=True)
            (args.steps / f"{seed}.steps").write_text(text_of(played.lines))
        if played.broken:
            print(f"{seed}: {played.broken}" if skip else told(played, args.without))
            return 1
    print("no promise is broken")
    return 0


if __name__ == "__main__":
    sys.exit(main())
