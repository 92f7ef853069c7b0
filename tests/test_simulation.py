"""Whole shops on a clock of their own, while things go wrong: scripts/simulate_shop.py says how, and plays one of them again.

Each run keeps every promise. Of one seed's runs each is a run of the proved model too, as its program decides, up to a step of which the run
itself says that the model doesn't have it: a site is opened of which something has more that it doesn't reach."""

import collections
import gc
import pathlib

import pytest

from simulation.plays import answers_of, compared, decided, play, told
from simulation.rules import RULES, drawn
from tests.conftest import Extent
from tests.folder import Counted
from tests.needs import built

SEED = "4"              # of the runs that are runs of the model too
RUNS, MORE = 400, 100
SHARES = 4              # how many tests share them, which run beside each other
AT_ONCE = 25
LEAST = {"events": 300, "faults": 10, "asks": 50, "turns": 3}      # of each run


def expect_kept(seed: str, numbers: range, decider: pathlib.Path | None, counted: Counted) -> None:
    events = collections.Counter[str]()
    gc.disable()        # what a run leaves is circular, and looking for it again and again takes a fifth of the time
    for begin in range(0, len(numbers), AT_ONCE):
        plays = [play(f"{seed}.{number}") for number in numbers[begin:begin + AT_ONCE]]
        for played in decided(str(decider), plays) if decider else plays:
            assert not played.broken, told(played, None)
            assert all(played.least[name] >= least for name, least in LEAST.items()), f"{played.seed} has {played.least}"
            kinds = ("IsKilled", "IsLost", "IsPutBack", "TakesOver", "Rebuilds", "fenced", "cut-off", "full", "IsRaised")
            events.update(f"with {kind}" for kind in kinds if played.counts.get(kind))
            events.update([f"not all looked at: {played.excused}"] if played.excused else [])
            events.update([f"up to a step that the model doesn't have: {played.why_none}"] if played.why_none else [])
        gc.collect()
    gc.enable()
    counted("simulated shops", len(numbers))
    for name, count in events.items():
        counted(f"simulated shops, {name}", count)


@pytest.mark.slow
@pytest.mark.parametrize("share", range(SHARES))
def test_runs_of_the_model(share: int, extent: Extent, counted: Counted) -> None:
    expect_kept(SEED, range(share, extent.count(RUNS), SHARES), built("rubis_decider"), counted)


@pytest.mark.slow
@pytest.mark.parametrize("share", range(SHARES))
def test_runs(share: int, extent: Extent, counted: Counted) -> None:
    """Of another seed each time; whether they are runs of the model isn't asked."""
    expect_kept(str(extent.seed), range(share, extent.count(MORE), SHARES), None, counted)


@pytest.mark.parametrize("seed", ["22.21", "23.105", "24.183", "595890.66"])
def test_opens_beside_a_site_that_cannot_say_what_it_has(seed: str) -> None:
    """Lines were changed there, or the site was made again with a token that was lost."""
    played = play(seed)
    assert not played.broken, told(played, None)


@pytest.mark.parametrize("rule", RULES)
def test_rules_are_as_defined(rule: str, extent: Extent) -> None:
    """What a rule of `shop` lets happen is a step of the model, and else it is none."""
    states = drawn(rule, str(extent.seed), 400)
    answers = answers_of(str(built("rubis_decider")), [state.lines for state in states])
    for state, answer in zip(states, answers):
        assert answer in (None, len(state.lines) - 1), f"an earlier step may not happen: {state.lines} at {answer}"
        assert state.takes == (answer is None), f"{state.lines}: shop takes it: {state.takes}"


def test_answers(program: pathlib.Path, extent: Extent, counted: Counted) -> None:
    """The simulated sites answer as the program does."""
    counted("answers of simulated sites compared", compared(str(program), str(extent.seed)))
