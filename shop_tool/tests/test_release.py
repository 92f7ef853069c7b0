"""The release rule, against the plain one: look for the first that is ready, over and over."""

import random
import unittest

from shop_tool.grid import Grid, GridRow, Waits, grid_of_status, grid_text, waiting_text, waits_of
from shop_tool.carrier.records import Message
from shop_tool.carrier.release import Release


def message(origin: int, number: int, red: int, *deps: int) -> Message:
    return Message(origin, number, red, deps, b"")


class Plain:
    """The rule as it is said, without any index."""

    def __init__(self, sites: int) -> None:
        self.counts, self.reds = [0] * sites, 0
        self.waiting: list[Message] = []

    def ready(self, m: Message) -> bool:
        covered = all(have >= need for have, need in zip(self.counts, m.deps))
        return covered and self.counts[m.origin] == m.number - 1 and m.red in (0, self.reds + 1)

    def arrive(self, m: Message) -> list[Message]:
        if m.number <= self.counts[m.origin] or any((m.origin, m.number) == (w.origin, w.number) for w in self.waiting):
            return []
        self.waiting.append(m)
        released = []
        while (one := next((w for w in self.waiting if self.ready(w)), None)) is not None:
            self.waiting.remove(one)
            self.counts[one.origin] += 1
            self.reds += one.red > 0
            released.append(one)
        return released


def made_messages(random_: random.Random, sites: int, count: int) -> list[Message]:
    """Messages of a run at sites that know more or less of each other."""
    known = [[0] * sites for _ in range(sites)]
    made: list[Message] = []
    reds = 0
    for _ in range(count):
        origin = random_.randrange(sites)
        for site in range(sites):
            if random_.random() < 0.3:
                known[origin] = [max(pair) for pair in zip(known[origin], known[site])]
        is_red = random_.random() < 0.4
        if is_red:      # the holder has all red messages before
            for other in made:
                if other.red:
                    upto = [max(pair) for pair in zip(known[origin], other.deps)]
                    upto[other.origin] = max(upto[other.origin], other.number)
                    known[origin] = upto
            reds += 1
        deps = tuple(known[origin])
        made.append(Message(origin, deps[origin] + 1, reds if is_red else 0, deps, b""))
        known[origin][origin] += 1
    return made


class Rule(unittest.TestCase):
    def test_it_is_the_plain_rule(self) -> None:
        for seed in range(60):
            random_ = random.Random(seed)
            made = made_messages(random_, 3, 40)
            coming = [m for m in made + made[:10] if random_.random() < 0.95]
            random_.shuffle(coming)
            plain, quick = Plain(3), Release[Message](3)
            for m in coming:
                self.assertEqual(plain.arrive(m), quick.arrive(m))
                self.assertEqual((plain.counts, plain.reds, plain.waiting), (quick.counts, quick.reds, list(quick.waiting.values())))

    def test_what_waits_and_for_what(self) -> None:
        state = Release[Message](2)
        state.arrive(message(0, 2, 2, 1, 0))
        state.arrive(message(1, 1, 4, 1, 0))
        self.assertEqual(waits_of(state), (Waits("0.2", ("0.1",), 1), Waits("1.1", ("0.1",), 1)))
        self.assertEqual([m.number for m in state.arrive(message(0, 1, 1, 0, 0))], [1, 2])
        self.assertEqual(waits_of(state), (Waits("1.1", (), 3),))
        self.assertEqual(waits_of(state)[0].text, "1.1 for red 3")

    def test_own_messages_release_what_waits(self) -> None:
        state = Release[Message](2)
        self.assertEqual(state.arrive(message(0, 1, 0, 0, 1)), [])
        self.assertEqual([m.origin for m in state.made(message(1, 1, 0, 0, 0))], [0])

    def test_many_that_wait_take_no_longer_than_they_are(self) -> None:
        state = Release[Message](1)
        for number in range(20_000, 1, -1):
            state.arrive(message(0, number, number, number - 1))
        self.assertEqual(len(state.arrive(message(0, 1, 1, 0))), 20_000)


class Text(unittest.TestCase):
    GRID = Grid((12, 0, 3), (
        GridRow(0, (12, 0, 3), holds=True),
        GridRow(2, (9, 0, 3), (Waits("0.11", ("0.10",), 5), Waits("0.12", ("0.10",))), 7, False)))

    def test_a_grid(self) -> None:
        self.assertEqual(grid_text(self.GRID), (
            "          of 0   of 2  waits\n"
            "site 0 *  12/12  3/3   -\n"
            "site 2    9/12   3/3   0.11 for 0.10, red 5; 0.12 for 0.10; and 5 more\n"
            "* holds the token\n"))

    def test_the_first_that_wait(self) -> None:
        self.assertEqual(waiting_text(self.GRID.rows[1], 1), "0.11 for 0.10, red 5; and 6 more")

    def test_of_a_status(self) -> None:
        """Site 1 has no status; site 0 has two messages of it that wait, and knows of a third."""
        one = {"site": 0, "released": [4, 1], "has": {"1": 3}, "behind": {"1": 1}, "held": 2, "answered": "noon",
               "waits": [{"id": "1.3", "for": ["1.2"], "red": None}]}
        grid = grid_of_status({"sites": 2, "token": 0, "site": [one, {"site": 1, "state": "away"}]})
        self.assertEqual(grid, Grid((4, 4), (GridRow(0, (4, 1), (Waits("1.3", ("1.2",)),), 2, True, "noon"),)))
