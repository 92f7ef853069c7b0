"""Whatever stands in its files, a picture is drawn or a fault is told in one line."""

import os
import random
import tempfile
import unittest

from picture_tool.cli import drawn
from picture_tool.messages import Fault
from picture_tool.tests.shops import MadeShop, Network

ODD = ("", "x", "-1", "99", "0.0", '"', 'a"b', "1:2", "1000000", "²", "msg", "token", "\0")
VIEWS: list[list[str]] = [[], ["--grid"], ["--html"], ["--dot"], ["--last", "5"], ["--grid", "--text"]]


def changed(random_: random.Random, lines: list[str]) -> str:
    """Lines with one to three of them left out, doubled, cut short, exchanged, or with another field."""
    lines = [*lines]
    for _ in range(random_.randrange(1, 4)):
        at, other = random_.randrange(len(lines)), random_.randrange(len(lines))
        fields = lines[at].split(",")
        match random_.randrange(5):
            case 0:
                del lines[at]
            case 1:
                lines.insert(at, lines[other])
            case 2:
                lines[at] = ",".join(fields[: random_.randrange(len(fields) + 1)])
            case 3:
                fields[random_.randrange(len(fields))] = random_.choice(ODD)
                lines[at] = ",".join(fields)
            case 4:
                lines[at], lines[other] = lines[other], lines[at]
    return "".join(line + "\n" for line in lines)


class Odd(unittest.TestCase):
    def setUp(self) -> None:
        folder = tempfile.TemporaryDirectory()
        self.addCleanup(folder.cleanup)
        self.folder = folder.name
        self.random = random.Random(7)
        self.made = MadeShop(3, 40, 1, Network(late=20, share=10))
        self.drawn = self.told = 0

    def put(self, name: str, lines: list[str], is_changed: bool = True) -> str:
        with open(f"{self.folder}/{name}", "w", encoding="utf-8") as file:
            file.write(changed(self.random, lines) if is_changed else "".join(line + "\n" for line in lines))
        return os.path.join(self.folder, name)

    def draw(self, *words: str) -> None:
        try:
            drawn([*self.random.choice(VIEWS), *words])
            self.drawn += 1
        except Fault as fault:
            self.assertNotIn("\n", str(fault))
            self.told += 1

    def test_odd_files(self) -> None:
        logs = self.made.logs().splitlines()
        for turn in range(60):
            records = self.put("records", self.made.world_records, turn % 2 == 0)
            self.draw(records, self.put("answers", self.made.world_answers, turn % 3 > 0), "--as", "world-records")
            verdict = f"audit,{self.random.choice(['Clash', 'Order', 'RedGap', 'Nick', 'Rows'])},{self.random.randrange(1, 4)},{self.random.randrange(40)}"
            self.draw(self.put("logs", logs), "--verdict", verdict, "--as", "audit")
            site = self.made.sites[turn % 3]
            self.put("kept", site.kept, turn % 2 == 0)
            self.put("out", site.out, turn % 3 > 0)
            self.draw(self.folder)
        self.assertGreater(min(self.drawn, self.told), 20)
