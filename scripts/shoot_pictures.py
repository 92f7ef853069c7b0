#!/usr/bin/env python3
"""Draws eight runs and takes screenshots of them for docs/PICTURES.md: scripts/shoot_pictures.py [FOLDER]

Needs a Chromium, and makes the files smaller with pngquant where that is installed. FOLDER is docs/pictures by default. The runs
are conversations, and shops that picture_tool/tests makes up, of which `tests/test_pictures.py` shows that the program answers so."""

import os
import pathlib
import shutil
import subprocess
import sys
import tempfile
from collections.abc import Callable

from top import TOP

from picture_tool.cli import drawn
from picture_tool.tests.browser import Browser, found
from picture_tool.tests.shops import MadeShop, Network

READY = "document.documentElement?.dataset.ready === 'yes'"
NOON = 1_795_780_800        # when the sites of these shops wrote their last answers
CALM = Network(late=8, share=2)


def conversation(name: str, *options: str) -> str:
    return drawn([*options, str(TOP / f"conversations/{name}.txt")])


def shop(made: MadeShop, *options: str) -> str:
    """What is drawn of a shop's folders."""
    with tempfile.TemporaryDirectory() as folder:
        made.write(folder)
        for site in made.sites:
            os.utime(f"{folder}/{site.number}/out", (NOON, NOON - (4 * 3600 if site.number == made.network.lagging else 0)))
        return drawn([*options, folder])


PICTURES: dict[str, Callable[[], str]] = {
    "two_sites": lambda: conversation("two_sites_and_the_token"),
    "three_with_loss": lambda: conversation("a_lost_message_is_waited_for_at_three_sites"),
    "two_versions": lambda: conversation("an_audit_finds_two_versions_of_a_message"),
    "four_sites": lambda: shop(MadeShop(4, 1000, 3, CALM), "--last", "16"),
    "sixteen_sites": lambda: shop(MadeShop(16, 60, 2, CALM), "--last", "6"),
    "lagging_site": lambda: shop(MadeShop(4, 300, 9, Network(lagging=2, from_step=318)), "--grid"),
}


def shoot(name: str, text: str, folder: pathlib.Path, browser: Browser) -> None:
    """A picture, as large as it is."""
    with tempfile.NamedTemporaryFile("w", suffix=".svg", encoding="utf-8") as file:
        file.write(text)
        file.flush()
        browser.open(file.name)
        width, height = browser.value("[document.documentElement.width.baseVal.value, document.documentElement.height.baseVal.value]")
    browser.width, browser.height = round(width), round(height)
    browser.size(browser.width, browser.height)
    browser.shot(str(folder / f"{name}.png"))


def shoot_page(folder: pathlib.Path) -> None:
    """The page of a shop, at its start and in the middle of its run."""
    with tempfile.NamedTemporaryFile("w", suffix=".html", encoding="utf-8") as file, Browser(1180, 700) as browser:
        file.write(shop(MadeShop(4, 1000, 3, CALM), "--html"))
        file.flush()
        browser.open(file.name, READY)
        browser.key("Home")
        browser.value("new Promise(done => requestAnimationFrame(() => requestAnimationFrame(done)))")
        browser.shot(str(folder / "page_at_its_start.png"))
        middle = "[...page.run.kind.keys()].find(at => at > page.run.count / 2 && page.run.is(at, 'held'))"
        browser.value(f"page.go({middle}), page.picture.draw()")
        x, y = browser.value("""(() => { const {run, picture} = page, box = el("canvas").getBoundingClientRect(), at = run.from[picture.at];
            return [box.left + picture.x(run.column[at]), box.top + picture.y(run.lane[at])]; })()""")
        browser.mouse("mouseMoved", x, y)
        browser.value("new Promise(done => requestAnimationFrame(() => requestAnimationFrame(done)))")
        browser.shot(str(folder / "page_in_the_middle.png"))


def main() -> int:
    if not found():
        print("shoot_pictures.py: there is no Chromium here (apt-get install chromium)", file=sys.stderr)
        return 1
    folder = pathlib.Path(sys.argv[1]) if len(sys.argv) > 1 else TOP / "docs/pictures"
    folder.mkdir(parents=True, exist_ok=True)
    with Browser() as browser:
        for name, text in PICTURES.items():
            shoot(name, text(), folder, browser)
    shoot_page(folder)
    if quant := shutil.which("pngquant"):
        for path in folder.glob("*.png"):
            subprocess.run([quant, "--force", "--ext", ".png", "--strip", "48", str(path)], check=True)
    for path in sorted(folder.glob("*.png")):
        print(f"{path}: {path.stat().st_size:,} bytes")
    return 0


if __name__ == "__main__":
    sys.exit(main())
