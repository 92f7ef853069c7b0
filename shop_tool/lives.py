"""The files that have the lives of folders: FOLDER/SITE/life, and over files FOLDER/lives."""

import json
import os

from .carrier.lives import placed
from .folders import put

LIVES = "lives"


def lives_of(folder: str) -> list[str]:
    """The lives that a site's folder has had. What is no text is none that anybody saw."""
    try:
        with open(f"{folder}/life", errors="backslashreplace") as file:
            return file.read().split()
    except (FileNotFoundError, NotADirectoryError):
        return []


def begin_life(folder: str) -> list[str]:
    """Begins the next life of a site's folder, on the disk when this returns; all of them."""
    os.makedirs(folder, mode=0o700, exist_ok=True)
    lives = [*lives_of(folder), os.urandom(8).hex()]
    put(f"{folder}/life", "".join(f"{life}\n" for life in lives))
    return lives


def take_place(folder: str, count: int) -> None:
    """Has a site's folder take the place of every one that was started so many times, or fewer."""
    put(f"{folder}/life", "".join(f"{life}\n" for life in placed(lives_of(folder), count, os.urandom(8).hex())))


class Seen:
    """The life of each site here that was compared last. Over files that is the one that the others saw, and a site that has none is compared
    with all that they have; over a server one that has none is new."""

    def __init__(self, folder: str) -> None:
        self._path = f"{folder}/{LIVES}"
        try:
            with open(self._path) as file:
                lives = json.load(file)
        except (FileNotFoundError, ValueError):
            lives = {}
        is_one = isinstance(lives, dict) and all(isinstance(life, str) for life in lives.values())
        self._lives: dict[str, str] = lives if is_one else {}

    def __getitem__(self, site: int) -> str | None:
        return self._lives.get(str(site))

    def __setitem__(self, site: int, life: str | None) -> None:
        self._lives.pop(str(site), None)
        if life:
            self._lives[str(site)] = life
        put(self._path, json.dumps(self._lives) + "\n")
