"""The lives of a site's folder. Each start of a supervisor begins one, with a random number; FOLDER/SITE/life has a line for each. The
others have the last life that they saw: over a server in a key beside the site's stream, over files in FOLDER/lives. A copy of a folder
shares its lives up to the copy and not beyond, so whichever of them the others didn't see last is known when it starts. A folder that is
made again, or adopted, takes the place of all that was seen till then, also where the server loses its end and says so no more."""

import enum
import re
from collections.abc import Sequence

PLACE = "-"             # begins the line of a folder that takes the place of whatever was seen as its start of that number


class Standing(enum.Enum):
    """How the folder that begins a life stands to the life that the others saw last."""

    NEXT = enum.auto()      # it was this one or the one before, so what they know of it begins what the folder had
    AHEAD = enum.auto()     # it was an earlier one, or there was none: what they know may differ from what the folder has
    OTHER = enum.auto()     # it was none of this folder's: the folder is a copy, or was put back to an earlier state


def life_text(lives: Sequence[str]) -> str:
    """The last of these lives as others see it: how many there were, and its number."""
    return f"{len(lives)} {lives[-1]}" if lives else ""


def is_life(seen: str) -> bool:
    """Whether that is a life as others see it. What isn't says nothing of another folder."""
    return re.fullmatch(r"[1-9][0-9]{0,8} -?[0-9a-z]{1,40}", seen) is not None


def count_of(seen: str | None) -> int:
    """How many lives there were when others saw it."""
    count = (seen or "").split(" ")[0]
    return int(count) if count.isdecimal() else 0


def takes_place(lives: Sequence[str], seen: str | None) -> bool:
    """Whether the folder was made again, or adopted, since that life was seen, or where none was. Counts decide, since a server that lost its
    end may say any earlier life, which this folder needn't know. A folder that was made later, in the place of this one, has a greater count,
    unless all that was seen was lost before that. Then this one may have the site again while the later one isn't running: what it has by
    then is compared, each packet that stands in the stream or that a site which runs has, and from then on nothing is appended that the later
    one sends. So no number is given twice but one that nobody in reach has, as where nothing at all was seen."""
    place = max((at for at, life in enumerate(lives, 1) if life.startswith(PLACE)), default=0)
    return 0 < place and (not seen or 0 < count_of(seen) <= place)


def standing(lives: Sequence[str], seen: str | None) -> Standing:
    if not seen or takes_place(lives, seen):
        return Standing.AHEAD
    if seen in (life_text(lives), life_text(lives[:-1])):
        return Standing.NEXT
    return Standing.AHEAD if any(seen == life_text(lives[:count]) for count in range(1, len(lives))) else Standing.OTHER


def why_other(lives: Sequence[str], seen: str | None, where: str, site: int) -> str:
    """What is said of a folder whose standing is OTHER."""
    return (f"its folder is a copy, or was put back to an earlier state: this is its start {len(lives)}, and {where} saw start "
            f"{count_of(seen)} of another one (shop rebuild {site})")


def placed(lives: Sequence[str], count: int, number: str) -> list[str]:
    """The lives of a folder that takes the place, by a random number, of every one that was started so many times, or fewer."""
    return [*lives, *[PLACE + number] * max(1, count - len(lives))]
