"""What a shop is: how many sites it has, which of them run here, and what carries their packets. FOLDER/shop.json has it."""

import dataclasses
import glob
import json
import os
import re
from typing import Any

from .ends import Fault, Status
from .folders import put
from .program import refuses as program_refuses
from .carrier.records import MESSAGES_OF_A_SITE, SITES_OF_A_SHOP

FILES = "files"


@dataclasses.dataclass(frozen=True)
class Settings:
    sites: int = 1
    here: tuple[int, ...] = (0,)
    over: str = FILES
    sync: bool = False
    keep: int = MESSAGES_OF_A_SITE
    batch: int | None = None
    shards: int | None = None
    workers: int | None = None
    standby: tuple[int, ...] = ()       # the sites elsewhere whose place it takes once they have been gone
    after: float = 30.0                 # for so many seconds

    @property
    def shown_over(self) -> str:
        """What carries the packets, without a password."""
        return re.sub("//[^/]*@", "//", self.over)

    @property
    def server(self) -> tuple[str, str]:
        """The URL of the Redis server, and the name under which the shop is there."""
        url, name = self.over.rsplit("/", 1)
        return url, name

    def site_options(self) -> list[str]:
        """The options that `rubis site` takes beside --site, --sites and --keep."""
        named = (("batch", self.batch), ("shards", self.shards), ("workers", self.workers))
        return [word for name, value in named if value is not None for word in (f"--{name}", str(value))]


# Of which types the values are.
KINDS: dict[str, tuple[type, ...]] = {
    "sites": (int,), "here": (tuple,), "over": (str,), "sync": (bool,), "keep": (int,), "standby": (tuple,), "after": (int, float),
    **dict.fromkeys(("batch", "shards", "workers"), (int, type(None)))}


def path_of(folder: str) -> str:
    return f"{folder}/shop.json"


def from_text(text: str) -> Settings:
    """The settings that a text has; a ValueError or TypeError if it has others, or values that are none of theirs."""
    has = json.loads(text)
    if not isinstance(has, dict):
        raise TypeError("it is no object")
    if strange := has.keys() - {field.name for field in dataclasses.fields(Settings)}:
        raise TypeError(f"there is no setting {min(strange)}")
    settings = Settings(**{name: tuple(value) if isinstance(value, list) else value for name, value in has.items()})
    for name, kinds in KINDS.items():
        value = getattr(settings, name)
        if type(value) not in kinds or isinstance(value, tuple) and not all(type(number) is int for number in value):
            raise TypeError(f"`{name}` can't be {json.dumps(has[name])}")
    return settings


def to_text(settings: Settings) -> str:
    has = dataclasses.asdict(settings)
    if not settings.standby:
        del has["standby"], has["after"]        # as before there were standbys
    return json.dumps(has, indent=1) + "\n"


def moved_here(settings: Settings, site: int) -> Settings:
    """The settings once a folder here has taken the place of a site elsewhere."""
    standby = tuple(number for number in settings.standby if number != site)
    return dataclasses.replace(settings, here=tuple(sorted({*settings.here, site})), standby=standby)


def read(folder: str) -> Settings | None:
    """The settings of the shop in this folder, or None where there is no shop."""
    try:
        with open(path_of(folder)) as file:
            return from_text(file.read())
    except (FileNotFoundError, NotADirectoryError):
        return None
    except json.JSONDecodeError as fault:
        raise Fault(Status.MISUSE, f"{path_of(folder)} is no JSON, from line {fault.lineno}, column {fault.colno} on; put it back as it was") from fault
    except UnicodeDecodeError as fault:
        raise Fault(Status.MISUSE, f"{path_of(folder)} is no text, from byte {fault.start} on; put it back as it was") from fault
    except (ValueError, TypeError, KeyError, AttributeError) as fault:
        raise Fault(Status.MISUSE, f"{path_of(folder)}: {fault}") from fault


def existing(folder: str) -> Settings:
    if settings := read(folder):
        check(settings)
        return settings
    raise Fault(Status.AWAY, lost(folder) or f"{folder}: there is no shop (shop start)")


def lost(folder: str) -> str | None:
    """What is said of a folder that has sites, and lacks its settings; None of any other, and of one site, which a start takes as it is."""
    if os.path.exists(path_of(folder)):
        return None
    for setup in sorted(glob.glob(f"{glob.escape(folder)}/[0-9]*/setup")):
        with open(setup, errors="replace") as file:
            word, _, sites, *_ = (file.read().strip() + ",,").split(",")
        if word == "setup" and sites.isdecimal() and sites != "1":
            return f"{path_of(folder)} is missing, and {folder} has sites: put it back, or say what it had, as in: shop start {folder} --sites {sites}"
    return None


def changed(folder: str, said: dict[str, Any]) -> Settings:
    """The settings with what a start says. How many sites there are stays as it was; --keep never becomes smaller."""
    if os.path.isfile(folder):
        raise Fault(Status.MISUSE, f"{folder} is a file; name the folder of the shop, as in: shop start auction")
    has = read(folder)
    if has and said.get("sites", has.sites) != has.sites:
        raise Fault(Status.MISUSE, f"{folder} has --sites {has.sites}, and that stays")
    if has and said.get("keep", has.keep) < has.keep:
        raise Fault(Status.MISUSE, f"{folder} has --keep {has.keep}, and that can only become greater")
    if not has and "sites" not in said and (why := lost(folder)):
        raise Fault(Status.MISUSE, why)
    sites = said.get("sites", 1)
    here = () if said.get("standby") else tuple(range(sites))
    settings = dataclasses.replace(has or Settings(sites=sites, here=here), **said)
    check(settings)
    return settings


def check(settings: Settings) -> None:
    if not 1 <= settings.sites <= SITES_OF_A_SHOP:
        raise Fault(Status.MISUSE, f"--sites is 1 to {SITES_OF_A_SHOP}")
    if not 1 <= settings.keep <= MESSAGES_OF_A_SITE:
        raise Fault(Status.MISUSE, f"--keep is 1 to {MESSAGES_OF_A_SITE}")
    if not settings.here + settings.standby or len(set(settings.here)) < len(settings.here) or not set(settings.here) <= set(range(settings.sites)):
        raise Fault(Status.MISUSE, "--here names some of the shop's sites, each once, as --here 0,1; they are below --sites")
    if not set(settings.standby) <= set(range(settings.sites)) - set(settings.here):
        raise Fault(Status.MISUSE, "--standby names sites of the shop that run elsewhere, as --standby 2")
    if settings.over == FILES:
        if len(settings.here) < settings.sites:
            raise Fault(Status.MISUSE, "sites on other machines need --over redis://HOST:PORT/NAME")
    elif not (found := re.fullmatch(r"rediss?://(?:[^/?#]*@)?(?:\[[^]/?#]+\]|[^]/?#:@[]+)(?::([0-9]{1,5}))?/[\w.-]+", settings.over)) \
            or int(found[1] or 1) not in range(1, 65536):
        raise Fault(Status.MISUSE, "--over is files or redis://HOST:PORT/NAME")


def why_another_site(setup: str, site: int, settings: Settings) -> str | None:
    """Why a folder that is set up so, in its file `setup`, can't be this site of the shop."""
    word, number, sites, keep, *_ = (setup.strip() + ",,,").split(",")
    if word != "setup" or not keep.isdecimal():
        return None         # the program itself says what is wrong with it
    fits = (number, sites) == (str(site), str(settings.sites)) and int(keep) <= settings.keep
    return None if fits else f"is site {number} of {sites}, and keeps {keep}"


def check_new(folder: str, settings: Settings, program: str) -> None:
    """Refuses settings that aren't those of before, before they are written, where the program refuses them or a site has others."""
    if settings == read(folder):
        return
    if why := program_refuses(program, settings.site_options()):
        raise Fault(Status.MISUSE, why)
    check_setups(folder, settings)


def check_setups(folder: str, settings: Settings) -> None:
    """Refuses settings where the folder of a site here is another site's, or of a shop with other numbers."""
    for site in settings.here:
        try:
            with open(f"{folder}/{site}/setup") as file:
                why = why_another_site(file.read(), site, settings)
        except (OSError, ValueError):
            continue
        if why:
            raise Fault(Status.MISUSE, f"{folder}/{site} {why}")


def put_back(folder: str, before: Settings | None) -> None:
    """Has the folder have the settings again that it had before a start that failed."""
    if before:
        write(folder, before)
    else:
        os.unlink(path_of(folder))


def write(folder: str, settings: Settings) -> None:
    """Writes the settings, if they are new."""
    if read(folder) != settings:
        put(path_of(folder), to_text(settings))     # its owner's alone: a URL may have a password
