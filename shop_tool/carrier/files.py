"""Whether the files of a running site are those that its keeper writes still."""

from collections.abc import Callable
from typing import NamedTuple


class File(NamedTuple):
    """Which file it is, and how long it was when it was looked at."""

    device: int
    inode: int
    size: int


# Looks at a site's folder, by the name "", or at a file in it.
Look = Callable[[str], File | None]


def is_there(was: File | None, now: File | None, size: int) -> bool:
    """Whether a file is there still, with this many bytes; one that wasn't known can't be missed."""
    return was is None or now is not None and size <= now.size and was.inode == now.inode and was.device == now.device


def why_lost(site: int, has_folder: bool, has_kept: bool, has_out: bool) -> str | None:
    """Why a site can't go on, and what to do, or None. What it answers then would be in files that nobody finds again."""
    if has_folder and has_kept and has_out:
        return None
    if has_folder and has_kept:
        return "its file `out` was removed or changed (stop the shop, remove what is left of it and start it: `kept` is enough)"
    what = "file `kept` was removed or changed" if has_folder else "folder is gone"
    return f"its {what} (stop the shop, put it back or say shop rebuild {site}, and start it)"


class Files:
    """The files `kept` and `out` of a site, as its supervisor read them last. Those of a new site aren't known yet."""

    def __init__(self, site: int, look: Look) -> None:
        self.site, self._look = site, look
        self.kept = look("kept")
        self.out: File | None = None
        self._beyond = 0, 0         # how many bytes they had beyond those that the ledger counts

    def read(self, kept_bytes: int, out_bytes: int) -> None:
        """They have been read to their ends, which are so many bytes by the ledger."""
        kept, out = self._look("kept"), self._look("out")
        if kept and out and is_there(self.kept, kept, 0):
            self.kept, self.out = kept, out
            self._beyond = kept.size - kept_bytes, out.size - out_bytes

    def why_lost(self, kept_bytes: int, out_bytes: int, is_up: bool) -> str | None:
        """Why the site can't go on whose ledger counts so many bytes. A keeper that isn't up yet may cut off a torn end."""
        kept_beyond, out_beyond = self._beyond
        has_kept = is_there(self.kept, self._look("kept"), kept_bytes + kept_beyond if is_up else 0)
        has_out = is_there(self.out, self._look("out"), out_bytes + out_beyond if is_up else 0)
        return why_lost(self.site, has_kept or self._look("") is not None, has_kept, has_out)
