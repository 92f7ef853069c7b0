"""How much of `kept` a site has answered, where a crash of the supervisor leaves it, and where no copy of the folder takes it along and no
start of the machine leaves it: in memory, /dev/shm. So a start knows of a folder whose last life this is, and which has as much, that
nothing that was told is missing."""

import mmap
import os
from collections.abc import Sequence

MEMORY = "/dev/shm"
LIFE_BYTES, SIZE_BYTES = 16, 8
BYTES = LIFE_BYTES + SIZE_BYTES     # then comes which folder of the site it is, and where


def folder() -> str | None:
    """A folder in memory that is this user's alone, or None."""
    path = f"{MEMORY}/rubis-shop.{os.getuid()}"
    try:
        os.makedirs(path, mode=0o700, exist_ok=True)
        found = os.lstat(path)
    except OSError:
        return None
    return path if found.st_uid == os.getuid() and found.st_mode & 0o170077 == 0o040000 else None


def name_of(of: str) -> bytes:
    """Names a folder of a site: a copy of it is another one."""
    return b"%d %b" % (os.stat(of).st_ino, os.fsencode(of))


def witnessed(of: str, lives: Sequence[str]) -> int | None:
    """How many bytes of `kept` were answered in the last of these lives, if it was this folder's, and ran since the machine was started."""
    if not lives or not (path := folder()):
        return None
    try:
        with open(f"{path}/{lives[0]}", "rb") as file:
            said = file.read()
        if said[BYTES:] != name_of(of) or said[:LIFE_BYTES] != lives[-1].encode():
            return None
    except (OSError, ValueError):
        return None
    return int.from_bytes(said[LIFE_BYTES:BYTES], "little")


def forget(of: str, lives: Sequence[str]) -> None:
    """Removes what is said of a folder."""
    if witnessed(of, lives) is not None:
        os.unlink(f"{folder()}/{lives[0]}")


def sweep(path: str) -> None:
    """Removes what is said of folders that are gone."""
    for name in os.listdir(path):
        if name.endswith(".new"):
            continue    # it is being written
        try:
            with open(f"{path}/{name}", "rb") as file:
                of = file.read()[BYTES:].partition(b" ")[2]
            if not os.path.exists(of):
                os.unlink(f"{path}/{name}")
        except OSError:
            pass        # another supervisor sweeps too


def has_all(kept: str, answered: int | None) -> bool:
    """Whether a file `kept` has all that was answered."""
    return answered is not None and os.path.exists(kept) and os.path.getsize(kept) >= answered


class Witness:
    """What is told in this life."""

    def __init__(self, of: str, lives: Sequence[str], answered: int) -> None:
        self._bytes: mmap.mmap | None = None
        self._answered = answered
        if path := folder():
            try:
                sweep(path)
                with open(f"{path}/{lives[0]}.new", "w+b") as file:
                    file.write(lives[-1].encode() + answered.to_bytes(SIZE_BYTES, "little") + name_of(of))
                    file.flush()
                    self._bytes = mmap.mmap(file.fileno(), BYTES)
                os.rename(f"{path}/{lives[0]}.new", f"{path}/{lives[0]}")
            except (OSError, ValueError):
                self._bytes = None      # then the next start has to be compared

    def tell(self, answered: int) -> None:
        """So many bytes of `kept` are answered; a start reads on from the first of them, and that is no news."""
        if self._bytes and answered > self._answered:
            self._answered = answered
            self._bytes[LIFE_BYTES:BYTES] = answered.to_bytes(SIZE_BYTES, "little")
