"""Which folder a folder is, and files and folders in it that a crash leaves whole."""

import os
import shutil
import sys


def identity(folder: str) -> str:
    """Names a folder: a copy of it is another one, and so is one of the same name on another machine."""
    try:
        with open("/etc/machine-id") as file:
            machine = file.read().strip()[:12]
    except OSError:
        machine = ""
    return f"{machine or 'nowhere'}:{os.stat(folder).st_ino}"


def boot() -> str:
    """Names this start of the machine: a clone of its disk runs in another one."""
    with open("/proc/sys/kernel/random/boot_id") as file:
        return file.read().strip()


def put(path: str, text: str) -> None:
    """Puts a file of its owner's alone in the place of another one; it is on the disk when this returns, and a crash leaves the old or the new one."""
    with open(f"{path}.new", "w", opener=lambda new, flags: os.open(new, flags, 0o600)) as file:
        file.write(text)
        file.flush()
        os.fsync(file.fileno())
    os.rename(f"{path}.new", path)
    synced(os.path.dirname(path))


def synced(path: str) -> None:
    """Has a file or folder on the disk."""
    file = os.open(path, os.O_RDONLY)
    os.fsync(file)
    os.close(file)


def swapped(folder: str, site: int) -> str | None:
    """Puts the folder SITE.new in the place of SITE, as `put_in_place` does. From the first rename on it is SITE.made, so whoever holds the
    shop's folder next knows that it is whole, and brings this to its end."""
    os.rename(f"{folder}/{site}.new", f"{folder}/{site}.made")
    synced(folder)
    return put_in_place(folder, site)


def put_in_place(folder: str, site: int) -> str | None:
    """Puts SITE.made, if there is one, in the place of the folder SITE, which is kept under another name, if it has records."""
    made, old, lost = f"{folder}/{site}.made", f"{folder}/{site}", None
    if not os.path.isdir(made):
        return None
    if os.path.isdir(old) and not os.path.islink(old) and not has_records(old):
        shutil.rmtree(old)
    elif os.path.lexists(old):
        lost = next(name for at in range(1, sys.maxsize) if not os.path.lexists(name := f"{old}.lost.{at}"))
        os.rename(old, lost)
    os.rename(made, old)
    synced(folder)
    return lost


def has_records(folder: str) -> bool:
    """Whether a site's folder has records."""
    kept = f"{folder}/kept"
    return os.path.exists(kept) and os.path.getsize(kept) > 0
