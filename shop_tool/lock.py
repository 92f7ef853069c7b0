"""Who holds the folder of a shop: its supervisor, or a command about one of its sites. FOLDER/lock is locked, and has the process."""

import fcntl
import os
import time

from .ends import Fault, Status

SECONDS = 5.0       # how long one that may be about to end, or about to listen, is given


def take_lock(folder: str, advice: str = "it may be about to end") -> int:
    """Holds the shop's folder for this process. The supervisor before may be about to end, so it is given some seconds."""
    lock = os.open(f"{folder}/lock", os.O_WRONLY | os.O_CREAT, 0o600)
    until = time.monotonic() + SECONDS
    while True:
        try:
            fcntl.flock(lock, fcntl.LOCK_EX | fcntl.LOCK_NB)
            break
        except OSError:
            if time.monotonic() > until:
                raise Fault(Status.REFUSED, f"{folder} is running; {advice}") from None
            time.sleep(0.05)
    os.ftruncate(lock, 0)
    os.pwrite(lock, b"%d\n" % os.getpid(), 0)
    return lock


def holder_of(folder: str) -> str | None:
    """Who holds the shop's folder, if somebody does."""
    try:
        lock = os.open(f"{folder}/lock", os.O_RDONLY)
    except OSError:
        return None
    try:
        fcntl.flock(lock, fcntl.LOCK_SH | fcntl.LOCK_NB)
        return None
    except OSError:
        process = os.pread(lock, 20, 0).strip().decode("ascii", "replace")
        return f"process {process}" if process else "another process"
    finally:
        os.close(lock)
