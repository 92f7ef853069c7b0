"""Times as people and programs read them: ISO 8601 with the offset of this machine."""

import datetime
import os


def stamp() -> str:
    """Now, to the millisecond."""
    return datetime.datetime.now().astimezone().isoformat(timespec="milliseconds")


def utc_stamp() -> str:
    """Now, to the millisecond, as times are written that are compared as texts."""
    return datetime.datetime.now(datetime.timezone.utc).isoformat(timespec="milliseconds").replace("+00:00", "Z")


def changed(path: str) -> str | None:
    """When a file was written last, to the second; None if there is none."""
    try:
        when = os.stat(path).st_mtime
    except OSError:
        return None
    return datetime.datetime.fromtimestamp(when).astimezone().isoformat(timespec="seconds")
