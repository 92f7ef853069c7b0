"""How a command ends: a status for `if`, and a line on standard error."""

import enum


class Status(enum.IntEnum):
    WELL = 0        # accepted, or all is well
    REFUSED = 1     # refused, or something isn't well
    MISUSE = 2      # the command line or a record is wrong; nothing was done
    AWAY = 3        # not running, or out of time


class Fault(Exception):
    """What ends a command or a request early."""

    def __init__(self, status: Status, text: str) -> None:
        super().__init__(text)
        self.status = status
        self.text = text


class Ended(Fault):
    """That the supervisor ended before it answered."""
