"""What commands need that change the folder of a site."""

import argparse

from .ends import Fault, Status
from .folders import put_in_place
from .lock import take_lock
from .settings import Settings, check_setups, existing


def stopped_shop(args: argparse.Namespace) -> Settings:
    """The settings of a shop that isn't running, nor is started before this process ends, for a command about one of its sites."""
    now = existing(args.folder)
    if args.site not in now.here:
        raise Fault(Status.MISUSE, f"site {args.site} isn't one of {args.folder}: it has --here {','.join(map(str, now.here))}")
    take_lock(args.folder, "stop it first")
    for site in range(now.sites):
        put_in_place(args.folder, site)     # a rebuild was cut
    check_setups(args.folder, now)
    return now
