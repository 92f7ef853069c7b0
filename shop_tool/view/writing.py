"""The file of a view: made, brought up to where its site is, and made again where the site's files aren't those that it was made from."""

import argparse
import fcntl
import json
import os
import sqlite3
import time
from typing import NamedTuple

from .. import settings
from ..carrier.records import Message
from ..carrier.release import Id, Release
from ..ends import Fault, Status
from ..times import utc_stamp
from .log import OtherFiles, Place, SiteLog
from .tables import TABLES, Tables

LOOK_SECONDS = 0.02         # how often it looks whether something has come
APPLICATION, VERSION = 0x72756269, 1        # what a file says of itself, and of its form
# `stands` has one row: the site, the count of messages that the tables have, in all and of each site, how many bytes of answers had yet to be
# read then, and up to where the site's files were read.
OWN = """\
CREATE TABLE stands (site INTEGER NOT NULL, messages INTEGER NOT NULL, counts TEXT NOT NULL, reds INTEGER NOT NULL, behind INTEGER NOT NULL,
  folder TEXT NOT NULL, tail TEXT NOT NULL, kept_bytes INTEGER NOT NULL, out_bytes INTEGER NOT NULL);
CREATE TABLE waiting (origin INTEGER NOT NULL, number INTEGER NOT NULL, red INTEGER NOT NULL, deps TEXT NOT NULL, shadow BLOB NOT NULL,
  PRIMARY KEY (origin, number));
"""


class Stands(NamedTuple):
    """The row of `stands`."""

    site: int
    messages: int
    counts: str
    reds: int
    behind: int
    place: Place


class Busy(Fault):
    """Another process writes the view."""


class View:
    """The file of a view of one site, which this process alone writes."""

    def __init__(self, path: str, folder: str, site: int, sites: int) -> None:
        self.path, self.folder, self.site, self.sites = path, f"{folder}/{site}", site, sites
        self._locked = os.open(path, os.O_RDWR | os.O_CREAT | os.O_CLOEXEC, 0o600)      # closed, it would take SQLite's own locks along
        try:
            fcntl.flock(self._locked, fcntl.LOCK_EX | fcntl.LOCK_NB)
        except BlockingIOError:
            raise Busy(Status.AWAY, f"{path}: another process writes this view") from None
        try:
            self._db = sqlite3.connect(path, isolation_level=None)
            self._check()
            self._db.execute("PRAGMA journal_mode = WAL")
            self._db.execute("PRAGMA synchronous = NORMAL")     # a power failure may take the last messages, which are read again
        except sqlite3.Error as fault:
            raise fault_of(path, fault) from fault
        self._log: SiteLog | None = None
        self._is_caught_up = False      # what comes from then on is seen when it comes

    def _check(self) -> None:
        """Refuses a file that is none of a view; what another version made is made again."""
        application, version, tables = (self._db.execute(of).fetchone()[0] for of in (
            "PRAGMA application_id", "PRAGMA user_version", "SELECT count(*) FROM sqlite_master"))
        if application != APPLICATION and tables:
            raise Fault(Status.MISUSE, f"{self.path} is a database of something else; name a file that isn't there")
        site = self._db.execute("SELECT site FROM stands").fetchone() if version == VERSION else None
        if site and site[0] != self.site:
            raise Fault(Status.MISUSE, f"{self.path} is a view of site {site[0]}; remove it, or name another file")
        if not site:
            self._begin_anew()

    def _begin_anew(self) -> None:
        """Makes all tables anew and empty, in one transaction."""
        with Transaction(self._db):
            made = self._db.execute("SELECT name FROM sqlite_master WHERE type = 'table' AND name NOT LIKE 'sqlite%' AND name NOT LIKE 'names_%'")
            for name, in made.fetchall():
                self._db.execute(f"DROP TABLE {name}")
            for statement in (TABLES + OWN).split(";"):
                self._db.execute(statement)
            self._db.execute("INSERT INTO stands VALUES (?, 0, ?, 0, 0, '', '', 0, 0)", (self.site, json.dumps([0] * self.sites)))
            self._db.execute(f"PRAGMA application_id = {APPLICATION}")
            self._db.execute(f"PRAGMA user_version = {VERSION}")

    def stands(self) -> Stands:
        site, messages, counts, reds, behind, *place = self._db.execute("SELECT * FROM stands").fetchone()
        return Stands(site, messages, counts, reds, behind, Place(*place))

    def catch_up(self) -> bool:
        """Takes in some of what has come, as one transaction; False if there is nothing. Where the site's files are other ones it begins anew."""
        try:
            if self._log is None:
                self._log = self._opened()
            if self._log.behind() and self._take_in(self._log):
                return True
            self._is_caught_up = True
        except OtherFiles:
            self._close_log()
            self._begin_anew()
            return True
        except FileNotFoundError:
            self._close_log()       # the site was never started, or its folder is being put in its place
        return False

    def _opened(self) -> SiteLog:
        stands, release = self.stands(), Release[Message](self.sites)
        release.counts, release.reds = json.loads(stands.counts), stands.reds
        for origin, number, red, deps, shadow in self._db.execute("SELECT * FROM waiting ORDER BY rowid"):
            release.arrive(Message(origin, number, red, tuple(json.loads(deps)), shadow))
        self._tables, self._is_caught_up = Tables(self._db, stands.messages), False
        return SiteLog(self.folder, stands.place, release)

    def _take_in(self, log: SiteLog) -> bool:
        before = set(log.release.waiting)
        if (released := log.read()) is None:
            return False
        seen = utc_stamp() if self._is_caught_up else None
        with Transaction(self._db):
            for message in released:
                self._tables.add(message, seen)
            self._put_waiting(before, log.release.waiting)
            self._db.execute("UPDATE stands SET messages = ?, counts = ?, reds = ?, behind = ?, folder = ?, tail = ?, kept_bytes = ?, out_bytes = ?",
                             (self._tables.entry, json.dumps(log.release.counts), log.release.reds, log.behind(), *log.place()))
        return True

    def _put_waiting(self, before: set[Id], now: dict[Id, Message]) -> None:
        self._db.executemany("DELETE FROM waiting WHERE origin = ? AND number = ?", before - now.keys())
        new = [message for name, message in now.items() if name not in before]      # in the order of their arrival
        self._db.executemany("INSERT INTO waiting VALUES (?, ?, ?, ?, ?)",
                             [(one.origin, one.number, one.red, json.dumps(one.deps), one.shadow) for one in new])

    def close(self) -> None:
        self._close_log()
        self._db.close()
        os.close(self._locked)

    def _close_log(self) -> None:
        if self._log:
            self._log.close()
            self._log = None


class Transaction:
    """Changes of a database that are made together or not at all."""

    def __init__(self, db: sqlite3.Connection) -> None:
        self._db = db

    def __enter__(self) -> None:
        self._db.execute("BEGIN IMMEDIATE")

    def __exit__(self, kind: type[BaseException] | None, fault: BaseException | None, trace: object) -> None:
        self._db.execute("ROLLBACK" if kind else "COMMIT")


def fault_of(path: str, fault: sqlite3.Error) -> Fault:
    if getattr(fault, "sqlite_errorcode", None) == sqlite3.SQLITE_NOTADB:
        return Fault(Status.MISUSE, f"{path} is no database; name a file that isn't there")
    return Fault(Status.AWAY, f"{path}: {fault} (a view that is removed is made again)")


def site_here(now: settings.Settings, site: int | None = None) -> int:
    """The site of which a view is made: this one, or the first of those that run here."""
    if not now.here or site not in (None, *now.here):
        raise Fault(Status.MISUSE, f"a view is of a site that runs here: --site {' or '.join(map(str, now.here)) or '(none does)'}")
    return now.here[0] if site is None else site


def follow(args: argparse.Namespace) -> int:
    """Brings a view up to where its site is, and keeps it there."""
    now = settings.existing(args.folder)
    site = site_here(now, args.site)
    parent = os.getppid()
    view = View(args.file, os.path.realpath(args.folder), site, now.sites)
    try:
        while view.catch_up():
            pass
        print(f"{args.file} has {view.stands().messages} messages of site {site}", flush=True)
        while not args.once and not (args.with_parent and os.getppid() != parent):
            if not view.catch_up():
                time.sleep(LOOK_SECONDS)
    except sqlite3.Error as fault:
        raise fault_of(args.file, fault) from fault
    return Status.WELL
