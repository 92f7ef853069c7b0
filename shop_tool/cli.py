"""The command line of `shop`."""

import argparse
import difflib
import os
import re
import signal
import sys
from collections.abc import Callable
from typing import Any, NoReturn

from shop_ask.quick import Begun

from .ends import Fault, Status
from .carrier.records import COLUMNS, LISTINGS
from .render import shown

ABOUT = "Runs the sites of a rubis shop, carries their packets, and is how one asks and watches them."
NOTES = """\
The shop is the folder ./shop, or the one that -C or the variable SHOP names. The variable RUBIS names the program rubis.
Status: 0 accepted, or all is well; 1 refused, or something isn't well; 2 misuse; 3 not running, or out of time.
"""
EXAMPLES = """\
  shop start --sites 3                                     three sites on this machine
  shop ask 0 user,ann user,bob item,0.1,lamp,7,1,100,0     ask site 0
  shop ask 2 bid,0.3,0.2,500                               ask site 2; the token comes by itself
  shop show 1 item 0.3                                     one row, as site 1 has it
  shop status                                              how each site is
  shop audit                                               do all sites agree?
  shop stop
"""


class Words(argparse.ArgumentParser):
    """Says what is wrong with the command line in one line. Options are said whole: a shop is made by a few words, and some of them stay."""

    def __init__(self, **words: Any) -> None:
        super().__init__(allow_abbrev=False, formatter_class=argparse.RawDescriptionHelpFormatter, **words)

    def error(self, message: str) -> NoReturn:
        for said, meant in ((r"the following arguments are required: (.*)", r"\1 is missing"),
                            (r"argument (\S+): invalid choice: (.*) \(choose from (.*)\)", r"there is no \1 \2: it is one of \3")):
            message = re.sub(said, meant, message)
        raise Fault(Status.MISUSE, f"{message} ({self.prog} --help)")

    def check_options(self, words: list[str]) -> None:
        """Refuses an option that there isn't, before anything else is found wrong."""
        for word in words:
            name = word.partition("=")[0]
            if name == "--" or self._subparsers and not name.startswith("-"):
                return
            if name.startswith("--") and name not in self._option_string_actions:
                near = difflib.get_close_matches(name, self._option_string_actions, 1)
                self.error(f"there is no option {name[:40]}" + (f"; is {near[0]} meant?" if near else ""))

    def parse_known_args(self, args: Any = None, namespace: Any = None) -> Any:
        self.check_options(args)
        return super().parse_known_args(args, namespace)


def sites_of(text: str) -> tuple[int, ...]:
    parts = [part for part in text.split(",") if part]
    if not all(part.isdecimal() and len(part) < 9 for part in parts):
        raise argparse.ArgumentTypeError(f"{text!r} is no list of sites, as 0,2")
    return tuple(map(int, parts))


def count_of(text: str) -> int:
    """A whole number that isn't negative."""
    if not (text.isascii() and text.isdecimal() and len(text) <= 100):
        raise argparse.ArgumentTypeError(f"{text[:100]!r} is no number")
    return int(text)


def seconds_of(text: str) -> float:
    try:
        seconds = float(text)
    except ValueError:
        seconds = 0.0
    if not 0 < seconds < 1e6:
        raise argparse.ArgumentTypeError(f"{text!r} is no number of seconds above 0, as 2.5")
    return seconds


class CommandLine:
    def __init__(self) -> None:
        self.words = Words(prog="shop", description=ABOUT, epilog=f"{NOTES}\nexamples:\n{EXAMPLES}")
        folder = os.environ.get("SHOP", "shop")
        self.words.add_argument("-C", dest="folder", metavar="FOLDER", default=folder, help="the folder of the shop")
        self.words.add_argument("--version", action="store_true", help="print which version of rubis it runs")
        self.commands = self.words.add_subparsers(dest="command", metavar="COMMAND")
        self._life()
        self._asks()
        self._reading()
        self._serving()
        self._care()

    def command(self, name: str, does: str, about: str, examples: str = "") -> argparse.ArgumentParser:
        """A command that the function `does` of a module of the package runs; the module is loaded only then."""
        parser: argparse.ArgumentParser = self.commands.add_parser(
            name, help=about, description=about[0].upper() + about[1:] + ".", epilog=f"examples:\n{examples}" if examples else None)
        parser.set_defaults(does=does)
        return parser

    @staticmethod
    def site(parser: argparse.ArgumentParser, of: str = "the number of the site") -> None:
        parser.add_argument("site", metavar="SITE", type=count_of, help=of)

    @staticmethod
    def timeout(parser: argparse.ArgumentParser, seconds: float) -> None:
        parser.add_argument("--timeout", metavar="S", type=seconds_of, default=seconds, help=f"seconds until it gives up; {seconds:g} by default")

    @staticmethod
    def as_json(parser: argparse.ArgumentParser) -> None:
        parser.add_argument("--json", action="store_true", help="print JSON")

    def _life(self) -> None:
        examples = """\
  shop start auction --sites 3                    a shop in the folder auction, all on this machine
  shop start auction                              the same again: its settings are kept in auction/shop.json
  shop start auction --sites 3 --here 0,1 --over redis://10.0.0.5/auction
                                                  sites 0 and 1; another machine says --here 2
  shop start auction --standby 2 --after 60       and site 2, once it has been gone for a minute
"""
        where = {"start": "start the sites of a shop in the background", "run": "run the sites of a shop in the foreground, for systemd"}
        for name, about in where.items():
            parser = self.command(name, f"running.{name}", about, examples.replace("shop start", f"shop {name}"))
            parser.add_argument("named", metavar="FOLDER", nargs="?", help="the folder of the shop")
            parser.add_argument("--sites", metavar="N", type=count_of, help="how many sites the shop has, 1 to 16; 1 by default. It stays")
            parser.add_argument("--here", metavar="I,..", type=sites_of, help="which of them run here; all by default")
            parser.add_argument("--standby", metavar="I,..", type=sites_of, help="sites of another machine that are to run here once they have "
                                "been gone for some time. They then tell ok only once the server has the message; '' ends it")
            parser.add_argument("--after", metavar="S", type=seconds_of, help="how long, in seconds; 30 by default")
            parser.add_argument("--over", metavar="WHAT", help="what carries their packets: files, or redis://HOST:PORT/NAME")
            parser.add_argument("--sync", action=argparse.BooleanOptionalAction, help="have each record on the disk before it is answered")
            parser.add_argument("--alone", action="store_true", help="take asks before it is known what the others have of the sites here. "
                                "If a folder lost its end, or is an older copy, numbers are given twice")
            parser.add_argument("--upgrade", action="store_true", help="have answers that an earlier version wrote in another text written anew")
            parser.add_argument("--keep", metavar="K", type=count_of, help="how many messages a site keeps; 1,000,000 by default. It only grows")
            for option in ("batch", "shards", "workers"):
                parser.add_argument(f"--{option}", metavar="N", type=count_of, help=f"`rubis site --{option}`; it changes no answer")
            if name == "start":
                self.timeout(parser, 60)
        self.command("stop", "running.stop", "stop them, once what they were given is answered").add_argument(
            "named", metavar="FOLDER", nargs="?", help="the folder of the shop")
        parser = self.command("status", "running.status", "show how each site is; the status is 0 if all is well")
        self.as_json(parser)
        self.timeout(parser, 10)
        parser = self.command("log", "running.log", "show what happened, or what a site was asked and answered", """\
  shop log                  the last events: starts, ends, faults
  shop log 0 --lines 6      the last records of site 0 (<) and its answers (>)
  shop log 0 --follow       and those that come, with their times
""")
        parser.add_argument("site", metavar="SITE", type=count_of, nargs="?", help="the number of the site")
        parser.add_argument("-f", "--follow", action="store_true", help="go on with what comes")
        parser.add_argument("-n", "--lines", metavar="N", type=count_of, default=20, help="how many lines of the past; 20 by default")
        shown = parser.add_mutually_exclusive_group()
        shown.add_argument("--raw", action="store_true", help=r"print bytes as they are; else \x1b stands for one that isn't printable")
        shown.add_argument("--json", action="store_true", help="print an object for each line")
        parser = self.command("wait", "running.wait", "wait until a site has all that the others sent")
        self.site(parser)
        self.timeout(parser, 60)

    def _asks(self) -> None:
        parser = self.command("ask", "asks.ask", "ask a site, and print its answers", """\
  shop ask 0 user,ann 'item,0.1,"vase, blue",7,1,100,0'
  shop ask 0 - < records            the records on standard input, one a line
  shop ask 1 bid,0.3,0.2,500        a site that needs the token fetches it
  shop ask 1 list,bids,0.3
  shop ask 0 bid,0.3,0.2,500 --key order-17         said again, it is the same bid, and gets the same id
  shop ask 0 - --keys monday < records              the same for each record; one that was cut goes on
  shop ask 0 bid,0.3,0.2,500 --retry                the same under a key that is drawn
""")
        self.site(parser)
        parser.add_argument("records", metavar="RECORD", nargs="*", help="a request or a listing; - reads them from standard input")
        shown = parser.add_mutually_exclusive_group()
        shown.add_argument("--json", action="store_true", help="print an object for each answer")
        shown.add_argument("--raw", action="store_true", help="print the lines of the site")
        parser.add_argument("--no-wait", action="store_true", help="don't fetch the token: a site without it answers NoToken")
        keys = parser.add_mutually_exclusive_group()
        keys.add_argument("--key", metavar="KEY", help="of one record: asked again under this key, it is accepted once, and told the id that it got")
        keys.add_argument("--keys", metavar="PREFIX", help="of several records: the n-th has the key PREFIX.n")
        keys.add_argument("--retry", action="store_true", help="draw a key for each record, and ask again under it if the supervisor ends before it answers")
        parser.add_argument("--published", action="store_true", help="end only once the server, or over files another site, has what was accepted")
        self.timeout(parser, 10)
        parser = self.command("pass", "asks.pass_token", "hand the token on by hand; asks fetch it by themselves")
        self.site(parser, of="the site that holds it")
        parser.add_argument("to", metavar="TO", type=count_of, help="the site that gets it")
        self.timeout(parser, 10)

    def _reading(self) -> None:
        parser = self.command("list", "reading.list_rows", "list rows as a site has them", """\
  shop list 0 users
  shop list 0 items 7 --json        the items of category 7
  shop list 0 bids 0.3              the bids on item 0.3
""")
        self.site(parser)
        parser.add_argument("what", metavar="WHAT", choices=[*LISTINGS], help=", ".join(LISTINGS))
        parser.add_argument("key", metavar="KEY", nargs="?", help="the category of items; the item of bids and purchases; the user of comments")
        self.as_json(parser)
        self.timeout(parser, 60)
        kinds = [kind for kind in COLUMNS if kind != "misfit"]
        parser = self.command("show", "reading.show", "show one row as a site has it", """\
  shop show 0 item 0.3
  shop show 0 user ann --json
""")
        self.site(parser)
        parser.add_argument("kind", metavar="KIND", choices=kinds, help=", ".join(kinds))
        parser.add_argument("key", metavar="KEY", help="its id; a user's nickname will do, and a category has its number")
        self.as_json(parser)
        self.timeout(parser, 60)
        parser = self.command("tables", "reading.tables", "print all tables of a site as SQL", """\
  shop tables 0 | sqlite3 shop.db
  shop tables 0 | psql shop
""")
        self.site(parser)
        self.timeout(parser, 600)
        parser = self.command("audit", "reading.audit", "audit all sites; the status is 0 only if they agree", """\
  shop audit --save monday          keep the logs that were audited
  shop audit --with monday          audit them once more, so that a changed past is found
""")
        parser.add_argument("--save", metavar="FILE", help="keep the logs in this file")
        parser.add_argument("--with", dest="logs", metavar="FILE", action="append", help="logs of an earlier audit")
        self.as_json(parser)
        self.timeout(parser, 600)

    def _serving(self) -> None:
        parser = self.command("view", "view.writing.follow", "keep a database of SQLite up to date with a site, for pages and any other reader", """\
  shop view shop.db & sqlite3 shop.db 'SELECT * FROM items ORDER BY amount DESC LIMIT 10'
""")
        parser.add_argument("file", metavar="FILE", help="the file of the database; it is made if it isn't there")
        parser.add_argument("--site", metavar="SITE", type=count_of, help="a site that runs here; by default the first of them")
        parser.add_argument("--once", action="store_true", help="end once it is up to date")
        parser.add_argument("--with-parent", action="store_true", help=argparse.SUPPRESS)
        parser = self.command("serve", "serving.serve", "serve the shop over HTTP: asks, rows, events, metrics and a page", """\
  shop serve                                       http://127.0.0.1:8080/ for this machine
  shop serve --listen 0.0.0.0:443 --certificate shop.pem --private-key shop.key --keys-file keys
""")
        parser.add_argument("-C", dest="named", metavar="FOLDER", help="the folder of the shop")
        parser.add_argument("--listen", metavar="HOST:PORT", default="127.0.0.1:8080",
                            help="where it listens; 127.0.0.1:8080 by default. Others reach it only with a certificate and keys")
        parser.add_argument("--certificate", metavar="FILE", help="its certificate and those above it, as PEM")
        parser.add_argument("--private-key", metavar="FILE", help="the key of the certificate, as PEM")
        parser.add_argument("--idle", metavar="S", type=seconds_of, default=60.0,
                            help="seconds until a connection is closed on which no request comes to its end; 60 by default")
        parser.add_argument("--view", metavar="FILE", help="keep this database up to date with the first site here, and serve what pages ask for from it")
        parser.add_argument("--keys-file", metavar="FILE",
                            help="who may do what: lines of what a bearer key may (read, ask, ask:USER, operate), the key, and whose it is")
        parser.add_argument("--allow-origin", metavar="ORIGIN", action="append", help="let pages of this origin ask, as https://shop.example (CORS)")
        parser.add_argument("--access-log", metavar="FILE", help="a line of JSON for each request; - is standard error. SIGHUP opens it anew, "
                            "and reads the certificate and the keys again")
        parser.add_argument("--requests", metavar="N", type=count_of, default=1000,
                            help="how many requests a second each bearer key may make, ten times as many at once; 1000 by default")
        parser.add_argument("--retry", action="store_true", help="draw a key for each ask that has none, and ask again under it if the "
                            "supervisor ends before it answers")

    def _care(self) -> None:
        about = "make the folder of a lost site again from what it sent; the shop here is stopped meanwhile"
        parser = self.command("rebuild", "rebuild.rebuild", about, """\
  shop stop; shop rebuild 1; shop start
""")
        self.site(parser)
        parser.add_argument("--anyway", action="store_true", help="even where other sites are silent that may have more of it")
        parser = self.command("backup", "backup.backup", "write the sites of this folder into one file, as they are at one moment; also while they run", """\
  shop backup monday.tar.gz
""")
        parser.add_argument("file", metavar="FILE", help="the file, a tar; compressed if its name ends with gz")
        self.timeout(parser, 60)
        about = "put the sites of a backup in the place of those here, which are put aside; the shop here is stopped meanwhile"
        parser = self.command("restore", "backup.restore", about, """\
  shop stop; shop restore monday.tar.gz; shop start
""")
        parser.add_argument("file", metavar="FILE", help="what shop backup has written")
        parser.add_argument("--site", metavar="SITE", type=count_of, help="this site alone; by default all that the backup has")
        parser.add_argument("--yes", action="store_true", help="don't ask before records are put aside that the backup doesn't have")
        about = "take refusals and repeats out of the recording of a site; the shop here is stopped meanwhile"
        parser = self.command("shorten", "shorten.shorten", about, """\
  shop stop; shop shorten 0; shop start
""")
        self.site(parser)
        parser = self.command("carry", "carry.carry", "carry users, open items and their bids of a shop to a new one", """\
  shop start auction2 --sites 3; shop carry auction auction2
""")
        parser.add_argument("old", metavar="OLD", help="the folder of the old shop, which nobody asks meanwhile")
        parser.add_argument("new", metavar="NEW", help="the folder of the new shop, whose site 0 nobody else asks meanwhile")
        parser.add_argument("--site", metavar="SITE", type=count_of, default=0, help="the site of OLD whose tables are carried; 0 by default")
        parser.add_argument("--yes", action="store_true", help="don't ask before it begins")
        parser = self.command("adopt", "rebuild.adopt", "say that this folder has a site from now on, since it was moved or restored")
        self.site(parser)


def with_records(words: Words, command_line: list[str]) -> argparse.Namespace:
    """Reads the command line; records may also stand behind options, which argparse doesn't see by itself."""
    args: argparse.Namespace
    args, rest = words.parse_known_args(command_line)
    if args.version:
        args.does = "program.version"
        return args
    if args.command is None:
        words.error(f"a COMMAND is missing: {', '.join(CommandLine().commands.choices)}")
    if rest and (args.command != "ask" or any(word.startswith("-") for word in rest)):
        words.error(f"unknown: {' '.join(rest)[:80]}")
    if rest:
        args.records += rest
    if getattr(args, "named", None):
        args.folder = args.named
    return args


def command_of(name: str) -> Callable[[argparse.Namespace], int]:
    import importlib
    module, _, function = name.rpartition(".")
    command: Callable[[argparse.Namespace], int] = getattr(importlib.import_module(f"shop_tool.{module}"), function)
    return command


def main(begun: Begun | None = None) -> NoReturn:
    """Does what the command line says; of an ask, the rest of what was begun."""
    signal.signal(signal.SIGCHLD, signal.SIG_DFL)       # where it is ignored, no process that is run has a status
    for name, mode in (("stdin", "r"), ("stdout", "w"), ("stderr", "w")):
        if getattr(sys, name) is None:      # it was closed, as by a daemon
            setattr(sys, name, open(os.devnull, mode))
    for stream in (sys.stdout, sys.stderr):
        # Records may have bytes that are no text.
        stream.reconfigure(encoding="utf-8", errors="surrogateescape")      # type: ignore[attr-defined]
    try:
        args = with_records(CommandLine().words, sys.argv[1:])
        args.begun = begun
        status = command_of(args.does)(args)
        sys.stdout.flush()
    except Fault as fault:
        print(f"shop: {shown(fault.text)}", file=sys.stderr)
        status = fault.status
    except BrokenPipeError:
        os._exit(Status.REFUSED)        # the reader of standard output has gone
    except KeyboardInterrupt:
        status = 130
    except OSError as fault:
        why = f"{fault.filename}: {fault.strerror}" if fault.filename else str(fault.strerror or fault)
        print(f"shop: {shown(why)}", file=sys.stderr)
        status = Status.AWAY
    sys.exit(status)
