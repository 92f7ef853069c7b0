"""The command line of scripts/picture.py."""

import argparse
import gc
import sys

from shop_tool.grid import grid_text

from .drawing import Drawing
from .grids import grid_of, grid_svg
from .messages import Fault
from .order import dot_of
from .page import page_of
from .run import Run, View, around, around_place, between, last_of, made_places, view_of
from .sources import KINDS, Given, run_of, source_of

MANY = 100          # a picture of more messages shows the last of them
SOME, FEW = 40, 20  # with up to six lanes, and with more

ABOUT = """\
Draws an order of operations: a lane for each site that has something to show, and its messages as marks.

FILE is one of these, or several that belong together, told apart by their first records; standard input if there is none:

- the folder of a site, or of a shop, with its files kept and out: everything that happened there;
- the input of `rubis audit`: each log is a lane. --verdict gives the auditor's answer, as audit,RedGap,2,1, or a file that has it;
- the records of `rubis world`, its answers, or both. Records alone are answered by the program; answers alone have to list each
  site's log;
- the records of `rubis site` with its answers;
- a conversation, as in conversations/.

The same input gives the same bytes.
"""
EXAMPLES = """\
examples:
  scripts/picture.py auction > shop.svg                          a shop, as it was left or as it runs
  scripts/picture.py auction --last 20 > end.svg                 its last messages
  scripts/picture.py auction --grid --text                       what each site has, and what waits
  scripts/picture.py auction --html > run.html                   a page to walk it
  scripts/picture.py logs --verdict audit,Clash,2,2 > clash.svg  where two logs part
"""


def pair_of(text: str) -> tuple[str, str]:
    one, _, other = text.partition(",")
    if not (one and other):
        raise argparse.ArgumentTypeError(f"{text!r} isn't two, as 1,2")
    return one, other


def place_of(text: str) -> tuple[int, int]:
    one, other = pair_of(text)
    if not (one.isdecimal() and other.isdecimal()):
        raise argparse.ArgumentTypeError(f"{text!r} is no log and entry, as 2,5")
    return int(one), int(other)


def command_line() -> argparse.ArgumentParser:
    words = argparse.ArgumentParser(
        prog="picture.py", description=ABOUT, epilog=EXAMPLES, formatter_class=argparse.RawDescriptionHelpFormatter)
    words.add_argument("files", nargs="*", metavar="FILE", help="what is drawn")
    shown = words.add_mutually_exclusive_group()
    shown.add_argument("--grid", action="store_true", help="draw how many messages of each site the others have, and what waits")
    shown.add_argument("--html", action="store_true", help="write a page to walk the run: one file, with nothing from outside")
    shown.add_argument("--dot", action="store_true", help="write a graph for dot")
    words.add_argument("--text", action="store_true", help="the grid as plain text")
    part = words.add_mutually_exclusive_group()
    part.add_argument("--last", type=int, metavar="N", help="only from where the last N messages were made")
    part.add_argument("--around", type=place_of, metavar="LOG,ENTRY", help="only around an entry of a log; both are counted from 1")
    part.add_argument("--between", type=pair_of, metavar="ID,ID", help="only from one message to another")
    words.add_argument("--verdict", default="", metavar="RECORD", help="the auditor's answer, as audit,RedGap,2,1")
    words.add_argument("--as", dest="kind", choices=KINDS, metavar="KIND", help=f"what the first FILE is: {', '.join(KINDS)}")
    words.add_argument("--site", type=int, metavar="I", help="which site records of `rubis site` are of")
    words.add_argument("--sites", type=int, metavar="N", help="how many sites there are, where that isn't told")
    words.add_argument("--program", metavar="PROGRAM", help="what answers records that have no answers; else the variable RUBIS names it")
    words.add_argument("-o", "--output", metavar="FILE", help="write there; else on standard output")
    return words


def chosen_view(run: Run, args: argparse.Namespace) -> View:
    """The part that the command line chose; else, of a long run, where the logs part, or its end."""
    if args.last is not None:
        return last_of(run, args.last)
    if args.around is not None:
        return around(run, args.around[0] - 1, args.around[1])
    if args.between is not None:
        return between(run, *args.between)
    if len(made_places(run)) <= MANY:
        return view_of(run)
    if run.divergence and run.divergence.at.event:
        return around_place(run, run.events.index(run.divergence.at.event))
    return last_of(run, SOME if len(run.lanes) <= 6 else FEW)


def opens_at(run: Run) -> int:
    """The step at which the page of a whole run opens: where the logs part, or else its end."""
    event = run.divergence.at.event if run.divergence else None
    return run.events.index(event) if event else len(run.events) - 1


def made(run: Run, args: argparse.Namespace) -> str:
    """What the command line asks for."""
    if not run.events:
        raise Fault("there is nothing to draw")
    if args.grid:
        if not run.rows:
            raise Fault("nothing says what a site has")
        grid = grid_of(run)
        return grid_text(grid) if args.text else grid_svg(grid)
    is_whole = args.last is args.around is args.between is None
    if args.html:
        return page_of(run, opens_at(run) if is_whole else chosen_view(run, args).begin)
    view = chosen_view(run, args)
    return dot_of(view) if args.dot else Drawing(view).svg()


def drawn(command: list[str], text: str | None = None) -> str:
    """What a command line gives; `text` is standard input."""
    args = command_line().parse_args(command)
    if args.text and not args.grid:
        raise Fault("--text goes with --grid")
    given = Given(args.kind, args.verdict, args.site, args.sites, args.program)
    if args.files:
        sources = [source_of(path, kind=given.kind if not at else None) for at, path in enumerate(args.files)]
    else:
        sources = [source_of("standard input", text if text is not None else sys.stdin.buffer.read().decode("utf-8", "replace"), given.kind)]
    return made(run_of(sources, given), args)


def main() -> int:
    gc.disable()        # a short life with many small objects that all stay
    args = command_line().parse_args()
    try:
        said = drawn(sys.argv[1:])
        if args.output:
            with open(args.output, "w", encoding="utf-8") as file:
                file.write(said)
        else:
            sys.stdout.reconfigure(encoding="utf-8")        # type: ignore[attr-defined]
            sys.stdout.write(said)
    except Fault as fault:
        print(f"picture.py: {fault}", file=sys.stderr)
        return 1
    except OSError as fault:
        print(f"picture.py: {fault.filename or ''}{': ' if fault.filename else ''}{fault.strerror or fault}", file=sys.stderr)
        return 1
    return 0
