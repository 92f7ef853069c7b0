"""How things are shown to people: columns, and colours on a terminal."""

import os
import sys

from .carrier.records import COLUMNS, Row
from .ends import Fault, Status

GREEN, YELLOW, RED = "32", "33", "31"


def shown(text: str) -> str:
    """The text as people get to see it: what isn't printable stands as \\x1b or \\u202e, so that no record reaches into the terminal."""
    return text if text.isprintable() else "".join(char if char.isprintable() else _escaped(ord(char)) for char in text)


def _escaped(code: int) -> str:
    if 0xDC80 <= code <= 0xDCFF:
        code -= 0xDC00          # a byte that is no text
    return f"\\x{code:02x}" if code < 0x100 else f"\\u{code:04x}" if code < 0x10000 else f"\\U{code:08x}"


def coloured(text: str, colour: str | None) -> str:
    """The text in a colour where standard output is a terminal that has some."""
    if not colour or not sys.stdout.isatty() or os.environ.get("NO_COLOR") or os.environ.get("TERM") == "dumb":
        return text
    return f"\x1b[{colour}m{text}\x1b[0m"


def confirmed(question: str, otherwise: str) -> bool:
    """What whoever is at the terminal says; a Fault where nobody is, which says what is so then."""
    if not sys.stdin.isatty():
        raise Fault(Status.MISUSE, f"say --yes, if that is what you want; {otherwise}")
    return input(f"{question} [y/N] ").strip().lower() in ("y", "yes")


def columns(rows: list[list[str]], colours: dict[str, str] | None = None) -> str:
    """Rows with each column as wide as its widest cell, a line each; `colours` has those of whole cells."""
    rows = [[shown(cell) for cell in row] for row in rows]
    widths = [max(len(row[at]) for row in rows) for at in range(len(rows[0]))]
    return "".join("  ".join(coloured(cell, (colours or {}).get(cell)) + " " * (width - len(cell)) for cell, width in zip(row, widths)).rstrip() + "\n"
                   for row in rows)


def print_rows(kind: str, rows: list[Row]) -> None:
    """Prints rows of one kind under the names of their columns."""
    names = COLUMNS[kind]
    print(columns([names] + [[str(row[name]) for name in names] for row in rows]), end="")


def print_fields(row: Row) -> None:
    """Prints one row with a line for each column."""
    print(columns([[name, str(row[name])] for name in COLUMNS[str(row["kind"])]]), end="")
