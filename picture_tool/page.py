"""The page on which a run is walked: one HTML file with nothing from outside."""

import base64
import json
import pathlib
import zlib
from html import escape
from typing import Any

from .canvas import Canvas
from .colours import DARK, LIGHT
from .marks import Mark, sample
from .messages import Message
from .run import Event, Kind, Run, Spot, view_of

WEB = pathlib.Path(__file__).resolve().parent / "web"
SCRIPTS = ("run.js", "picture.js", "page.js")
KINDS = tuple(Kind)
VARIABLES = {name: f"var(--{name})" for name in LIGHT}
SHOWN = tuple(mark for mark in Mark if mark not in (Mark.STUB, Mark.LEFT_OUT))
ON_PAGE = {
    "the step that is shown": '<circle cx="20" cy="12" r="10" fill="none" stroke="{ink}" stroke-width="2.5"/>',
    "what the pointer is at": '<circle cx="20" cy="12" r="9" fill="none" stroke="{ink}" stroke-width="1.2" stroke-dasharray="2 2"/>',
    "what comes later, or isn't about the filter": '<circle cx="20" cy="12" r="7" fill="{red}" fill-opacity="0.38"/>',
    "many messages, where the columns are narrow":
        '<path d="M10 5v14M14 9v6M18 5v14M30 9v6" stroke="{red}" stroke-width="2"/><path d="M22 5v14M26 9v6" stroke="{blue}" stroke-width="2"/>',
}


def page_of(run: Run, begin: int) -> str:
    """The page of a whole run, which opens at a step of it."""
    packed = base64.b64encode(zlib.compress(json.dumps(_data(run, begin), separators=(",", ":")).encode(), 6)).decode()
    made = sum(event.kind is Kind.MADE for event in run.events)
    title = f"{made:,} messages of {len({lane.site for lane in run.lanes})} sites"
    parts = {
        "TITLE": escape(title), "STYLE": (WEB / "page.css").read_text(), "LIGHT": _variables(LIGHT), "DARK": _variables(DARK),
        "LEGEND": _legend(run), "DATA": packed, "SCRIPT": "\n".join((WEB / name).read_text() for name in SCRIPTS)}
    page = (WEB / "page.html").read_text()
    for name, text in parts.items():
        page = page.replace("{{" + name + "}}", text)
    return page


def _data(run: Run, begin: int) -> dict[str, Any]:
    """What the page draws: messages by their fields, and events in columns of numbers."""
    view = view_of(run)
    events = view.events
    place = {id(event): at for at, event in enumerate(events)}
    messages: dict[Message, int] = {}
    for event in events:
        if event.message:
            messages.setdefault(event.message, len(messages))
    return {
        "sites": run.sites, "colours": {"light": LIGHT, "dark": DARK}, "begin": begin, "holder": -1 if run.first_holder is None else run.first_holder,
        "lanes": [[lane.site, lane.name] for lane in run.lanes],
        "messages": [[m.origin, m.number, m.red, ":".join(map(str, m.deps)), *m.shadow] for m in messages],
        "kinds": KINDS,
        "lane": [event.lane for event in events],
        "kind": [KINDS.index(event.kind) for event in events],
        "message": [messages[event.message] if event.message else -1 for event in events],
        "from": [place.get(id(event.after[0]), -1) if event.after and event.kind is not Kind.MADE else -1 for event in events],
        "column": list(view.columns.values()),
        "numbers": [event.place for event in events],
        "texts": {at: event.text for at, event in enumerate(events) if event.text},
        "divergence": _divergence(run, place),
        "placed": "record" if any(row.holds is not None for row in run.rows) else "entry",
    }


def _divergence(run: Run, place: dict[int, int]) -> dict[str, Any] | None:
    found = run.divergence
    if not found:
        return None

    def at(spot: Spot | None) -> int:
        return place[id(spot.event)] if spot and spot.event else -1

    def event_at(event: Event | None) -> int:
        return place[id(event)] if event else -1

    return {
        "kind": found.kind, "why": found.why, "lane": found.at.lane, "at": at(found.at), "other": at(found.other),
        "common": event_at(found.common)}


def _variables(colours: dict[str, str]) -> str:
    return " ".join(f"--{name}: {colour};" for name, colour in colours.items())


def _by_names(shape: str) -> str:
    """A shape in the colours of the reader's scheme."""
    for name, colour in LIGHT.items():
        shape = shape.replace(f'"{colour}"', f'"{VARIABLES[name]}"')
    return shape


def _legend(run: Run) -> str:
    """Every mark of the page, with what it means."""
    items = []
    for mark in SHOWN:
        if mark in (Mark.FAULT, Mark.OTHER) and not run.divergence:
            continue
        canvas = Canvas()
        sample(canvas, mark, 20, 12)
        items.append((mark.value, _by_names("".join(canvas.parts))))
    items += [(words, shape.format(**VARIABLES)) for words, shape in ON_PAGE.items()]
    box = 'width="40" height="24" viewBox="0 0 40 24" aria-hidden="true"'
    return "\n".join(f"<li><svg {box}>{shape}</svg>{escape(words, False)}</li>" for words, shape in items)
