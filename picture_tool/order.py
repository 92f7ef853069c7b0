"""What follows what among messages, and the graph of it for `dot`."""

from collections.abc import Sequence

from .colours import BLUE, LANE, RED, RING
from .messages import Message
from .run import LOGGED, Event, Kind, View


def is_within(m: Message, of: Message) -> bool:
    """Whether a message is among those that another counts."""
    return m.origin < len(of.deps) and m.number <= of.deps[m.origin]


def followed(message: Message, known: dict[tuple[int, int], Message]) -> list[Message]:
    """The messages that one follows directly: the last ones that it counts, without those that another of them counts."""
    last = [known[site, count] for site, count in enumerate(message.deps) if (site, count) in known]
    return [m for m in last if not any(other is not m and is_within(m, other) for other in last)]


def made_in(events: Sequence[Event]) -> list[tuple[Event, Message]]:
    return [(event, event.message) for event in events if event.kind is Kind.MADE and event.message]


def red_steps(events: Sequence[Event]) -> list[tuple[Event, Event, bool]]:
    """The steps of the red line, and whether no number is left out between. Several may claim one number."""
    by_number: dict[int, list[Event]] = {}
    for event, message in made_in(events):
        if message.red:
            by_number.setdefault(message.red, []).append(event)
    numbers = sorted(by_number)
    return [(a, b, one + 1 == other) for one, other in zip(numbers, numbers[1:]) for a in by_number[one] for b in by_number[other]]


def blue_steps(events: Sequence[Event]) -> list[tuple[Event, Event]]:
    """From each message that a blue one follows directly to that one. Of two versions, the one in its own log counts."""
    homes = {message: event for event, message in made_in(events)}
    logged: dict[int, dict[tuple[int, int], Message]] = {}
    for event in events:
        if event.kind in LOGGED and event.message:
            logged.setdefault(event.lane, {})[event.message.origin, event.message.number] = event.message
    blue = [(event, message) for event, message in made_in(events) if not message.red]
    return [(homes[before], event) for event, message in blue for before in followed(message, logged[event.lane]) if before in homes]


def colour_of(message: Message) -> str:
    return RED if message.red else BLUE


def dot_of(view: View) -> str:
    """The graph for `dot`: red messages are circles, blue ones are boxes."""
    made = made_in(view.events)
    names = {event: f"m{at}" for at, (event, _) in enumerate(made)}
    found = view.run.divergence
    ringed = [spot.event.message for spot in (found.at, found.other) if spot and spot.event] if found else []
    lines = ["digraph order {", "  rankdir=LR;", '  node [style=filled, fontname="sans-serif", fontcolor=white, width=0.6, fixedsize=true];']
    for lane in view.lanes:
        label = view.run.lanes[lane].name + (f"\\n{found.kind}" if found and found.at.lane == lane else "")
        lines.append(f'  subgraph cluster_{lane} {{\n    label="{label}"; color="{LANE}"; fontname="sans-serif";')
        for event, message in made:
            if event.lane == lane:
                number = f"\\n{message.red}" if message.red else ""
                edge = f', color="{RING}", penwidth=5' if message in ringed else f', color="{colour_of(message)}"'
                shape = "circle" if message.red else "box"
                lines.append(f'    {names[event]} [label="{message.id}{number}", shape={shape}, fillcolor="{colour_of(message)}"{edge}];')
        lines.append("  }")
    for a, b, whole in red_steps(view.events):
        lines.append(f'  {names[a]} -> {names[b]} [color="{RED}", penwidth=3{"" if whole else ", style=dashed"}];')
    for a, b in blue_steps(view.events):
        lines.append(f'  {names[a]} -> {names[b]} [color="{BLUE}"];')
    return "\n".join(lines + ["}", ""])
