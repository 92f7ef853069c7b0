"""The picture of lanes as SVG."""

from .canvas import Canvas, Label, escaped, text_width
from .colours import BLUE, GREY, INK, LANE, PALE, RED, WHITE
from .layout import CAPTION_SIZE, ID_SIZE, NAME_SIZE, RADIUS, SMALL, Layout, above, below
from .marks import GAPS, Mark, band, bow, cross, diamond, dot, legend, ring, TRAVELS
from .messages import Fault
from .order import blue_steps, colour_of, made_in, red_steps
from .run import Event, Kind, View
from .sides import draw_sides

MOST = 2000             # messages in one picture: viewers refuse longer ones
MOST_FOLLOWED = 24      # with more messages, what blue ones follow is left to lanes and deliveries


class Drawing:
    def __init__(self, view: View) -> None:
        self.view, self.at, self.canvas = view, Layout(view), Canvas()
        self.made = made_in(view.events)
        if not self.made and not view.events:
            raise Fault("there is nothing to draw")
        if len(self.made) > MOST:
            raise Fault(f"{len(self.made):,} messages are too many for one image: choose a part (--last), or --html")
        self.marks: set[Mark] = set()
        found = view.run.divergence
        self.ringed = {id(spot.event) for spot in (found.at, found.other) if spot} if found else set()

    def svg(self) -> str:
        self.token_bands()
        self.lanes()
        self.deliveries()
        self.order_lines()
        self.rings()
        for event in self.view.events:
            self.event(event)
        self.left_out()
        self.fault_words()
        found = self.view.run.divergence
        if found and found.kind in ("Clash", "Order", "RedGap"):
            self.at.bottom, self.at.width = draw_sides(self.canvas, self.view.run, self.at.bottom, self.at.width)
        self.at.bottom = legend(self.canvas, self.marks, self.at.bottom + 8, self.at.width)
        return self.canvas.svg(self.at.width, self.at.bottom, self.title())

    def title(self) -> str:
        said = f"{len(self.made)} messages in {len(self.view.lanes)} lanes"
        found = self.view.run.divergence
        return said + (f"; {found.kind}: {found.why}" if found else "")

    def lanes(self) -> None:
        at = self.at
        for system in range(len(at.starts)):
            for lane in self.view.lanes:
                y = at.lane_y(system, lane)
                self.canvas.line((at.left - 6, y), (at.system_right(system), y), LANE, 2)
                self.canvas.text(Label(at.left - 14, y + 4, NAME_SIZE, self.view.run.lanes[lane].name, INK, "end", True))

    def left_out(self) -> None:
        """How many marks of each lane aren't drawn, at its two ends."""
        at, last = self.at, len(self.at.starts) - 1
        for lane, text in at.counts().items():
            self.canvas.text(Label(at.left - 14, at.lane_y(0, lane) + 19, 10, text, GREY, "end"))
        for lane, text in at.counts(True).items():
            self.canvas.text(Label(at.system_right(last) + 8, at.lane_y(last, lane) + 3.5, 10, text, GREY, "start"))
        if at.counts() or at.counts(True):
            self.marks.add(Mark.LEFT_OUT)

    # The token.

    def token_spans(self) -> list[tuple[int, int, int]]:
        """Lanes with the columns from which, and before which, they hold the token."""
        since: dict[int, int] = {}
        if (first := self.view.run.first_holder) is not None:
            since[first] = 0
        spans = []
        for place, event in enumerate(self.view.run.events[: self.view.end]):
            is_early = place < self.view.begin
            if event.kind is Kind.HOLDING:
                since[event.lane] = 0 if is_early else self.view.columns[event]
            elif event.kind is Kind.PASSED and event.lane in since:
                start = since.pop(event.lane)
                if not is_early:
                    spans.append((event.lane, start, self.view.columns[event]))
        return spans + [(lane, start, self.at.columns + 1) for lane, start in since.items()]

    def token_bands(self) -> None:
        at = self.at
        for lane, first, last in self.token_spans():
            if lane not in at.rows:
                continue
            for system, start in enumerate(at.starts):
                end = at.starts[system + 1] - 1 if system + 1 < len(at.starts) else at.columns
                if first > end or last < start:
                    continue
                left = at.middles[first - 1] if first >= start else at.left - 6
                right = at.middles[last - 1] if last <= end else at.system_right(system)
                band(self.canvas, left, right, at.lane_y(system, lane))
                self.marks.add(Mark.TOKEN)

    # Lines.

    def join(self, a: Event, b: Event, colour: str, width: float, more: str = "") -> None:
        """A line from event to event; over several systems, one that leaves at the right and comes in at the left."""
        at = self.at
        if at.system(a) == at.system(b):
            self.canvas.line(at.at(a), at.at(b), colour, width, more)
            return
        self.canvas.line(at.at(a), (at.system_right(at.system(a)), at.y(a)), colour, width, more)
        self.canvas.line((at.left - 6, at.lane_y(at.system(b), a.lane)), at.at(b), colour, width, more)

    def order_lines(self) -> None:
        if len(self.made) <= MOST_FOLLOWED:
            for a, b in blue_steps(self.view.events):
                self.join(a, b, BLUE, 1.8 if len(self.at.rows) <= 6 else 1.2)
                self.marks.add(Mark.FOLLOWS)
        for a, b, is_next in red_steps(self.view.events):
            self.join(a, b, RED, 3.5, "" if is_next else GAPS)
            self.marks.add(Mark.RED_LINE if is_next else Mark.RED_GAP)

    def deliveries(self) -> None:
        """From where a message was made to where it arrived, and from there to its release."""
        held = {(event.lane, event.message): event for event in self.view.events if event.kind is Kind.HELD}
        for event in self.view.events:
            arrived = held.get((event.lane, event.message)) if event.kind is Kind.RELEASED else None
            if arrived:
                self.bow(arrived, event)
            elif event.kind is not Kind.MADE and event.after:
                self.arrow(event.after[0], event)

    def arrow(self, a: Event, b: Event) -> None:
        at = self.at
        is_token = b.kind is Kind.HOLDING
        colour = RED if is_token else PALE
        if a in self.view.columns and at.system(a) == at.system(b):
            self.canvas.line(at.at(a), at.at(b), colour, 1.3 if is_token or len(at.rows) <= 6 else 0.8, TRAVELS if is_token else "")
            self.marks.add(Mark.TRAVELS if is_token else Mark.DELIVERY)
            return
        x, y = at.at(b)     # a short line that shows from which lane it comes
        up = -1 if a.lane < b.lane else 1
        self.canvas.line((x - 12, y + up * 16), (x, y), colour, 1.5)
        self.marks.add(Mark.STUB)

    def bow(self, held: Event, released: Event) -> None:
        at = self.at
        if at.system(held) == at.system(released) and held.message:
            bow(self.canvas, at.at(held), at.at(released), held.message.red > 0, RADIUS + 14)
            self.marks.add(Mark.BOW)

    # Marks and their words.

    def rings(self) -> None:
        found = self.view.run.divergence
        for spot in (found.other, found.at) if found else ():
            if spot and spot.event and spot.event in self.view.columns:
                is_other = spot is not found.at if found else False
                ring(self.canvas, self.at.at(spot.event), RADIUS if spot.event.kind is Kind.MADE else SMALL, is_other)
                self.marks.add(Mark.OTHER if is_other else Mark.FAULT)

    def event(self, event: Event) -> None:
        self.canvas.put(f"<g><title>{escaped(self.record(event))}</title>")
        x, y = at = self.at.at(event)
        m = event.message
        if event.kind is Kind.MADE and m:
            dot(self.canvas, at, m.red > 0, RADIUS)
            self.marks.add(Mark.RED if m.red else Mark.BLUE)
            if m.red:
                self.canvas.text(Label(x, y + 4, RADIUS * (1.15 if m.red < 100 else 0.8), str(m.red), WHITE, is_bold=True))
        elif event.kind in (Kind.RELEASED, Kind.HELD) and m:
            is_held = event.kind is Kind.HELD
            dot(self.canvas, at, m.red > 0, SMALL, colour_of(m) if is_held else "")
            self.marks.add(Mark.HELD if is_held else Mark.RELEASED)
        elif event.kind is Kind.REFUSED:
            cross(self.canvas, at)
            self.marks.add(Mark.REFUSED)
        else:
            diamond(self.canvas, at, event.kind is Kind.HOLDING)
            self.marks.add(Mark.CAME if event.kind is Kind.HOLDING else Mark.PASSED)
        self.words(event, x, y)
        self.canvas.put("</g>")

    def words(self, event: Event, x: float, y: float) -> None:
        if name := above(event):
            lift = 7 if id(event) in self.ringed else 0
            self.canvas.text(Label(x, y - RADIUS - 6 - lift, ID_SIZE, name, INK if event.kind is Kind.MADE else GREY, has_halo=True))
        if text := below(event):
            colour = GREY if event.kind is Kind.HELD else RED if event.kind in (Kind.PASSED, Kind.HOLDING) else INK
            self.canvas.text(Label(x, y + RADIUS + 17, CAPTION_SIZE, text, colour, has_halo=True))

    def record(self, event: Event) -> str:
        where = self.view.run.lanes[event.lane].name
        said = event.message.record if event.message else event.text or "the token"
        return f"{where}, {event.place}: {event.kind}: {said}"

    def fault_words(self) -> None:
        """What the auditor says, under the lane of the fault."""
        found, at = self.view.run.divergence, self.at
        if not found:
            return
        event = found.at.event if found.at.event and found.at.event in self.view.columns else None
        system = at.system(event) if event else len(at.starts) - 1
        text = f"{found.kind}: {found.why}"
        width = text_width(text, 13, True)
        x = at.x(event) if event else at.system_right(system)
        x = max(min(x, at.width - 8 - width / 2), 8 + width / 2)
        y = at.lane_y(system, found.at.lane) + at.lane_height / 2 + 8
        self.canvas.text(Label(x, y, 13, text, INK, is_bold=True, has_halo=True))
        if not event:
            point = at.system_right(system), at.lane_y(system, found.at.lane)
            ring(self.canvas, point, SMALL, False)
            self.marks.add(Mark.FAULT)
