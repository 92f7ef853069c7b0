"""Where events stand: columns from left to right, in as many systems of lanes, one below the other, as are needed."""

import bisect

from .canvas import text_width
from .run import Event, Kind, View

ID_SIZE, CAPTION_SIZE, NAME_SIZE = 11.5, 10.5, 13.0
RADIUS = 10.0
SMALL = 5.5
NARROWEST, GAP = 26.0, 9.0      # of a column; between labels
FAULT_ROOM = 20.0               # under a lane with a fault


def above(event: Event) -> str:
    """What stands over an event's mark."""
    return event.message.id if event.message else ""


def below(event: Event) -> str:
    """What stands under it."""
    if event.kind is Kind.MADE and event.message:
        return event.message.caption
    words = {Kind.HELD: "held", Kind.PASSED: "pass", Kind.HOLDING: "token"}
    return event.text.partition(":")[0] if event.kind is Kind.REFUSED else words.get(event.kind, "")


def width_of(event: Event) -> float:
    return max(text_width(above(event), ID_SIZE), text_width(below(event), CAPTION_SIZE)) + GAP


class Layout:
    RIGHT, WIDTH, TOP = 22.0, 1180.0, 12.0

    def __init__(self, view: View) -> None:
        self.view = view
        self.rows = {lane: at for at, lane in enumerate(view.lanes)}
        self.columns = max(view.columns.values(), default=0)
        names = [text_width(view.run.lanes[lane].name, NAME_SIZE, True) for lane in view.lanes]
        self.left = 26.0 + max([*names, *(text_width(text, 10) for text in self.counts().values())], default=0)
        self.late = max((text_width(text, 10) + 14 for text in self.counts(True).values()), default=0.0)
        self._pack()
        self.lane_height = 92.0 if len(view.lanes) <= 4 else 70.0
        self.fault_row = self.rows.get(view.run.divergence.at.lane) if view.run.divergence else None
        fault_room = FAULT_ROOM if self.fault_row is not None else 0.0
        self.system_height = self.lane_height * len(view.lanes) + fault_room + 14
        self.bottom = self.TOP + len(self.starts) * self.system_height
        widest = max((self.system_right(system) for system in range(len(self.starts))), default=0)
        self.width = max(widest + self.RIGHT + self.late, 640.0)

    def counts(self, is_after: bool = False) -> dict[int, str]:
        """How many marks of each lane are left out at one side, as words."""
        counts = self.view.after if is_after else self.view.before
        return {lane: f"{counts[lane]:,} {'later' if is_after else 'earlier'}" for lane in self.view.lanes if counts[lane]}

    def _pack(self) -> None:
        """Gives columns their widths, and puts as many into each system as fit."""
        widths = [NARROWEST] * self.columns
        for event, column in self.view.columns.items():
            widths[column - 1] = max(widths[column - 1], width_of(event))
        room = self.WIDTH - self.left - self.RIGHT - self.late
        self.starts: list[int] = []         # the first column of each system, from 1
        self.middles: list[float] = []      # of each column
        self.rights: list[float] = []       # where each system ends
        x = room
        for column, width in enumerate(widths, 1):
            if not self.starts or x + width > room:
                self.starts.append(column)
                self.rights.append(self.left)
                x = 0.0
            self.middles.append(self.left + x + width / 2)
            x += width
            self.rights[-1] = self.left + x

    def system_of(self, column: int) -> int:
        return bisect.bisect_right(self.starts, column) - 1

    def system(self, event: Event) -> int:
        return self.system_of(self.view.columns[event])

    def x(self, event: Event) -> float:
        return self.middles[self.view.columns[event] - 1]

    def lane_y(self, system: int, lane: int) -> float:
        row = self.rows[lane]
        room = FAULT_ROOM if self.fault_row is not None and row > self.fault_row else 0.0
        return self.TOP + system * self.system_height + (row + 0.5) * self.lane_height + room

    def y(self, event: Event) -> float:
        return self.lane_y(self.system(event), event.lane)

    def at(self, event: Event) -> tuple[float, float]:
        return self.x(event), self.y(event)

    def system_right(self, system: int) -> float:
        return self.rights[system] + 6
