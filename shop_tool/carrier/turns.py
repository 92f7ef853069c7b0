"""Who gets the token next, and when: a queue that all supervisors of a shop have alike, and how long a holder keeps it."""

import collections
from collections.abc import Collection, Sequence

SLICE = 0.1         # seconds that a site with askers of its own keeps it, from its first accepted ask on
PATIENCE = 5.0      # seconds that it keeps it while it still waits for red messages before its first ask
SAY_AGAIN = 1.0     # seconds after which a want is said again
FORGET = 3.0        # seconds after which a want is forgotten that isn't said again, as when its asker has gone


class Wants:
    """The sites that want the token, in the order in which they said so first, each once."""

    def __init__(self) -> None:
        self._heard: collections.OrderedDict[int, tuple[float, int]] = collections.OrderedDict()
        self.last_turns: dict[int, int] = {}        # the last turn that went to each site
        self.turn = 0                               # the last turn of all, and the site that has or gets it
        self.holder = 0

    def hear(self, site: int, known: int, now: float) -> None:
        """A site wants the token; it knows that it had it last at turn `known`."""
        if self.last_turns.get(site, 0) > known and self.last_turns[site] >= self.turn:
            return                                  # the token is on its way there
        heard = self._heard.get(site)
        if heard and now - heard[0] > FORGET:
            del self._heard[site]
        self._heard[site] = (now, known)            # one that is said again keeps its place

    def passed(self, turn: int, to: int) -> None:
        """The token of this turn went to a site, or came there."""
        self.last_turns[to] = max(self.last_turns.get(to, 0), turn)
        if turn >= self.turn:
            self.turn, self.holder = turn, to
        if to in self._heard and self._heard[to][1] < turn:
            del self._heard[to]

    def known(self, turn: int) -> None:
        """Some site has had the token at this turn, or passed it."""
        self.turn = max(self.turn, turn)

    def next(self, holder: int, now: float) -> int | None:
        """The first other site that wants it."""
        for site, (heard, _) in list(self._heard.items()):
            if now - heard > FORGET:
                del self._heard[site]
            elif site != holder:
                return site
        return None

    def drop(self, site: int) -> None:
        self._heard.pop(site, None)

    def waiting(self) -> list[int]:
        return list(self._heard)


def taker(waiting: Sequence[int], running: Collection[int]) -> int | None:
    """Who gets the token of a site that is stopped, of those that run elsewhere: the first that wants it, or else any."""
    return next((site for site in waiting if site in running), min(running, default=None))


class Hold:
    """How long the holder keeps the token while others want it: at once it goes where the holder has no asks of its own under way."""

    def __init__(self) -> None:
        self.used_since: float | None = None        # when its first ask with this token was answered
        self.wanted_since: float | None = None      # when others were first seen to want it

    def took(self) -> None:
        self.used_since = self.wanted_since = None

    def used(self, now: float) -> None:
        if self.used_since is None:
            self.used_since = now

    def seconds_left(self, is_busy: bool, now: float) -> float:
        """How long it keeps the token yet; 0 or less: it passes it on now."""
        if not is_busy:
            return 0.0
        if self.used_since is not None:
            return self.used_since + SLICE - now
        if self.wanted_since is None:
            self.wanted_since = now
        return self.wanted_since + PATIENCE - now
