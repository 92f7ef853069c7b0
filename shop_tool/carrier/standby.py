"""Stands by for a site that runs elsewhere, and takes its place once it has been gone for some time.

The site says in its stream's place on the server that it yields, once it has a standby: from then on it tells ok only of what stands in its
stream, where nobody appends any more once the standby has taken its place. So it doesn't matter how long either of them was cut off or stood
still, nor whether the site is gone at all; clocks only say when the standby tries.
"""

from typing import TYPE_CHECKING

from ..ends import Fault
from .rebuilding import Rebuild
from .steps import StandBy, Statuses, Steps, Wait

if TYPE_CHECKING:
    from .over_server import ServerLink

LOOK_SECONDS = 0.5


class Standby:
    def __init__(self, link: "ServerLink", site: int) -> None:
        self.link, self.site = link, site
        self.name = f"stand by for {site}"
        self.said = ""          # why it couldn't take its place, as it was said last

    def run(self) -> Steps[None]:
        shop, gone_since = self.link.shop, None
        while not self.link.is_over and not shop.is_leaving:
            yield StandBy(self.site)
            is_gone = self.site not in (yield Statuses())
            self.link.works(self.name)
            gone_since = (shop.now() if gone_since is None else gone_since) if is_gone else None
            if gone_since is not None and shop.now() - gone_since >= shop.after and (yield from self._takes_over()):
                return shop.took_over(self.site)
            yield Wait(None, LOOK_SECONDS)

    def _takes_over(self) -> Steps[bool]:
        shop = self.link.shop
        try:
            took_over = yield from Rebuild(self.site, shop.count, list(shop.sites), anyway=False, standby=shop.standby).for_standby()
            why = "" if took_over else "somebody went on with it"
        except Fault as fault:
            took_over, why = False, fault.text
        if why != self.said:
            shop.event(f"standby for site {self.site}: it isn't taken over: {why}")
        self.said = why
        return took_over
