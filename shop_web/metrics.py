"""What Prometheus reads: how the shop is, and what was asked over HTTP."""

import contextlib
import functools
import os
from collections.abc import Iterator
from typing import Any

from prometheus_client import CollectorRegistry, Counter, Histogram, ProcessCollector, generate_latest
from prometheus_client.core import CounterMetricFamily, GaugeMetricFamily, Metric

from shop_tool.program import build

SECONDS = (0.001, 0.002, 0.005, 0.01, 0.02, 0.05, 0.1, 0.2, 0.5, 1.0, 2.0, 5.0, 10.0)
PAGE_BYTES = os.sysconf("SC_PAGE_SIZE")
GAUGES = {
    "shop_site_up": "1 if the site takes asks, as far as is known here",
    "shop_site_full": "1 if the site keeps no more messages",
    "shop_site_silent_seconds": "Seconds for which the site hasn't answered what it was given, if it hangs",
    "shop_site_records": "Records that the site keeps, of 4000000",
    "shop_site_messages": "Messages that the site has, of --keep",
    "shop_site_waiting": "Asks and packets that wait for an answer of the site",
    "shop_site_held": "Messages that wait at the site for others",
    "shop_site_unpublished": "Packets of the site that the others can't find yet",
    "shop_site_holds_token": "1 if the site holds the token",
}


class Status:
    """The status of the shop, as metrics."""

    def __init__(self, folder: str) -> None:
        self.folder, self.build = folder, build()
        self.shop: dict[str, Any] | None = None     # None where the supervisor couldn't be reached

    def collect(self) -> Iterator[Metric]:
        shop = self.shop or {"site": []}
        info = GaugeMetricFamily("shop_build_info", "1, under the name of the build of shop", labels=["build"])
        info.add_metric([self.build], 1.0)
        resident = GaugeMetricFamily("shop_resident_bytes", "Memory of the supervisor, and of the program of each site here", labels=["process"])
        for process, number in [("supervisor", shop.get("pid")), *((f"site {site['site']}", site.get("pid")) for site in shop["site"])]:
            if number and (size := resident_bytes(number)) is not None:
                resident.add_metric([process], size)
        yield from (info, resident)
        with contextlib.suppress(OSError):
            disk = os.statvfs(self.folder)
            yield GaugeMetricFamily("shop_disk_free_bytes", "Free space of the disk that has the shop's folder", value=disk.f_bavail * disk.f_frsize)
        yield GaugeMetricFamily("shop_up", "1 if the supervisor of the shop can be reached", value=float(self.shop is not None))
        if self.shop:
            yield GaugeMetricFamily("shop_link_up", "1 if packets are carried", value=float(shop["link"] == "up"))
            yield GaugeMetricFamily("shop_token_turn", "The turn of the token", value=shop["token_turn"])
        gauges = {name: GaugeMetricFamily(name, about, labels=["site"]) for name, about in GAUGES.items()}
        behind = GaugeMetricFamily("shop_site_behind", "Messages of another site that the site hasn't", labels=["site", "origin"])
        starts = CounterMetricFamily("shop_site_starts", "How often the keeper of the site was started", labels=["site"])
        faults = CounterMetricFamily("shop_site_faults", "Faults of the site", labels=["site"])
        answers = CounterMetricFamily("shop_site_answers", "Answers of the site to asks, by what they are", labels=["site", "answer"])
        for site in shop["site"]:
            name = [str(site["site"])]
            gauges["shop_site_up"].add_metric(name, float(site["state"] == "up"))
            gauges["shop_site_holds_token"].add_metric(name, float(bool(site.get("holds_token"))))
            if "records" not in site:
                continue        # it runs on another machine, which says less of it
            values = {"records": site["records"], "messages": site["messages"], "waiting": site["waiting"], "held": site["held"],
                      "unpublished": site["sent"] - site["published"], "full": float(site["full"]), "silent_seconds": site["silent"] or 0.0}
            for key, value in values.items():
                gauges[f"shop_site_{key}"].add_metric(name, value)
            for origin, count in site["behind"].items():
                behind.add_metric([*name, origin], count)
            starts.add_metric(name, site["starts"])
            faults.add_metric(name, site["faults"])
            for answer, count in site["answers"].items():
                answers.add_metric([*name, answer], count)
        yield from (*gauges.values(), behind, starts, faults, answers)


def resident_bytes(process: int) -> int | None:
    """The memory that a process has; None if it is gone, or somebody else's."""
    try:
        with open(f"/proc/{process}/statm") as file:
            return int(file.read().split()[1]) * PAGE_BYTES
    except (OSError, ValueError):
        return None


class Metrics:
    def __init__(self, folder: str) -> None:
        self.registry = CollectorRegistry()
        ProcessCollector(registry=self.registry)        # of this server
        self.status = Status(folder)
        self.registry.register(self.status)     # type: ignore[arg-type]
        self.asks = Counter("shop_http_asks", "Asks over HTTP, by their answers", ["site", "answer"], registry=self.registry)
        self.ask_seconds = Histogram("shop_http_ask_seconds", "Seconds from a request with one ask to its answer", ["site"], buckets=SECONDS,
                                     registry=self.registry)
        self.requests = Counter("shop_http_requests", "Requests over HTTP", ["method", "path", "status"], registry=self.registry)
        self.request_seconds = Histogram("shop_http_request_seconds", "Seconds until a request was served", ["method", "path"], buckets=SECONDS,
                                         registry=self.registry)

    # Each by its labels, of which there are few: to look one up takes the library as long as to count it.

    @functools.cache
    def asks_of(self, site: str, answer: str) -> Counter:
        return self.asks.labels(site, answer)

    @functools.cache
    def ask_seconds_of(self, site: str) -> Histogram:
        return self.ask_seconds.labels(site)

    @functools.cache
    def requests_of(self, method: str, path: str, status: str) -> Counter:
        return self.requests.labels(method, path, status)

    @functools.cache
    def request_seconds_of(self, method: str, path: str) -> Histogram:
        return self.request_seconds.labels(method, path)

    def text(self, shop: dict[str, Any] | None) -> bytes:
        """All of them, in the text format of Prometheus."""
        self.status.shop = shop
        return generate_latest(self.registry)
