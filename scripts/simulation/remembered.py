"""What a run asks for again and again is remembered: what a packet says, the sum of a line, and whether the lines of a file have theirs."""

import functools

from shop_tool.carrier import asking, ledger, rebuilding, records, shop, sums

packet_of = functools.lru_cache(1 << 12)(records.packet_of)
for module in (asking, ledger, rebuilding, records, shop):
    setattr(module, "packet_of", packet_of)
setattr(sums, "sum_of", functools.lru_cache(1 << 14)(sums.sum_of))


@functools.lru_cache(64)
def compared(kept: bytes, sums_of_it: bytes) -> tuple[int, int | None]:
    """How many lines of a file `kept` are as their sums say, and the number of the first that was changed."""
    return sums.compared(kept.splitlines(keepends=True), sums_of_it)
