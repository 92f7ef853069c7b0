"""What fails is made smaller: fewer parts of it, as long as it fails."""

from collections.abc import Callable, Sequence
from typing import TypeVar

Part = TypeVar("Part")


def smaller(parts: Sequence[Part], fails: Callable[[list[Part]], bool]) -> list[Part]:
    """Parts of these that fail too: larger and smaller stretches of them are left out."""
    left, size = list(parts), len(parts) // 2
    while size:
        at = 0
        while at < len(left):
            fewer = left[:at] + left[at + size:]
            if fails(fewer):
                left = fewer
            else:
                at += size
        size //= 2
    return left
