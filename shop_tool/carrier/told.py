"""What an asker is told of a record that has no answer.

*Nothing was given* and *not accepted* are said only where they stay true, whatever comes. Where it can't be known yet whether a record is
accepted, just that is said, with how it is found out.
"""

from typing import Any


def not_given(answered: int = 0, was_refused: bool = False, has_key: bool = False) -> str:
    """Of records that no site will be given: one that it refused for want of the token, or the first and the rest of a request of which so
    many were answered before. What the first was asked under its key by another request isn't known."""
    what = "not accepted" if was_refused else "nothing more was given to it" if answered else "nothing was given to it"
    return f"{what} by this request" if has_key else what


def not_known(site: int, number: int) -> str:
    """Of a record that a site was given and hasn't answered: it keeps it as its record of that number, or never. That another answer came
    says nothing: it may be that of an earlier request."""
    return f"it may still be accepted, as record {number} of `shop log {site}`; once another record stands there, it never will be"


def counts_unknown(site: int) -> str:
    """Of a record that a site with a standby was given: if the standby takes its place, only what stands in its stream counts."""
    return f"whether it was accepted isn't known (shop log {site})"


def unanswered(request: dict[str, Any]) -> str:
    """Of a request of which no more is known. Only asks change something."""
    return f"; whether it was accepted isn't known (shop log {request.get('site')})" if request.get("op") == "ask" else ""


def is_not_known(text: str) -> bool:
    """Whether a fault says of an ask that it isn't known, or not to the others, whether it is accepted."""
    return any(words in text for words in ("may still be accepted", "accepted isn't known", "accepted here"))


FORM = 1        # of requests between machines and of statuses, which have it as `form`; what has none and no life is of form 0


class Once:
    """Names, all of them: a call that comes again, as it was sent again after a connection broke, isn't answered twice."""

    def __init__(self) -> None:
        self._names: set[bytes] = set()

    def is_new(self, name: bytes) -> bool:
        is_new = name not in self._names
        self._names.add(name)
        return is_new


def is_called(life: str, own: str) -> bool:
    """Whether a call to a site is for this life of its folder. It is for the life that the others saw last, since any other one would
    answer what it can't know: that nothing was given."""
    return life == own
