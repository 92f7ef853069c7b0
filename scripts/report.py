"""The last line of a script that compares, and its status."""

from collections.abc import Sequence


def report(what: str, looked: int, faults: Sequence[str]) -> int:
    """Prints the faults, and last how many of what was looked at have none: the status."""
    for fault in faults:
        print(fault)
    print(f"{what}: {looked - len(faults)} passed, {len(faults)} failed")
    return 1 if faults else 0
