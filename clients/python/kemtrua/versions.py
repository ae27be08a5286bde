"""Which versions work together: those whose first two numbers are the same. A hub takes older clients, and a client takes older hubs."""
from __future__ import annotations

from collections.abc import Iterable

from . import __version__


def series_of(version: str) -> tuple[int, int] | None:
    """The first two numbers of a version; None where it is none."""
    words = version.split(".")
    return (int(words[0]), int(words[1])) if len(words) >= 2 and words[0].isdecimal() and words[1].isdecimal() else None


def are_far(one: str, other: str) -> bool:
    """Whether hubs of these two versions can't work side by side: their first numbers differ, or their second ones by more than 1."""
    first, second = series_of(one), series_of(other)
    return first is None or second is None or first[0] != second[0] or abs(first[1] - second[1]) > 1


def oldest_of(versions: Iterable[str]) -> str:
    """The oldest one of some versions, of which the second number counts."""
    return min(versions, key=lambda it: series_of(it) or (0, 0))


def age_of(version: str) -> str | None:
    """What another's version is beside this one: `old`, `new`, or None where both work together. What is no version counts as old."""
    found, own = series_of(version), series_of(__version__)
    if found == own:
        return None
    return "new" if found is not None and own is not None and found > own else "old"
