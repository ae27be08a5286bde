"""The addresses of pages. Keys are members of the query, so no path climbs."""
from __future__ import annotations

from urllib.parse import urlencode

from kemtrua.names import Key

from .states import Run


def job(key: str) -> str:
    """The page of a job, by its key as replies print it."""
    found = Key.of_word(key)
    return f"/job?{urlencode({'group': found.group, 'name': found.name})}"


def run(one: Run) -> str:
    return f"/execution/{one.entry}?generation={one.generation}"


def output(one: Run) -> str:
    return f"/output/{one.entry}?generation={one.generation}"


def query(path: str, **members: object) -> str:
    """A path with those members that aren't empty."""
    found = {name: value for name, value in members.items() if value not in ("", None)}
    return f"{path}?{urlencode(found)}" if found else path


def ask(do: str, key: str) -> str:
    found = Key.of_word(key)
    return f"/job/ask?{urlencode({'do': do, 'group': found.group, 'name': found.name})}"


def group_of(key: str) -> str:
    return Key.of_word(key).group


def name_of(key: str) -> str:
    return Key.of_word(key).name
