"""Which elements a file of job_scheduling_data has, by the schemas 1.8 and 2.0, and what their texts may be."""
from __future__ import annotations

import re
from collections.abc import Mapping, Sequence
from dataclasses import dataclass
from enum import Enum

from .model import BadSource
from .xml_tree import Element

SPACE = "http://www.quartz-scheduler.org/xml/JobSchedulingData"
ROOT = "job-scheduling-data"
OLD_ROOTS = {"quartz": "the schema of Quartz 1.x (job_scheduling_data 1.5 or before)"}
MANY = 2**31


class Version(Enum):
    V1_8 = "1.8"
    V2_0 = "2.0"


@dataclass(frozen=True)
class Part:
    """An element that may stand at a place. `together` names those that come with it or not at all."""

    name: str
    least: int = 0
    most: int = 1
    together: tuple[str, ...] = ()


@dataclass(frozen=True)
class Form:
    """The elements in an element, in their order, or (`is_mixed`) in any order. No parts: it has a text."""

    parts: tuple[Part, ...] = ()
    is_mixed: bool = False


_KEY = Form((Part("name", 1), Part("group")))
_DATA = Form((Part("entry", 0, MANY),))
_TEXT = Form()


def _job(version: Version) -> Form:
    flags = ("volatility", "durability", "recover") if version is Version.V1_8 else ("durability", "recover")
    listener = (Part("job-listener-ref"),) if version is Version.V1_8 else ()
    return Form((Part("name", 1), Part("group"), Part("description"), Part("job-class", 1), *listener,
                 *(Part(flag, together=flags) for flag in flags), Part("job-data-map")))


def _trigger(version: Version, *own: Part) -> Form:
    is_old = version is Version.V1_8
    starts = (Part("start-time"),) if is_old else (Part("start-time"), Part("start-time-seconds-in-future"))
    return Form((Part("name", 1), Part("group"), Part("description"), Part("job-name", 1), Part("job-group"), *(() if is_old else (Part("priority"),)),
                 Part("calendar-name"), *((Part("volatility"),) if is_old else ()), Part("job-data-map"), *starts, Part("end-time"),
                 Part("misfire-instruction"), *own))


def forms_of(version: Version) -> Mapping[str, Form]:
    """The form of each element, by its path; `trigger/*` stands for the kinds."""
    interval = "date-interval" if version is Version.V1_8 else "calendar-interval"
    repeats = ("repeat-count", "repeat-interval")
    return {
        ROOT: Form((Part("pre-processing-commands", 0, MANY), Part("processing-directives", 0, MANY), Part("schedule", 0, MANY)), True),
        "pre-processing-commands": Form((Part("delete-jobs-in-group", 0, MANY), Part("delete-triggers-in-group", 0, MANY),
                                         Part("delete-job", 0, MANY), Part("delete-trigger", 0, MANY)), True),
        "delete-job": _KEY,
        "delete-trigger": _KEY,
        "processing-directives": Form((Part("overwrite-existing-data"), Part("ignore-duplicates"))),
        "schedule": Form((Part("job", 0, MANY), Part("trigger", 0, MANY)), True),
        "job": _job(version),
        "trigger": Form((Part("simple"), Part("cron"), Part(interval)), True),
        "simple": _trigger(version, *(Part(name, together=repeats) for name in repeats)),
        "cron": _trigger(version, Part("cron-expression", 1), Part("time-zone")),
        interval: _trigger(version, Part("repeat-interval", 1), Part("repeat-interval-unit", 1)),
        "job-data-map": _DATA,
        "entry": Form((Part("key", 1), Part("value", 1))),
    }


def version_of(path: str, root: Element) -> Version:
    """The schema that a file names, and the newest one where it names none. Raises BadSource where it is none of these."""
    if root.name in OLD_ROOTS:
        raise BadSource(f"{path}: line {root.line}: the root is <{root.name}>: {OLD_ROOTS[root.name]}; read are 1.8 and 2.0")
    if root.name != ROOT:
        raise BadSource(f"{path}: line {root.line}: the root is <{root.name}>, and not <{ROOT}>: it is no file of job_scheduling_data")
    if root.space != SPACE:
        raise BadSource(f"{path}: line {root.line}: the namespace of <{ROOT}> is {root.space or 'none'!r}; of the schemas 1.8 and 2.0 it is {SPACE!r}")
    named = root.attributes.get("version", Version.V2_0.value).strip()
    try:
        return Version(named)
    except ValueError:
        raise BadSource(f"{path}: line {root.line}: the version is {named!r}; read are {' and '.join(one.value for one in Version)}") from None


def check(path: str, root: Element, version: Version) -> None:
    """Raises BadSource at the first element that the schema doesn't have there."""
    _check(path, root, forms_of(version), version)


def _check(path: str, element: Element, forms: Mapping[str, Form], version: Version) -> None:
    form = forms.get(element.name, _TEXT)
    where = f"{path}: line {element.line}: <{element.name}>"
    if form.parts and element.text.strip():
        raise BadSource(f"{where} has a text, {element.text.strip()[:40]!r}, where only elements may be")
    known = {part.name: place for place, part in enumerate(form.parts)}
    last = 0
    for child in element.children:
        place = known.get(child.name)
        if place is None or child.space != SPACE:
            allowed = ", ".join(known) or "a text alone"
            raise BadSource(f"{path}: line {child.line}: <{child.name}> can't be in <{element.name}> by the schema {version.value}; allowed: {allowed}")
        if place < last and not form.is_mixed:
            raise BadSource(f"{path}: line {child.line}: <{child.name}> can't come behind <{form.parts[last].name}> in <{element.name}>")
        last = place
        _check(path, child, forms, version)
    _check_counts(where, element, form.parts)


def _check_counts(where: str, element: Element, parts: Sequence[Part]) -> None:
    counts = {part.name: len(list(element.all(part.name))) for part in parts}
    for part in parts:
        if counts[part.name] < part.least:
            raise BadSource(f"{where} has no <{part.name}>")
        if counts[part.name] > part.most:
            raise BadSource(f"{where} has {counts[part.name]} <{part.name}>, of at most {part.most}")
        missing = [name for name in part.together if not counts[name]]
        if counts[part.name] and missing:
            raise BadSource(f"{where} has <{part.name}> without <{missing[0]}>; by the schema they come together")
    if element.name == "trigger" and len(element.children) != 1:
        raise BadSource(f"{where} has {len(element.children)} elements; one kind of trigger belongs in it")
    if counts.get("start-time") and counts.get("start-time-seconds-in-future"):
        raise BadSource(f"{where} has both <start-time> and <start-time-seconds-in-future>")


class Texts:
    """The texts of an element's elements, each read as its type, with the line where it isn't right."""

    def __init__(self, path: str, element: Element):
        self.path, self.element = path, element

    def fault(self, name: str, why: str) -> BadSource:
        found = self.element.one(name) or self.element
        return BadSource(f"{self.path}: line {found.line}: <{name}>: {why}")

    def text(self, name: str) -> str:
        found = self.element.value(name)
        if found is None:
            raise self.fault(name, "it is empty")
        return found

    def flag(self, name: str, default: bool = False) -> bool:
        found = self.element.value(name)
        if found is None:
            return default
        if found not in ("true", "false", "1", "0"):
            raise self.fault(name, f"{found!r} is neither true nor false")
        return found in ("true", "1")

    def whole(self, name: str, default: int, low: int = 0) -> int:
        found = self.element.value(name)
        if found is None:
            return default
        if not re.fullmatch(r"[+-]?\d{1,19}", found) or int(found) < low:
            raise self.fault(name, f"{found!r} is no whole number from {low} on")
        return int(found)
