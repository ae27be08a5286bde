"""Reads files of job_scheduling_data, 1.8 and 2.0."""
from __future__ import annotations

from collections.abc import Iterator, Mapping

from ..names import DEFAULT_GROUP, Key
from . import xml_forms, xml_tree
from .java_zones import JavaZones, NoZone
from .model import BadSource, Cron, Interval, Job, JobData, LeftOut, Remark, Schedule, Simple, Source, Trigger
from .report import Outcome, Told
from .xml_forms import Texts
from .xml_tree import Element

SIMPLE_MISFIRES = {
    "MISFIRE_INSTRUCTION_SMART_POLICY": 0, "MISFIRE_INSTRUCTION_FIRE_NOW": 1, "MISFIRE_INSTRUCTION_RESCHEDULE_NOW_WITH_EXISTING_REPEAT_COUNT": 2,
    "MISFIRE_INSTRUCTION_RESCHEDULE_NOW_WITH_REMAINING_REPEAT_COUNT": 3, "MISFIRE_INSTRUCTION_RESCHEDULE_NEXT_WITH_REMAINING_COUNT": 4,
    "MISFIRE_INSTRUCTION_RESCHEDULE_NEXT_WITH_EXISTING_COUNT": 5,
}
OTHER_MISFIRES = {"MISFIRE_INSTRUCTION_SMART_POLICY": 0, "MISFIRE_INSTRUCTION_FIRE_ONCE_NOW": 1, "MISFIRE_INSTRUCTION_DO_NOTHING": 2}
UNITS = ("SECOND", "MINUTE", "HOUR", "DAY", "WEEK", "MONTH", "YEAR")


def read(paths: list[str], zones: JavaZones, now: int) -> Source:
    """What the files say. `now` is the start of triggers that have none."""
    source = Source(" ".join(paths))
    for path in paths:
        root = xml_tree.read(path)
        xml_forms.check(path, root, xml_forms.version_of(path, root))
        _File(path, zones, now, source).read(root)
    return source


class _File:
    """One file, whose rows come into a source."""

    def __init__(self, path: str, zones: JavaZones, now: int, source: Source):
        self.path, self.zones, self.now, self.source = path, zones, now, source

    def read(self, root: Element) -> None:
        for part in root.children:
            if part.name == "pre-processing-commands":
                self._commands(part)
            elif part.name == "processing-directives":
                self._directives(part)
        for schedule in root.all("schedule"):
            for element in schedule.all("job"):
                self.source.jobs.append(self._job(element))
            for element in schedule.all("trigger"):
                self._trigger(element.children[0])

    def _place(self, element: Element) -> str:
        return f"{self.path}:{element.line}"

    def _commands(self, commands: Element) -> None:
        for command in commands.children:
            of = command.text.strip() or str(self._key(Texts(self.path, command)))
            self.source.remarks.append(Remark(f"command {command.name} {of}", self._place(command), "a document deletes nothing: delete it by `kemtrua delete`"))

    def _directives(self, directives: Element) -> None:
        texts = Texts(self.path, directives)
        told = {"overwrite-existing-data": "a document replaces nothing: `kemtrua add --replace` does",
                "ignore-duplicates": "what is stored already is refused (8 or 7), line by line, and the others are added"}
        for name, why in told.items():
            found = directives.one(name)
            if found is not None and texts.flag(name):
                self.source.remarks.append(Remark(f"directive {name}", self._place(found), why))

    def _key(self, texts: Texts, name: str = "name", group: str = "group") -> Key:
        return Key(texts.element.value(group) or DEFAULT_GROUP, texts.text(name))

    def _data(self, element: Element) -> Mapping[str, object]:
        found = element.one("job-data-map")
        entries = list(found.all("entry")) if found is not None else []
        return {Texts(self.path, entry).text("key"): entry.value("value") for entry in entries}

    def _remarks(self, element: Element, texts: Texts) -> Iterator[Told]:
        if element.value("description"):
            yield Outcome.LESSENED, "its description isn't kept"
        if element.value("job-listener-ref"):
            yield Outcome.LESSENED, f"there are no listeners; it names {element.value('job-listener-ref')!r}"
        if texts.flag("volatility"):
            yield Outcome.CHANGED, "it is volatile, so Quartz forgot it at its end; here it stays stored"

    def _job(self, element: Element) -> Job:
        texts = Texts(self.path, element)
        return Job(self._key(texts), self._place(element), texts.text("job-class"), texts.flag("durability"), None, texts.flag("recover"), None,
                   JobData(self._data(element)), remarks=tuple(self._remarks(element, texts)))

    def _trigger(self, element: Element) -> None:
        texts = Texts(self.path, element)
        key = self._key(texts)
        try:
            found = Trigger(
                key, self._place(element), self._key(texts, "job-name", "job-group"), self._schedule(element, texts), self._start(texts),
                self._moment(texts, "end-time"), priority=texts.whole("priority", 5), calendar=element.value("calendar-name"),
                misfire=self._misfire(element, texts), has_data=bool(self._data(element)), remarks=tuple(self._remarks(element, texts)))
        except NoZone as error:
            self.source.left_out.append(LeftOut(f"trigger {key}", self._place(element), str(error), key))
            return
        self.source.triggers.append(found)

    def _schedule(self, element: Element, texts: Texts) -> Schedule:
        if element.name == "simple":
            return Simple(texts.whole("repeat-interval", 0), texts.whole("repeat-count", 0, -1))
        if element.name == "cron":
            return Cron(texts.text("cron-expression"), element.value("time-zone"))
        unit = texts.text("repeat-interval-unit")
        if unit not in UNITS:
            raise texts.fault("repeat-interval-unit", f"{unit!r} is none of {', '.join(UNITS)}")
        return Interval(unit, texts.whole("repeat-interval", 1), None)

    def _start(self, texts: Texts) -> int:
        moment = self._moment(texts, "start-time")
        return self.now + 1000 * texts.whole("start-time-seconds-in-future", 0) if moment is None else moment

    def _moment(self, texts: Texts, name: str) -> int | None:
        text = texts.element.value(name)
        if text is None:
            return None
        try:
            return self.zones.moment(text)
        except NoZone:
            raise
        except BadSource as error:
            raise texts.fault(name, str(error)) from None
        except ValueError as error:
            raise texts.fault(name, str(error)) from None

    def _misfire(self, element: Element, texts: Texts) -> int:
        allowed = SIMPLE_MISFIRES if element.name == "simple" else OTHER_MISFIRES
        word = element.value("misfire-instruction") or "MISFIRE_INSTRUCTION_SMART_POLICY"
        if word not in allowed:
            raise texts.fault("misfire-instruction", f"{word!r} is none of {', '.join(allowed)}")
        return allowed[word]
