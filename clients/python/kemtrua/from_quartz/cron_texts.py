"""Cron texts of Quartz, written so that they say here what they say there."""
from __future__ import annotations

import re
from dataclasses import dataclass

from .. import cron
from .report import Outcome, Told

NAMED_FIELDS = (4, 5)  # the places of months and weekdays
_NAME = "[A-Z]{3}"


@dataclass(frozen=True)
class CronText:
    text: str
    remarks: tuple[Told, ...] = ()


def as_here(text: str) -> CronText:
    """The text with what Quartz passes over left out, and what else differs. It may still have a fault."""
    fields = text.upper().split()
    remarks: list[Told] = []
    for place in range(len(fields)):
        fields[place], told = _field(fields[place], place in NAMED_FIELDS)
        remarks += told
    written = " ".join(fields)
    if len(fields) > 3 and re.fullmatch("(29|30|31)W", fields[3]) and not cron.fault_of(written):
        remarks.append((Outcome.CHANGED, f"{fields[3]}: Quartz fires in some of the months without that day, too; here such a month has none"))
    return CronText(written if remarks or written != " ".join(text.upper().split()) else text, tuple(remarks))


def _field(field: str, is_named: bool) -> tuple[str, list[Told]]:
    remarks: list[Told] = []
    elements = field.split(",")
    for place, element in enumerate(elements):
        named = re.fullmatch(f"({_NAME}(?:-{_NAME})?)/[0-9]+", element)
        zero = re.fullmatch(r"([*]|[0-9]+)/0+", element)
        if is_named and named:
            elements[place] = named[1]
            remarks.append((Outcome.REWRITTEN, f"{element}: Quartz passes over the step behind a name; it is written as {named[1]}"))
        elif zero:
            elements[place] = zero[1]
            remarks.append((Outcome.REWRITTEN, f"{element}: Quartz reads it as {zero[1]}, and so it is written"))
    return ",".join(elements), remarks
