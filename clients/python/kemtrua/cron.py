"""Whether a text is a cron text, and if not, its first fault: the number that the scheduler gives it, and words for people."""
from __future__ import annotations

import re
from dataclasses import dataclass

MONTHS = "JAN FEB MAR APR MAY JUN JUL AUG SEP OCT NOV DEC".split()
WEEKDAYS = "SUN MON TUE WED THU FRI SAT".split()


@dataclass(frozen=True)
class Field:
    number: int
    name: str
    low: int
    high: int
    names: tuple[str, ...] = ()

    @property
    def value(self) -> str:
        """The form of a value: digits, or a name of the field."""
        return "(?:" + "|".join([r"[0-9]{1,4}", *self.names]) + ")"

    def number_of(self, value: str) -> int:
        return self.names.index(value) + self.low if value in self.names else int(value)

    @property
    def allowed(self) -> str:
        return f"{self.low} to {self.high}" + (f" or {self.names[0]} to {self.names[-1]}" if self.names else "")


FIELDS = (
    Field(1, "seconds", 0, 59),
    Field(2, "minutes", 0, 59),
    Field(3, "hours", 0, 23),
    Field(4, "day of the month", 1, 31),
    Field(5, "month", 1, 12, tuple(MONTHS)),
    Field(6, "day of the week", 1, 7, tuple(WEEKDAYS)),
    Field(7, "year", 1970, 2199),
)
DAY, WEEKDAY, YEAR = 4, 6, 7


@dataclass(frozen=True)
class CronFault:
    number: int
    name: str
    text: str

    def __str__(self) -> str:
        return f"{self.text} (bad cron {self.number}, {self.name})"


def _out_of_range(field: Field, what: str, value: int | str, allowed: str) -> CronFault:
    return CronFault(3, "OutOfRange", f"field {field.number} ({field.name}): {what} {value} isn't {allowed}")


def _value_fault(field: Field, *values: str) -> CronFault | None:
    for value in values:
        if not field.low <= field.number_of(value) <= field.high:
            return _out_of_range(field, "the value", value, field.allowed)
    return None


def _day_fault(field: Field, element: str) -> tuple[bool, CronFault | None]:
    """Whether the element is a further one of the day of the month, which must be alone, and its fault."""
    if element in ("?", "L", "LW"):
        return True, None
    if found := re.fullmatch(r"L-([0-9]{1,4})", element):
        back = int(found[1])
        return True, None if back <= 30 else _out_of_range(field, "the days before the last", back, "0 to 30")
    if found := re.fullmatch(r"([0-9]{1,4})W", element):
        return True, _value_fault(field, found[1])
    return False, None


def _weekday_fault(field: Field, element: str) -> tuple[bool, CronFault | None]:
    """The same of the day of the week."""
    if element in ("?", "L"):
        return True, None
    if found := re.fullmatch(f"({field.value})L", element):
        return True, _value_fault(field, found[1])
    if found := re.fullmatch(f"({field.value})#([0-9]{{1,4}})", element):
        which = int(found[2])
        wrong = None if 1 <= which <= 5 else _out_of_range(field, "the number after #", which, "1 to 5")
        return True, _value_fault(field, found[1]) or wrong
    return False, None


def _plain_fault(field: Field, element: str) -> CronFault | None:
    """The fault of an element of the forms that each field has."""
    found = re.fullmatch(f"(?:[*]?|({field.value})(?:-({field.value}))?)(?:/([0-9]{{1,4}}))?", element)
    if not found or element == "":
        shown = repr(element) if element else "an empty element"
        return CronFault(2, "BadToken", f"field {field.number} ({field.name}): {shown} has none of the forms of this field")
    first, last, step = found.groups()
    wrong = _value_fault(field, *(value for value in (first, last) if value is not None))
    if field.number == YEAR and last is not None and first is not None:
        start = int(first)
        if not field.low <= start <= field.high or start > int(last):
            return _out_of_range(field, "the range from", first, f"{field.allowed}, and not after its last year")
    if wrong:
        return wrong
    if step is not None and not 1 <= int(step) <= 59:
        return CronFault(6, "BadStep", f"field {field.number} ({field.name}): the step {step} isn't 1 to 59")
    return None


def _field_fault(field: Field, text: str) -> CronFault | None:
    elements, alone = text.split(","), False
    for element in elements:
        special, wrong = False, None
        if field.number == DAY:
            special, wrong = _day_fault(field, element)
        elif field.number == WEEKDAY:
            special, wrong = _weekday_fault(field, element)
        if wrong := wrong if special else _plain_fault(field, element):
            return wrong
        alone = alone or special
    if alone and len(elements) > 1:
        return CronFault(7, "NotAlone", f"field {field.number} ({field.name}): {text} has an element that must be alone; write two triggers")
    return None


def fault_of(text: str) -> CronFault | None:
    """The first fault of the text, or None where it is a cron text."""
    fields = [part for part in re.split(r"[ \t]+", text.upper()) if part]
    if len(fields) not in (6, 7):
        hint = "; put the seconds first, a Unix crontab has none" if len(fields) == 5 else ""
        return CronFault(1, "FieldCount", f"it has {len(fields)} fields, and not six or seven{hint}")
    for field, part in zip(FIELDS, fields):
        if wrong := _field_fault(field, part):
            return wrong
    open_days = [fields[DAY - 1] == "?", fields[WEEKDAY - 1] == "?"]
    if not any(open_days):
        return CronFault(4, "BothDays", "the day of the month and the day of the week are both given: write ? for one of them")
    if all(open_days):
        return CronFault(5, "NoDays", "the day of the month and the day of the week are both ?: write * for one of them")
    return None
