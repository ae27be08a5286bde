"""Cron texts in words. A text that has no plain words is told as it is, never guessed."""
from __future__ import annotations

import re

WEEKDAYS = {"SUN": "Sunday", "MON": "Monday", "TUE": "Tuesday", "WED": "Wednesday", "THU": "Thursday", "FRI": "Friday", "SAT": "Saturday"}
MONTHS = ("January February March April May June July August September October November December").split()
MONTH_NAMES = "JAN FEB MAR APR MAY JUN JUL AUG SEP OCT NOV DEC".split()
ANY = ("*", "?")
ORDINALS = {1: "first", 2: "second", 3: "third", 4: "fourth", 5: "fifth"}


def ordinal(count: int) -> str:
    ending = "th" if 10 <= count % 100 <= 20 else {1: "st", 2: "nd", 3: "rd"}.get(count % 10, "th")
    return f"{count}{ending}"


def listed(words: list[str]) -> str:
    return words[0] if len(words) == 1 else f"{', '.join(words[:-1])} and {words[-1]}"


def words_of(text: str) -> str | None:
    """What a cron text says, as `at 02:00 each day`; None where it has no plain words."""
    fields = text.upper().split()
    if len(fields) not in (6, 7):
        return None
    seconds, minutes, hours, days, months, weekdays = fields[:6]
    time, date = _time(seconds, minutes, hours), _date(days, weekdays)
    month, year = _months(months), _year(fields[6] if len(fields) == 7 else "*")
    if time is None or date is None or month is None or year is None:
        return None
    if date == "each day" and time.startswith("each "):
        date = ""
    return " ".join(part for part in (time, date, month, year) if part)


def _time(seconds: str, minutes: str, hours: str) -> str | None:
    if re.fullmatch(r"[\d,]+", hours) and minutes.isdigit() and seconds.isdigit():
        tail = f":{int(seconds):02}" if int(seconds) else ""
        return "at " + listed([f"{int(hour):02}:{int(minutes):02}{tail}" for hour in hours.split(",")])
    if seconds.isdigit() and int(seconds) == 0:
        return _of_minutes(minutes, hours)
    if minutes == "*" and hours == "*" and (found := re.fullmatch(r"(?:0|\*)/(\d+)", seconds)):
        return f"each {int(found[1])} seconds"
    return None


def _of_minutes(minutes: str, hours: str) -> str | None:
    inside = _hours(hours)
    if inside is None:
        return None
    if minutes == "*" or re.fullmatch(r"(?:0|\*)/1", minutes):
        return f"each minute{inside}"
    if found := re.fullmatch(r"(?:0|\*)/(\d+)", minutes):
        return f"each {int(found[1])} minutes{inside}" if 60 % int(found[1]) == 0 else None
    if minutes.isdigit() and hours == "*":
        return "each hour" if int(minutes) == 0 else f"each hour at {int(minutes)} past"
    if minutes.isdigit() and (found := re.fullmatch(r"(?:0|\*)/(\d+)", hours)) and 24 % int(found[1]) == 0:
        return f"each {int(found[1])} hours at {int(minutes)} past" if int(minutes) else f"each {int(found[1])} hours"
    if minutes.isdigit() and (found := re.fullmatch(r"(\d+)-(\d+)", hours)):
        return f"each hour from {int(found[1]):02}:{int(minutes):02} to {int(found[2]):02}:{int(minutes):02}"
    return None


def _hours(hours: str) -> str | None:
    if hours == "*":
        return ""
    if found := re.fullmatch(r"(\d+)-(\d+)", hours):
        return f" from {int(found[1]):02}:00 to {int(found[2]):02}:59"
    return None


def _date(days: str, weekdays: str) -> str | None:
    if days in ANY and weekdays in ANY:
        return "each day"
    if days in ANY:
        return _weekdays(weekdays)
    if weekdays not in ANY:
        return None
    if days == "L":
        return "on the last day of the month"
    if days == "LW":
        return "on the last weekday of the month"
    if found := re.fullmatch(r"L-(\d+)", days):
        return f"{int(found[1])} days before the last day of the month"
    if found := re.fullmatch(r"(\d+)W", days):
        return f"on the weekday nearest to the {ordinal(int(found[1]))}"
    if re.fullmatch(r"[\d,]+", days):
        return f"on the {listed([ordinal(int(day)) for day in days.split(',')])} of the month"
    return None


def _weekday(text: str) -> str | None:
    if text.isdigit():
        names = list(WEEKDAYS.values())
        return names[int(text) - 1] if 1 <= int(text) <= 7 else None
    return WEEKDAYS.get(text)


def _weekdays(text: str) -> str | None:
    if found := re.fullmatch(r"(\w+)#(\d)", text):
        name = _weekday(found[1])
        return None if name is None or int(found[2]) not in ORDINALS else f"on the {ORDINALS[int(found[2])]} {name} of the month"
    if found := re.fullmatch(r"(\w+)L", text):
        name = _weekday(found[1])
        return None if name is None else f"on the last {name} of the month"
    if found := re.fullmatch(r"(\w+)-(\w+)", text):
        first, last = _weekday(found[1]), _weekday(found[2])
        return None if first is None or last is None else f"{first} to {last}"
    names = [_weekday(one) for one in text.split(",")]
    return None if None in names else "each " + listed([str(name) for name in names])


def _months(text: str) -> str | None:
    if text in ANY:
        return ""
    names = [MONTHS[int(one) - 1] if one.isdigit() and 1 <= int(one) <= 12 else
             MONTHS[MONTH_NAMES.index(one)] if one in MONTH_NAMES else None for one in text.split(",")]
    return None if None in names else "in " + listed([str(name) for name in names])


def _year(text: str) -> str | None:
    if text in ANY:
        return ""
    return f"in {text}" if text.isdigit() else None
