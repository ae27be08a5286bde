"""The tables of Quartz 2.x: which columns each has, and how a value of theirs is written in CSV."""
from __future__ import annotations

from collections.abc import Iterable, Mapping

from .model import BadSource

_TRIGGER_KEY = ("SCHED_NAME", "TRIGGER_NAME", "TRIGGER_GROUP")

TABLES: Mapping[str, tuple[str, ...]] = {
    "JOB_DETAILS": ("SCHED_NAME", "JOB_NAME", "JOB_GROUP", "DESCRIPTION", "JOB_CLASS_NAME", "IS_DURABLE", "IS_NONCONCURRENT", "IS_UPDATE_DATA",
                    "REQUESTS_RECOVERY", "JOB_DATA"),
    "TRIGGERS": (*_TRIGGER_KEY, "JOB_NAME", "JOB_GROUP", "DESCRIPTION", "NEXT_FIRE_TIME", "PREV_FIRE_TIME", "PRIORITY", "TRIGGER_STATE",
                 "TRIGGER_TYPE", "START_TIME", "END_TIME", "CALENDAR_NAME", "MISFIRE_INSTR", "JOB_DATA"),
    "CRON_TRIGGERS": (*_TRIGGER_KEY, "CRON_EXPRESSION", "TIME_ZONE_ID"),
    "SIMPLE_TRIGGERS": (*_TRIGGER_KEY, "REPEAT_COUNT", "REPEAT_INTERVAL", "TIMES_TRIGGERED"),
    "SIMPROP_TRIGGERS": (*_TRIGGER_KEY, "STR_PROP_1", "STR_PROP_2", "STR_PROP_3", "INT_PROP_1", "INT_PROP_2", "LONG_PROP_1", "LONG_PROP_2",
                         "DEC_PROP_1", "DEC_PROP_2", "BOOL_PROP_1", "BOOL_PROP_2"),
    "CALENDARS": ("SCHED_NAME", "CALENDAR_NAME", "CALENDAR"),
    "PAUSED_TRIGGER_GRPS": ("SCHED_NAME", "TRIGGER_GROUP"),
}
# Columns by which tables of other versions are known.
OTHERS = {
    "IS_VOLATILE": "of Quartz 1.x", "IS_STATEFUL": "of Quartz 1.x",
    "TIME_ZONE_ID": "of Quartz.NET", "MISFIRE_ORIG_FIRE_TIME": "of Quartz.NET", "RETRY_COUNT": "of a version after Quartz 2.3",
}
READ = "read are those of Quartz 2.0 to 2.3"


def check_columns(where: str, table: str, columns: Iterable[str]) -> None:
    """Raises BadSource where these aren't the table's columns: by a version that is known, or by what is missing or unknown."""
    found, wanted = set(columns), set(TABLES[table])
    extra = sorted(found - wanted)
    for name in extra:
        if name in OTHERS:
            raise BadSource(f"{where}: it has the column {name}: the tables are {OTHERS[name]}; {READ}")
    missing = [name for name in TABLES[table] if name not in found]
    if "SCHED_NAME" in missing:
        raise BadSource(f"{where}: it has no column SCHED_NAME: the tables are of Quartz 1.x; {READ}")
    if missing:
        raise BadSource(f"{where}: it has no column {missing[0]}; {READ}")
    if extra:
        raise BadSource(f"{where}: it has the column {extra[0]}, which is none of Quartz's; {READ}")


NONE = ("", "\\N")  # (MySQL writes the latter for NULL)


class Row:
    """A row of a table. Names are in capitals; an empty value is none."""

    def __init__(self, where: str, values: Mapping[str, str]):
        self.where, self._values = where, values

    def fault(self, column: str, why: str) -> BadSource:
        return BadSource(f"{self.where}: {column}: {why}")

    def optional(self, column: str) -> str | None:
        found = self._values[column]
        return None if found in NONE else found

    def text(self, column: str) -> str:
        found = self.optional(column)
        if found is None:
            raise self.fault(column, "it is empty")
        return found

    def whole(self, column: str, default: int | None = None) -> int:
        found = self.optional(column)
        if found is None and default is not None:
            return default
        try:
            return int(self.text(column))
        except ValueError:
            raise self.fault(column, f"{found!r} is no whole number") from None

    def optional_whole(self, column: str) -> int | None:
        return None if self.optional(column) is None else self.whole(column)

    def flag(self, column: str) -> bool:
        """A truth value, as the databases print it. An empty one is false, as Quartz reads it."""
        found = (self.optional(column) or "0").lower()
        if found in ("t", "true", "1", "y", "yes"):
            return True
        if found in ("f", "false", "0", "n", "no"):
            return False
        raise self.fault(column, f"{found!r} is neither true nor false")

    def blob(self, column: str) -> bytes:
        """Bytes in hexadecimal, with `\\x` or `0x` before them or without."""
        found = self.optional(column) or ""
        try:
            return bytes.fromhex(found[2:] if found[:2] in ("\\x", "0x", "0X") else found)
        except ValueError:
            raise self.fault(column, r"it isn't in hexadecimal, as \xACED or 0xACED") from None
