"""Loggers whose lines stay lines: whatever names, classes and output say, no line of a log can be forged by them."""
from __future__ import annotations

import logging
import re
import sys

_CONTROL = re.compile(r"[\x00-\x08\x0a-\x1f\x7f-\x9f\u2028\u2029\ud800-\udfff]")


def one_line(text: str) -> str:
    """The text with each control character, but for tabs, as Python writes it in a literal."""
    return _CONTROL.sub(lambda found: found[0].encode("unicode_escape").decode(), text)


class _OneLine(logging.Filter):
    def filter(self, record: logging.LogRecord) -> bool:
        record.msg, record.args = one_line(record.getMessage()), ()
        return True


def to_stderr(level: int | str) -> None:
    """Has all that is logged from this level on written to standard error."""
    logging.basicConfig(stream=sys.stderr, level=level, format="%(asctime)s %(levelname)s %(message)s")


def logger(name: str) -> logging.Logger:
    """The logger of this name. Each of its records is one line, but for the traceback of an exception."""
    found = logging.getLogger(name)
    if not any(isinstance(it, _OneLine) for it in found.filters):
        found.addFilter(_OneLine())
    return found
