"""What a node tells of an execution: how it ended, as an object of JSON."""
from __future__ import annotations

from dataclasses import asdict, dataclass, fields
from typing import Any

from ..errors import BadLine
from ..values import Problem, is_whole

OUTPUT = 65536  # bytes of output that are kept of an execution: its end
PIECE = 32768  # bytes of output that go in one line
LONGEST_TEXT = 2048  # characters of a report's texts
_MOST = 2**63 - 1


@dataclass(frozen=True)
class Report:
    """How an execution ended on its node. `ok`: as its class expects. Spans and moments are in ms, `cpu` is processor time, and `peak` is in KiB."""

    generation: int
    entry: int
    epoch: int
    trigger: str
    job: str
    klass: str
    scheduled: int
    fired: int
    ended: int
    refires: int
    ok: int
    code: str
    status: int | None = None
    signal: int | None = None
    ms: int | None = None
    cpu: int | None = None
    peak: int | None = None
    why: str | None = None
    most: int | None = None

    def members(self) -> dict[str, object]:
        return {name: value for name, value in asdict(self).items() if value is not None}

    @classmethod
    def of(cls, found: object) -> Report:
        """The report of these members. Raises BadLine where they are none."""
        if not isinstance(found, dict):
            raise BadLine([Problem("report", "it is no object")])
        wrong = [Problem(f"report.{name}", "there is no such member") for name in found if name not in _TYPES]
        for name, (kind, is_needed) in _TYPES.items():
            value: Any = found.get(name)
            if value is None and not is_needed and name not in found:
                continue
            if kind == "text" and (not isinstance(value, str) or len(value) > LONGEST_TEXT):
                wrong.append(Problem(f"report.{name}", f"allowed is a text of {LONGEST_TEXT} characters at most"))
            elif kind == "number" and (not isinstance(value, int) or not is_whole(value) or not -_MOST <= value <= _MOST):
                wrong.append(Problem(f"report.{name}", "allowed is a whole number of 64 bits"))
        if wrong:
            raise BadLine(wrong[:20])
        return cls(**found)


_TYPES = {field.name: ("text" if str(field.type).startswith("str") else "number", "None" not in str(field.type)) for field in fields(Report)}
