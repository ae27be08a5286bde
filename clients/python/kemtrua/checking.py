"""Checks lines and documents before they are sent: which member is wrong, and what is allowed."""
from __future__ import annotations

import json
from collections.abc import Iterator
from itertools import islice

from . import forms, values
from .errors import BadLine
from .values import Problem

LINE_LIMIT = 65536
DOCUMENT_LIMIT = 16777216
DEPTH_LIMIT = 127
TOLD = 20  # problems of a line that are told at most

Line = dict[str, object]


def _whole(digits: str) -> int | float:
    """A whole number. `-0` counts as one with a point."""
    return -0.0 if digits == "-0" else int(digits)


def _real(digits: str) -> float:
    number = float(digits)
    if number in (float("inf"), float("-inf")):
        raise ValueError(f"the number {digits} is too great")
    return number


def _constant(word: str) -> float:
    raise ValueError(f"{word} isn't JSON")


def depth_of(value: object) -> int:
    inner: list[object] = list(value.values()) if isinstance(value, dict) else value if isinstance(value, list) else []
    if not isinstance(value, (dict, list)):
        return 0
    return 1 + max(map(depth_of, inner), default=0)


_DECODER = json.JSONDecoder(parse_float=_real, parse_constant=_constant)
_MINUS_ZERO_DECODER = json.JSONDecoder(parse_int=_whole, parse_float=_real, parse_constant=_constant)  # (which is slower)
_ENCODER = json.JSONEncoder(separators=(",", ":"))


def _is_deep(data: bytes, value: object) -> bool:
    return data.count(b"[") + data.count(b"{") > DEPTH_LIMIT and depth_of(value) > DEPTH_LIMIT


def value_of(data: bytes) -> object:
    """The JSON value of these bytes. Raises BadLine where they are none."""
    try:
        text = data.decode()
        value: object = (_MINUS_ZERO_DECODER if "-0" in text else _DECODER).decode(text)
        if "\\u" in text:
            json.dumps(value, ensure_ascii=False).encode()  # (half of a surrogate pair is no text)
        if _is_deep(data, value):
            raise ValueError(f"arrays and objects nest deeper than {DEPTH_LIMIT}")
    except UnicodeEncodeError:
        raise BadLine([Problem("", "not JSON: a text has half of a surrogate pair")]) from None
    except UnicodeDecodeError as error:
        raise BadLine([Problem("", f"not JSON: byte {error.start} isn't UTF-8")]) from None
    except RecursionError:
        raise BadLine([Problem("", f"not JSON: arrays and objects nest deeper than {DEPTH_LIMIT}")]) from None
    except ValueError as error:
        raise BadLine([Problem("", f"not JSON: {error}")]) from None
    return value


def problems_of(line: object) -> Iterator[Problem]:
    """What is wrong with a line of a script."""
    if not isinstance(line, dict):
        yield Problem("", f"{values.shown(line)} is no object; a line is one, with the member do")
    elif "do" not in line:
        yield Problem("do", f"it is missing; allowed are {', '.join(forms.LINES)}")
    elif not isinstance(line["do"], str) or line["do"] not in forms.LINES:
        yield Problem("do", f"{values.shown(line['do'])} is no line; allowed are {', '.join(forms.LINES)}")
    else:
        yield from forms.LINES[line["do"]]({key: value for key, value in line.items() if key != "do"}, "")


def check(line: object) -> Line:
    """The line, if it is a step. Raises BadLine with the first problems where it is none."""
    wrong = list(islice(problems_of(line), TOLD + 1))
    if wrong:
        raise BadLine([*wrong[:TOLD], *(["and more"] if len(wrong) > TOLD else [])])
    assert isinstance(line, dict)
    return line


def bytes_of(line: Line) -> bytes:
    """The bytes of a line, with its line feed. Raises BadLine where it is too long."""
    data = _ENCODER.encode(line).encode()
    if len(data) > LINE_LIMIT:
        data = json.dumps(line, separators=(",", ":"), ensure_ascii=False).encode()
    if len(data) > LINE_LIMIT:
        raise BadLine([Problem("", f"the line has {len(data)} bytes; allowed are {LINE_LIMIT}")])
    return data + b"\n"


def check_line(line: Line) -> bytes:
    """The bytes of a line that is a step, with its line feed. Raises BadLine where it is none."""
    return bytes_of(check(line))


def read_line(data: bytes) -> Line:
    """The line of these bytes, which have no line feed. Raises BadLine where they are no step."""
    if len(data) > LINE_LIMIT:
        raise BadLine([Problem("", f"the line has {len(data)} bytes; allowed are {LINE_LIMIT}")])
    return check(value_of(data))


def check_document(value: object) -> Iterator[Problem]:
    """What is wrong with a document. A row's name stands after its place."""
    for problem in forms.DOCUMENT(value, ""):
        yield Problem(_named(value, problem.place), problem.text)


def _named(document: object, place: str) -> str:
    kind, _, rest = place.partition("[")
    number, _, member = rest.partition("]")
    if not rest or not isinstance(document, dict):
        return place
    item = document[kind][int(number)]
    name = item.get("name") if isinstance(item, dict) else None
    return f"{kind}[{number}] ({values.shown(name)}){member}" if name is not None else place


def is_document(value: object) -> bool:
    return isinstance(value, dict) and "do" not in value


def lines_of(document: Line) -> list[Line]:
    """The lines that ask for what a document says, in the order in which `load` does it."""
    at = {"at": document["at"]} if "at" in document else {}
    found: list[Line] = [{"do": "threshold", "ms": document["threshold"], **at}] if "threshold" in document else []
    found += [{"do": "add_zone", **zone, **at} for zone in document.get("zones", [])]  # type: ignore[attr-defined]
    for kind in ("calendar", "job", "trigger"):
        found += [{"do": f"add_{kind}", kind: item, **at} for item in document.get(f"{kind}s", [])]  # type: ignore[attr-defined]
    return found
