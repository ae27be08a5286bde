"""The hub's lines about what ran: what nodes tell, and what operators ask."""
from __future__ import annotations

import asyncio
import os
import sqlite3
from collections.abc import Callable, Iterator
from dataclasses import dataclass

from ..checking import Line
from ..errors import BadLine, HubRefused
from ..history import questions, shipping
from ..history.apart import Apart
from ..history.outputs import FURTHEST, piece_of
from ..history.questions import Filter, Object, Questions
from ..history.reports import Report
from ..history.schema import FILE, NoHistory
from ..values import Form, Problem, flag, is_whole, items, name, node, text, whole

AT_ONCE = 64  # reports of a line at most
_NUMBER = whole(0, 2**63 - 1)
_LIMIT = whole(1, questions.MOST)
_KEY = text(1, 4096, "a key, as GROUP/NAME")


def _any(value: object, place: str) -> Iterator[Problem]:
    """What is looked at later."""
    return iter(())


def _told_list(value: object, place: str) -> Iterator[Problem]:
    if not isinstance(value, list) or len(value) > AT_ONCE:
        yield Problem(place, f"allowed is a list of {AT_ONCE} reports at most")


def _positions(value: object, place: str) -> Iterator[Problem]:
    if not isinstance(value, list) or len(value) > shipping.KNOWN:
        yield Problem(place, f"allowed is a list of {shipping.KNOWN} positions at most")


def _before(value: object, place: str) -> Iterator[Problem]:
    if not isinstance(value, list) or len(value) != 3 or not all(is_whole(it) and abs(it) < 2**63 for it in value):
        yield Problem(place, "allowed are three numbers of 64 bits: fired, generation and entry of the execution that came last")



OF_NODES: dict[str, Form] = {
    "report": Form({"node": node, "told": _told_list}),
    "output": Form({"node": node, "generation": _NUMBER, "entry": _NUMBER, "from": whole(0, FURTHEST), "data": _any}, {"most": _NUMBER}),
    "load": Form({"node": node, "workers": _NUMBER, "runs": _NUMBER, "skew": whole(-(2**53), 2**53)})}
OF_OPERATORS: dict[str, Form] = {
    "history": Form({}, {"job": _KEY, "node": node, "since": _NUMBER, "until": _NUMBER, "failed": flag, "limit": _LIMIT, "before": _before}),
    "log": Form({"entry": _NUMBER}, {"generation": _NUMBER, "from": whole(0, FURTHEST)}),
    "last": Form({}),
    "events": Form({"since": _NUMBER}, {"kinds": items(name, 1, 20, "kinds"), "job": _KEY, "limit": _LIMIT}),
    "audit": Form({}, {"since": _NUMBER, "by": name, "limit": _LIMIT, "before": _NUMBER}),
    "loads": Form({}),
    "ship": Form({}, {"positions": _positions, "since": _NUMBER}),
    "vacuum": Form({})}
LINES = {**OF_NODES, **OF_OPERATORS}
KINDS = ("failure", "error", "late", "misfired", "expect", "lost", "room", "refused", "gap")


@dataclass(frozen=True)
class Telling:
    """Answers these lines. Whoever asks was looked at before."""

    recorder: Apart

    async def answer(self, line: Line) -> str | bytes:
        do = str(line["do"])
        look_at(line)
        try:
            if do in OF_NODES:
                return await {"report": self._report, "output": self._output, "load": self._load}[do](line)
            if do == "vacuum":
                before, after = await asyncio.to_thread(self.recorder.vacuum)
                return f"vacuumed {before} {after}"
            found = await asyncio.to_thread(answers_in, self.recorder.folder, line)
        except shipping.BadPart as error:
            raise HubRefused("bad-line", str(error)) from None
        except NoHistory as error:
            raise HubRefused("failed", str(error)) from None
        return b"\n".join([b"rows %d" % len(found), *map(questions.line_of, found)])

    # -- what nodes tell

    async def _report(self, line: Line) -> str:
        """Takes reports, each maybe with a piece of output. They are on the disk when it is answered."""
        node_, told = str(line["node"]), line["told"]
        assert isinstance(told, list)
        found = [_told(one) for one in told]  # (all are looked at before one is taken)
        futures = []
        for report, begin, data in found:
            futures.append(self.recorder.report(node_, report))
            if data:
                self.recorder.piece(node_, (report.generation, report.entry), begin, data, report.most)
        kept = await asyncio.gather(*[asyncio.wrap_future(it) for it in futures])
        return f"stored {sum(map(bool, kept))}"

    async def _output(self, line: Line) -> str:
        key, data, most = (_int(line["generation"]), _int(line["entry"])), piece_of(line["data"]), line.get("most")
        kept = await asyncio.wrap_future(self.recorder.piece(str(line["node"]), key, _int(line["from"]), data, None if most is None else _int(most)))
        return f"stored {int(bool(kept))}"

    async def _load(self, line: Line) -> str:
        self.recorder.load(str(line["node"]), _int(line["workers"]), _int(line["runs"]), _int(line["skew"]))
        return "ok"


def look_at(line: Line) -> None:
    """Raises BadLine where a line about what ran has other members than it may."""
    wrong = list(LINES[str(line["do"])]({key: value for key, value in line.items() if key != "do"}, ""))
    if wrong:
        raise BadLine(wrong[:20])


def answers_in(folder: str, line: Line) -> list[Object]:
    """What the database of a hub's folder answers to an operator's line. Raises NoHistory."""
    look_at(line)
    try:
        if line["do"] == "ship":
            positions = line.get("positions", [])
            assert isinstance(positions, list)
            return shipping.told_in(folder, positions, _int(line.get("since", 0)))
        with Questions(folder) as asked:
            return _ANSWERS[str(line["do"])](asked, line)
    except sqlite3.Error as error:
        raise NoHistory(f"{os.path.join(folder, FILE)} can't be read: {error}") from None


def _told(found: object) -> tuple[Report, int, bytes]:
    if not isinstance(found, dict) or not {"report"} <= set(found) <= {"report", "from", "data"}:
        raise BadLine([Problem("told", "each has report, and maybe from and data")])
    wrong = list(whole(0, FURTHEST)(found.get("from", 0), "told.from"))
    if wrong:
        raise BadLine(wrong)
    return Report.of(found["report"]), found.get("from", 0), piece_of(found.get("data", ""))


def _int(value: object) -> int:
    assert isinstance(value, int)
    return value


def _history(asked: Questions, line: Line) -> list[Object]:
    before = line.get("before")
    found = {name_: line.get(name_) for name_ in ("job", "node", "since", "until")}
    three = tuple(before) if isinstance(before, list) and len(before) == 3 else None
    return asked.executions(Filter(**found, failed=bool(line.get("failed")), limit=_int(line.get("limit", questions.MOST)), before=three))  # type: ignore[arg-type]


def _log(asked: Questions, line: Line) -> list[Object]:
    generation = line.get("generation")
    found = asked.execution(_int(line["entry"]), None if generation is None else _int(generation))
    if found is None:
        return []
    return [questions.log_of(found, *asked.output(_int(found["generation"]), _int(found["entry"])), _int(line.get("from", 0)))]


def _audit(asked: Questions, line: Line) -> list[Object]:
    since, by, before = (line.get(name_) for name_ in ("since", "by", "before"))
    return asked.audit(since, by, _int(line.get("limit", questions.MOST)), before)  # type: ignore[arg-type]


def _events(asked: Questions, line: Line) -> list[Object]:
    kinds, job = line.get("kinds", list(KINDS)), line.get("job")
    assert isinstance(kinds, list)
    return asked.events(tuple(kinds), _int(line["since"]), None if job is None else str(job), _int(line.get("limit", questions.MOST)))


_ANSWERS: dict[str, Callable[[Questions, Line], list[Object]]] = {
    "history": _history, "log": _log, "audit": _audit, "events": _events, "last": lambda asked, _: asked.last(),
    "loads": lambda asked, _: asked.nodes()}
