"""One execution: what happened, its output, and the chain where it was lost and run again."""
from __future__ import annotations

import re
from typing import Any

from ..moments import span
from ..queries import History, usual_of
from ..safety import Refused
from ..site import Looked
from ..states import Run, how, shown

LINE, LINES = 4096, 3000  # characters of a line and lines of the output that a page shows
ESCAPES = re.compile(r"\x1b(?:\[[0-?]*[ -/]*[@-~]|\][^\x07\x1b]*(?:\x07|\x1b\\)|[@-Z\\-_])")
CHAIN = 20  # executions of a chain


def found_run(history: History, query: dict[str, str] | Any) -> Run:
    generation = query.get("generation", "")
    if generation and not (generation.isascii() and generation.isdigit() and len(generation) < 19):
        raise Refused(404, "There is no such execution")
    run = history.run(int(query["entry"]), int(generation) if generation else None)
    if run is None or run.fired is None:
        raise Refused(404, "There is no such execution", f"Entry {query['entry']} isn't in the history, or it wasn't fired.",
                      "What is older than the history keeps, isn't known any more.")
    return run


def page(looked: Looked) -> tuple[str, dict[str, Any]]:
    run = found_run(looked.history, looked.query)
    recent = looked.history.recent(run.job) if run.job is not None else [run]
    usual = usual_of(recent)
    state = shown(run, usual, looked.clock.present)
    end, data, told = looked.history.output(run)
    before, after = looked.history.beside(run)
    return "execution", {
        "tab": "executions", "live": run.state == "runs", "run": run, "state": state, "usual": usual, "how": how(run),
        "lines": lines_of(data), "end": end,
        "cut": max(end - len(data), 0), "told": told, "before": before, "after": after, "chain": _chain(looked.history, run),
        "recent": [(one, shown(one, usual, looked.clock.present)) for one in recent[:8]], "lasted": run.lasted(looked.clock.present),
        "limit_at": run.fired + run.most if run.most is not None and run.fired is not None else None, "span": span}


def _chain(history: History, run: Run) -> list[Run]:
    """The lost executions before this one, and those that made up for it, in their order."""
    chain = [run]
    while chain[0].recovers is not None and len(chain) < CHAIN:
        before = history.run(chain[0].recovers, chain[0].generation)
        if before is None:
            break
        chain.insert(0, before)
    while chain[-1].state == "lost" and len(chain) < CHAIN:
        after = history.made_up_by(chain[-1])
        if after is None or after in chain:
            break
        chain.append(after)
    return chain if len(chain) > 1 or run.state == "lost" else []


def lines_of(data: bytes) -> list[str]:
    """An output as lines of text: colours are dropped, what can't be seen is shown as a sign, and long lines are cut."""
    text = ESCAPES.sub("", data.decode("utf-8", "replace").replace("\r\n", "\n"))
    lines = text.split("\n")
    if lines and not lines[-1]:
        lines.pop()
    return [_harmless(line) for line in lines[-LINES:]]


def _harmless(line: str) -> str:
    cut = line if len(line) <= LINE else line[:LINE] + " …"
    return "".join(_sign(letter) for letter in cut)


def _sign(letter: str) -> str:
    code = ord(letter)
    if letter == "\t" or code >= 0x20 and code not in (0x7F, 0x200B, 0x200E, 0x200F, 0x2028, 0x2029, 0xFEFF) and not 0x80 <= code < 0xA0 \
            and not 0x202A <= code <= 0x202E and not 0x2066 <= code <= 0x2069:
        return letter
    return chr(0x2400 + code) if code < 0x20 else "\u2421" if code == 0x7F else "\ufffd"


def saved(folder: str, query: dict[str, str]) -> bytes:
    """The output as it is, to be saved."""
    with History(folder) as history:
        return history.output(found_run(history, query))[1]
