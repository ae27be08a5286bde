"""What has to hold of a call of `serve`, read from its stores by the pages of the specification and from the lines that it wrote."""
import os
import re
import subprocess

from stores import journal, records

TRIGGERS, STATES = "qz-triggers.store", "qz-states.store"
LINE = re.compile(r"(\d+) (-?\d+) (\S+) (\S+) (.*)")
ALLOWED = {"join", "leave", "misfires", "acquire", "fire", "complete", "release", "recover"}
ENDS_TRIGGER = {"SET_TRIGGER_ERROR", "DELETE_TRIGGER"}  # what the program's jobs ask for besides NOOP and RE_EXECUTE_JOB
INTERVAL = 15000  # ms, with which nodes check in


class Wrong(Exception):
    """A law wasn't kept."""


def need(holds, what):
    if not holds:
        raise Wrong(what)


def times_of(trigger):
    return [trigger["start"] + number * trigger["interval"] for number in range(trigger["count"] + 1)]


def check_firings(document, fired, nodes):
    """That each trigger fired once at each of its times, in their order. Where its job ends it, it fired at the first, and further only while other nodes executed that."""
    found = {trigger["name"]: [] for trigger in document["triggers"]}
    for name, moment in fired:
        found[name].append(moment)
    for trigger in document["triggers"]:
        name, times = trigger["name"], times_of(trigger)
        is_ended = trigger["job"].partition("-")[0] in ("fail", "last")
        least, most = (1, len(times) if nodes > 1 else 1) if is_ended else (len(times), len(times))
        count = len(found[name])
        need(found[name] == times[:count] and least <= count <= most, f"{name} of {trigger['job']} fired for {found[name]}, and its times are {times}")


def call(program, folder, *words, text=""):
    return subprocess.run([program, *words], cwd=folder, input=text, capture_output=True, text=True, timeout=120)


def records_of(folder, name, read):
    payloads, _, header = journal.payloads_of(os.path.join(folder, name))
    return [read(payload) for _, payload in payloads if not journal.is_part(header.kind, payload)]


def check_entries(added, names, until, span):
    """Which entries there are, who gave them, what they ask for, and when."""
    moment = 0
    for record, (_, at, actor, word, _) in added:
        need(record.word in ALLOWED and record.word == word, f"{record.word}, told as {word}")
        need((record.named["node"] if word == "join" else record.node) in names, f"{record} by another node")
        need(word == "join" or actor == f"{record.node}:{record.epoch}", f"{record} was told of {actor}")
        if word == "acquire":
            need(record.named["no_later"] <= until and record.named["window"] == 0 and record.named["max"] == 1, f"{record}")
        need(span[0] <= record.at <= span[1], f"{record} at a moment that the clock can't have shown")
        need(moment <= int(at), f"the moment fell to {at}")
        moment = int(at)


class Row:
    """A fired row: a trigger that a node has acquired for a time, or executes."""

    def __init__(self, node, name, time_):
        self.node, self.name, self.time, self.executes = node, name, time_, False


def free(rows, is_freed):
    """Deletes the rows of triggers that are acquired and that this holds of."""
    for number in [number for number, row in rows.items() if not row.executes and is_freed(row)]:
        del rows[number]


def check_executions(document, added):
    """That each node has one fired row at a time, that what began ended by the same node, and that no job that may not ran twice at once. Gives what was fired.

    A Fire of a job that may not run twice at once frees what other nodes have acquired of that job; a Complete that ends its trigger frees that one. Their nodes' Fires
    are refused then, and what is refused isn't in a history."""
    alone = {job["name"] for job in document["jobs"] if job["no_concurrent"]}
    job_of = {trigger["name"]: trigger["job"] for trigger in document["triggers"]}
    rows, fired = {}, []
    for record, (_, _, _, word, reply) in added:
        if word == "acquire" and reply != "acquired none":
            number, key, time_ = reply.split()[1:4]
            name = key.partition("/")[2]
            need(record.node not in {row.node for row in rows.values()}, f"{record.node} acquired {number} and has a row")
            need(name not in {row.name for row in rows.values() if not row.executes}, f"{number} is a second row of {name}")
            rows[number] = Row(record.node, name, int(time_))
        elif word in ("fire", "complete"):
            number = str(record.named["entry"])
            row = rows.get(number)
            need(row and row.node == record.node, f"{record.node} gave {word} {number}, which isn't a row of it")
            job = job_of[row.name]
            if word == "fire":
                need(reply.startswith("fired ") and not row.executes, f"fire {number}: {reply}")
                fired.append((row.name, row.time))
                row.executes = True
                if job in alone:
                    need(sum(job_of[other.name] == job for other in rows.values() if other.executes) == 1, f"{job} runs twice at once")
                    free(rows, lambda other: job_of[other.name] == job)
            else:
                need(row.executes and reply.startswith(("completed ", "again ")), f"complete {number}: {reply}")
                if reply.startswith("completed "):
                    del rows[number]
                    if record.named["code"] in ENDS_TRIGGER:
                        free(rows, lambda other: other.name == row.name)
    need(not rows, f"left: {list(rows)}")
    return fired


def check_states(rows, names, span):
    """That nodes check in with the interval that they have, and that each row is forgotten."""
    known = set()
    for record in rows:
        if record.word == "check_in":
            need(record.named["node"] in names and record.named["interval"] == INTERVAL, f"{record}")
            known.add(record.named["node"])
        else:
            need(record.named["failed"] in known, f"{record}")
            known.discard(record.named["failed"])
        need(span[0] <= record.at <= span[1], f"{record} at a moment that the clock can't have shown")
    need(not known, f"check-ins are left: {known}")


def check_call(folder, document, served, nodes, until, span, before):
    """That a call of `serve` with so many nodes did what it has to: `before` entries were stored before it. Gives what was fired, and what was added."""
    lines = served.stdout.splitlines()
    told = [match.groups() for match in map(LINE.fullmatch, lines[:-1]) if match]
    stored = records_of(folder, TRIGGERS, records.of_triggers)[before:]
    need(len(told) == len(lines) - 1 == len(stored), f"{len(stored)} entries were added, and {len(told)} of {len(lines) - 1} lines tell them")
    need([int(line[0]) for line in told] == list(range(before + 1, before + 1 + len(told))), "the lines aren't numbered on")
    added, names = list(zip(stored, told)), {f"n{number + 1}" for number in range(nodes)} | {"main"}
    check_entries(added, names, until, span)
    check_states(records_of(folder, STATES, records.of_states), names, span)
    fired = check_executions(document, added)
    need(lines[-1].startswith(f"summary fired {len(fired)} misfired "), lines[-1])
    return fired, added
