"""The words of the command `kemtrua`."""
from __future__ import annotations

import argparse
import os
from collections.abc import Callable
from typing import Protocol

from ..address import DEFAULT
from ..from_quartz import command as from_quartz
from . import calendars, common, ran, stores, work

DESCRIPTION = """\
Asks a hub (--hub, or the variable KEMTRUA_HUB), or a store of this machine that no hub holds (--folder).

A job or trigger is named as NAME, or GROUP/NAME. A moment is now, +5m, 2026-12-01T02:00 by the local clock, or ms since 1970.
A span is 90s, 5m, 1h30m or 2d.

Exit status: 0 where all was done, 1 where something was refused or is wrong, that of qz_sched where this ended, 5 or 6 where a folder
can't be used."""

LISTED = ("all", "jobs", "triggers", "nodes", "running")
SHOWN = ("job", "trigger", "entry", "next")
PAUSED = ("trigger", "group", "job-group")
DELETED = ("job", "trigger", "calendar", "zone")


class Adder(Protocol):
    def __call__(self, name: str, work: Callable[[argparse.Namespace], int], help_: str) -> argparse.ArgumentParser: ...


def parser() -> argparse.ArgumentParser:
    made = common.parser("kemtrua", DESCRIPTION)
    whom = made.add_mutually_exclusive_group()
    whom.add_argument("--hub", metavar="ADDRESS", default=os.environ.get("KEMTRUA_HUB", DEFAULT),
                      help=f"unix:PATH or tls:HOST:PORT; of several hubs all, with commas ({DEFAULT})")
    whom.add_argument("--folder", metavar="DIR", help="the folder of a store that no hub holds")
    made.add_argument("--program", metavar="FILE", default="qz_sched", help="for --folder, backup and restore: the program (qz_sched)")
    made.add_argument("--within", metavar="SPAN", default="20s", help="how long the hub has for an answer (20s)")
    common.add_tls(made)
    commands = made.add_subparsers(metavar="COMMAND", required=True)

    def command(name: str, work: Callable[[argparse.Namespace], int], help_: str) -> argparse.ArgumentParser:
        it = commands.add_parser(name, help=help_, description=help_, formatter_class=common.Formatter, allow_abbrev=False)
        it.set_defaults(work=work)
        return it

    _add_adding(command)
    _add_trigger(command)
    _add_asking(command)
    _add_ran(command)
    _add_changing(command)
    _add_tending(command)
    from_quartz.add(command)
    return made


def _add_adding(command: Adder) -> None:
    it = command("add", work.add, "add what files say: documents, or lines of scripts; they are checked before")
    it.add_argument("files", nargs="+", metavar="FILE", help="- is standard input")
    it.add_argument("--replace", action="store_true", help="in place of what is stored under the same key or name")
    it = command("add-job", work.add_job, "add a job")
    it.add_argument("name")
    it.add_argument("klass", metavar="class", help="by what it is run: a class of the nodes' settings")
    it.add_argument("--data", default="", help="a text for what runs it")
    it.add_argument("--durable", action="store_true", help="it stays without a trigger")
    it.add_argument("--exclusive", action="store_true", help="no two executions of it at once")
    it.add_argument("--recover", action="store_true", help="an execution that is lost with its node is run again")
    it.add_argument("--replace", action="store_true")
    it = command("add-calendar", work.add_calendar, "add a calendar, which says what triggers leave out")
    it.add_argument("name")
    it.add_argument("kind", choices=list(calendars.KINDS))
    it.add_argument("values", nargs="*", metavar="VALUE", help="; ".join(f"{kind}: {values}" for kind, values in calendars.KINDS.items()))
    it.add_argument("--inverted", action="store_true", help="with daily: leave out all but the time between")
    it.add_argument("--base", metavar="NAME", help="a calendar that is left out, too")
    it.add_argument("--zone", metavar="NAME", help="a zone that was added (UTC)")
    it.add_argument("--replace", action="store_true")
    it = command("add-zone", work.add_zone, "add a time zone with the table that this machine has of it")
    it.add_argument("name", help="as Europe/Berlin")
    it = command("check", work.check, "say which member of which row of files is wrong, and what is allowed; nothing is asked or added")
    it.add_argument("files", nargs="+", metavar="FILE", help="a document, lines of a script, or a node's settings (.toml)")


def _add_trigger(command: Adder) -> None:
    it = command("add-trigger", work.add_trigger, "add a trigger of a job")
    it.add_argument("name")
    it.add_argument("job")
    when = it.add_mutually_exclusive_group(required=True)
    when.add_argument("--cron", metavar="TEXT", help='six or seven fields, seconds first, as "0 30 2 * * ?"')
    when.add_argument("--every", metavar="SPAN", help="again and again; see --count")
    when.add_argument("--at", metavar="MOMENT", help="once")
    it.add_argument("--count", type=int, default=-1, help="with --every: how many times after the first (-1: without end)")
    it.add_argument("--zone", default=None, help="with --cron: a zone that was added")
    it.add_argument("--start", metavar="MOMENT", default="now")
    it.add_argument("--end", metavar="MOMENT")
    it.add_argument("--calendar", metavar="NAME", help="what it leaves out")
    it.add_argument("--priority", type=int, default=5)
    it.add_argument("--misfire", type=int, default=0, help="the number of the instruction; -1 never is misfired")
    it.add_argument("--replace", action="store_true")


def _add_asking(command: Adder) -> None:
    it = command("list", work.list_, "list what the store has")
    it.add_argument("what", nargs="?", default="all", choices=LISTED)
    form = it.add_mutually_exclusive_group()
    form.add_argument("--raw", action="store_true", help="the lines of qz_sched list")
    _add_json(form)
    it = command("nodes", work.list_, "list the nodes, as list nodes does")
    it.set_defaults(what="nodes", raw=False)
    _add_json(it)
    it = command("show", work.show, "show a job, a trigger, an entry, or when something is due next")
    it.add_argument("what", choices=SHOWN)
    it.add_argument("name", nargs="?", help="a name, or an entry number")
    _add_json(it)


def _add_ran(command: Adder) -> None:
    it = command("history", ran.history, "list what ran, the latest first; a moment may be a span before now, as 8h")
    it.add_argument("--job", metavar="JOB")
    it.add_argument("--node", metavar="NODE")
    it.add_argument("--since", metavar="MOMENT", default="1d", help="what began then or later (1d)")
    it.add_argument("--until", metavar="MOMENT", help="and what began before")
    it.add_argument("--failed", action="store_true", help="only what failed, was lost, or whose end is missing")
    it.add_argument("--limit", type=int, metavar="NUMBER", help="so many at most (a screen, or all where the output is no terminal)")
    it.add_argument("--all", action="store_true", help="more than a screen")
    it.add_argument("--vacuum", action="store_true", help="delete what is too old, and give the room back to the disk")
    _add_json(it)
    it = command("log", ran.log, "show the end of what an execution wrote")
    it.add_argument("entry", help="its entry number")
    it.add_argument("--follow", action="store_true", help="go on as long as it runs; its node tells each 10 seconds")
    it.add_argument("--generation", type=int, metavar="NUMBER", help="of the team, where a restored backup gave the number again (the latest)")
    it.add_argument("--raw", action="store_true", help="the bytes as they are, also what a terminal takes for commands")
    _add_json(it)
    it = command("last", ran.last, "show each job's last execution, its next time, and what should have run and didn't")
    _add_json(it)
    it = command("audit", ran.audit, "list who did what, the latest first")
    it.add_argument("--since", metavar="MOMENT", default="1d", help="then or later (1d)")
    it.add_argument("--by", metavar="NAME", help="a certificate's name, or a user's")
    it.add_argument("--limit", type=int, metavar="NUMBER", help="so many at most, up to 1000")
    _add_json(it)


def _add_json(to: argparse._ActionsContainer) -> None:
    to.add_argument("--json", action="store_true", help="a list of objects, for scripts")


def _add_changing(command: Adder) -> None:
    for word, help_ in (("pause", "let a trigger, a group of triggers, or those of a group of jobs fire no more"), ("resume", "let them fire again")):
        it = command(word, work.pause, help_)
        it.set_defaults(word=word)
        it.add_argument("what", choices=PAUSED)
        it.add_argument("name")
    it = command("reset", work.reset, "take a trigger out of the state ERROR")
    it.add_argument("name", metavar="trigger")
    it = command("now", work.now, "fire a job once, now")
    it.add_argument("name", metavar="job")
    it = command("delete", work.delete, "delete a job and its triggers, a trigger, a calendar or a zone")
    it.add_argument("what", choices=DELETED)
    it.add_argument("name")


def _add_tending(command: Adder) -> None:
    it = command("threshold", work.threshold, "say how late a trigger may be before it is misfired")
    it.add_argument("span", metavar="SPAN")
    it = command("recover", work.recover, "take a node for failed that is late, so that what it had is done again")
    it.add_argument("node")
    it = command("forget", work.forget, "take away the check-in of a node that is gone for good")
    it.add_argument("node")
    it = command("team", stores.team, "show which of several hubs leads, how far the others are, and how much etcd has")
    _add_json(it)
    command("compact", stores.compact, "have the hub rewrite its stores, so that they have what there is and not how it came")
    it = command("backup", stores.backup, "copy the hub's stores to a new folder, also while it works, and open the copy")
    it.add_argument("target", metavar="FOLDER", help="it is made")
    it = command("restore", stores.restore, "put a backup in place in --folder as the team's next generation; the hub must have ended")
    it.add_argument("source", metavar="FOLDER", help="a backup, or what kemtrua receive made")
    command("ship", stores.ship, "write what the hub's store has to standard output, as it comes, for kemtrua receive on a second machine")
    it = command("receive", stores.receive, "keep what kemtrua ship writes, so that kemtrua restore can put it in place")
    it.add_argument("target", metavar="FOLDER", help="it is made")
    it = command("clock", work.clock_, "show the hub's clock beside this machine's, or have the hub go on by its clock as it is")
    it.add_argument("word", nargs="?", choices=["accept"])
