"""The command `kemtrua from-quartz`."""
from __future__ import annotations

import argparse
import json
import os
import tempfile
from collections.abc import Callable

from .. import clock, files
from ..errors import BadSettings
from . import convert, node_settings, postgres, tables, xml_file
from .java_zones import JavaZones
from .model import Source
from .report import Outcome

DOCUMENT, PAUSES, SETTINGS, REPORT = "quartz.json", "quartz-pauses.jsonl", "quartz-node.toml", "quartz-report.txt"
DESCRIPTION = f"""\
Reads what Quartz has, and writes into a folder: {DOCUMENT}, a document that `kemtrua add` and `qz_sched load` take;
{PAUSES}, lines that pause what was paused; {SETTINGS}, a stub of a node's settings with a command for each class;
and {REPORT}: each row that has no counterpart or fires otherwise, and why. Nothing is asked of a hub or a store.

Exit status: 0 where all rows are in the document, 1 where one is left out or something is wrong."""


def add(commands: Callable[..., argparse.ArgumentParser]) -> None:
    """Adds the command to those of `kemtrua`. `commands` makes a command of a name, what it does and a help text."""
    it = commands("from-quartz", run, "make a document of Quartz's XML files or of its tables")
    it.description = DESCRIPTION
    ways = it.add_subparsers(metavar="xml|tables", required=True)
    xml = ways.add_parser("xml", help="files of job_scheduling_data, 1.8 or 2.0", description="Reads files of job_scheduling_data, 1.8 or 2.0.")
    xml.add_argument("paths", nargs="+", metavar="FILE")
    xml.add_argument("--start", metavar="MOMENT", default="now", help="the start of triggers that have none (now)")
    xml.add_argument("--exclusive", metavar="CLASS", action="append", default=[], help="a class with @DisallowConcurrentExecution; may be repeated")
    xml.set_defaults(read=_read_xml)
    of_tables = ways.add_parser("tables", help="the tables of a job store of Quartz 2.0 to 2.3", description="Reads the tables of a job store of Quartz 2.0 to 2.3.")
    place = of_tables.add_mutually_exclusive_group(required=True)
    place.add_argument("--postgres", metavar="URL", help="a PostgreSQL database, as postgresql://USER@HOST/NAME; psql is called, which finds the password in ~/.pgpass")
    place.add_argument("--csv", metavar="FOLDER", help="a CSV file for each table, as QRTZ_TRIGGERS.csv, with a line of column names and blobs in hexadecimal")
    of_tables.add_argument("--scheduler", metavar="NAME", help="SCHED_NAME, where the tables have several")
    of_tables.add_argument("--prefix", default=tables.PREFIX, help="what the names of the tables begin with (QRTZ_); a schema may stand before it")
    of_tables.add_argument("--psql", metavar="FILE", default="psql", help="with --postgres: the program (psql)")
    of_tables.set_defaults(read=_read_tables, exclusive=[])
    for way in (xml, of_tables):
        way.add_argument("--zone", metavar="NAME", help="the JVM's zone, for rows that name none, as Europe/Berlin")
        way.add_argument("--into", metavar="FOLDER", default=".", help="where the files are put (.)")
        way.add_argument("--overwrite", action="store_true", help="in place of files of these names")


def _read_xml(given: argparse.Namespace, zones: JavaZones) -> Source:
    try:
        return xml_file.read(given.paths, zones, clock.moment_of(given.start))
    except ValueError as error:
        raise BadSettings(str(error)) from None


def _read_tables(given: argparse.Namespace, zones: JavaZones) -> Source:
    if given.csv is not None:
        return tables.read(given.csv, given.prefix, given.scheduler, zones)
    with tempfile.TemporaryDirectory(prefix="kemtrua-quartz-") as folder:
        postgres.copy(given.postgres, given.prefix, folder, given.psql)
        return tables.read(folder, given.prefix, given.scheduler, zones, postgres.without_password(given.postgres)[0])


def run(given: argparse.Namespace) -> int:
    zones = JavaZones(given.zone)
    if given.zone is not None:
        try:
            zones.stretches(None)
        except ValueError as error:
            raise BadSettings(f"--zone {given.zone}: {error}") from None
    paths = {name: os.path.join(given.into, name) for name in (DOCUMENT, PAUSES, SETTINGS, REPORT)}
    there = [path for path in paths.values() if os.path.lexists(path)]
    if there and not given.overwrite:
        raise BadSettings(f"{', '.join(there)}: it is there already; choose another folder by --into, or --overwrite")
    source = given.read(given, zones)
    found = convert.convert(source, zones, frozenset(given.exclusive))
    return _write(found, source, paths)


def _write(found: convert.Converted, source: Source, paths: dict[str, str]) -> int:
    os.makedirs(os.path.dirname(paths[DOCUMENT]) or ".", exist_ok=True)
    rows = ",\n".join(f'{json.dumps(name)}:[\n' + ",\n".join(json.dumps(row, ensure_ascii=False, separators=(",", ":")) for row in rows) + "]"
                      for name, rows in found.document.items())
    counted = ", ".join(f"{len(rows)} {name}" for name, rows in found.document.items()) or "nothing"
    heading = [f"From Quartz: {source.what}", f"{DOCUMENT} has {counted}; {PAUSES} has {len(found.pauses)} lines",
               ", ".join(f"{outcome.value}: {found.report.count(outcome)}" for outcome in Outcome)]
    texts = {DOCUMENT: f"{{{rows}}}\n", PAUSES: "".join(json.dumps(line, ensure_ascii=False) + "\n" for line in found.pauses),
             SETTINGS: node_settings.stub(found.jobs), REPORT: "\n".join(found.report.lines(heading))}
    for name, text in texts.items():
        with open(paths[name], "w", encoding="utf-8") as file:
            file.write(text)
    print("\n".join([*heading, f"{paths[REPORT]} says which and why"]))
    wrong = _check(paths[DOCUMENT]) + (_check(paths[PAUSES]) if found.pauses else 0)
    return 1 if wrong or found.report.count(Outcome.LEFT_OUT) else 0


def _check(path: str) -> int:
    """Checks a file as `kemtrua check` does, and says how many places are wrong."""
    found = files.read(path)
    print("\n".join(found.wrong) or f"{path}: {found.kind} of {len(found.lines)} lines, all right")
    return len(found.wrong)
