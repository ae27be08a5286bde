"""Copies the tables of a PostgreSQL database into CSV files, by the program `psql`."""
from __future__ import annotations

import os
import re
import subprocess
from urllib.parse import unquote

from .model import BadSource
from .table_forms import TABLES

SECONDS = 600


def copy(url: str, prefix: str, folder: str, psql: str) -> None:
    """Copies all tables as they were at one moment into files of a folder. Nothing is written in the database."""
    if not re.fullmatch(r"([A-Za-z_][A-Za-z0-9_]*\.)?[A-Za-z_][A-Za-z0-9_]*", prefix):
        raise BadSource(f"--prefix {prefix}: it is no beginning of a table's name, as QRTZ_ or quartz.QRTZ_")
    own = prefix.rpartition(".")[2]
    lines = ["\\set ON_ERROR_STOP on", "BEGIN TRANSACTION ISOLATION LEVEL REPEATABLE READ READ ONLY;", "SET LOCAL bytea_output = 'hex';"]
    for table in TABLES:
        path = f"{folder}/{own}{table}.csv".replace("'", "''")
        lines.append(f"\\copy (SELECT * FROM {prefix}{table}) TO '{path}' WITH (FORMAT csv, HEADER true, ENCODING 'UTF8')")
    lines.append("COMMIT;")
    shown, environment = without_password(url)
    try:
        ended = subprocess.run([psql, "--no-psqlrc", "--no-password", "--quiet", "--dbname", shown], input="\n".join(lines) + "\n",
                               capture_output=True, text=True, timeout=SECONDS, env={**os.environ, **environment})
    except FileNotFoundError:
        raise BadSource(f"{psql} isn't there: --postgres needs it (in Debian: apt install postgresql-client); else copy the tables to CSV and use --csv") from None
    except (OSError, subprocess.TimeoutExpired) as error:
        raise BadSource(f"{psql} can't be run to its end: {error}") from None
    if ended.returncode:
        raise BadSource(_told(ended.stderr, shown))


def without_password(url: str) -> tuple[str, dict[str, str]]:
    """The URL without a password, which the list of processes and the report would show, and the environment in which psql finds it."""
    found = re.fullmatch(r"([a-z]+://[^:/@]*):([^@]*)(@.*)", url)
    return (found[1] + found[3], {"PGPASSWORD": unquote(found[2])}) if found else (url, {})


def _told(said: str, shown: str) -> str:
    missing = re.search(r'relation "([^"]*)" does not exist', said)
    if missing:
        return f"{shown}: there is no table {missing[1]}: is --prefix right? Tables of Quartz 1.x have no {missing[1]}" if "simprop" in missing[1] \
            else f"{shown}: there is no table {missing[1]}: is --prefix right, and the schema the one of the URL?"
    last = [line for line in said.strip().splitlines() if line.strip()]
    return f"{shown}: psql says: {last[0] if last else 'nothing'}"
