"""A stub of a node's settings: which command is wanted for each class of Java."""
from __future__ import annotations

import json
import re
from collections.abc import Sequence
from itertools import groupby

from .model import Job

COMMANDS = "/usr/local/lib/kemtrua/jobs"
SHOWN = 5  # jobs that are named of a class

HEAD = """\
# Settings of a node, begun by `kemtrua from-quartz`: each class of Java is a command here. Write the commands, or name others.
# A node doesn't start where one isn't there, and says which: kemtrua-node --check THIS_FILE
# A command finds the job's data, a JSON object, on standard input and in KEMTRUA_DATA. Where Quartz's class threw an exception that
# asked to be fired again, let it end with the exit status 75. All settings: share/doc/kemtrua/clients/python/node.toml

[node]
# name = "north"
hub = "unix:/run/kemtrua/hub.sock"
"""


def stub(jobs: Sequence[Job]) -> str:
    by_class = groupby(sorted(jobs, key=lambda job: (job.klass, job.key)), key=lambda job: job.klass)
    return HEAD + "".join(_class(klass, list(own)) for klass, own in by_class)


def _class(klass: str, jobs: list[Job]) -> str:
    members = sorted({name for job in jobs for name in job.data.values})
    named = ", ".join(str(job.key) for job in jobs[:SHOWN]) + (f" and {len(jobs) - SHOWN} more" if len(jobs) > SHOWN else "")
    data = f"# Members of their data: {', '.join(map(quoted, members))}\n" if members else ""
    return (f"\n[class.{quoted(klass)}]\n# WANTED: what the class did, as a command. Its jobs: {named}\n{data}"
            f"command = [{quoted(f'{COMMANDS}/' + re.sub('[^A-Za-z0-9._$-]', '_', klass))}]\n")


def quoted(text: str) -> str:
    """A text of TOML. (JSON leaves the character 7F as it is, and TOML doesn't.)"""
    return json.dumps(text, ensure_ascii=False).replace("\x7f", "\\u007f")
