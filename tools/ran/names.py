"""Names and output that somebody chose so that they do harm where they are shown."""
import json
import os
import pty
import re
import subprocess
import time
import unicodedata

from . import ROOT
from .processes import Processes

CLEAR, TITLE, COPY = "\x1b[2J\x1b[H", "\x1b]0;owned\x07", "\x1b]52;c;b3duZWQ=\x07"
NAMES = (f"{CLEAR}gone", f"{TITLE}title", "a\r\nSubject: forged", "back\u202ewards", "zero\u200bwidth", "c1\x9b31mred", "line\u2028feed",
         "\ufeffmark", "\U000e0041tag", "$(touch owned) `touch owned`", "; touch owned; #", "a\" ' \\ b", "<script>alert(1)</script>",
         "../../etc/passwd", "%s%n%x", "-rf", "DROP TABLE executions; --")
TEXT = CLEAR + TITLE + COPY + "\x1b[31mred\x9b1m \u202etfel \u2066x\n2026-12-01 00:00:00 INFO forged\r\n" + "\x08" * 20 + "\u2028end\n"
OUTPUT = TEXT.encode() + b"\xff\xfe\x00\x1b]8;;http://x\x07\n"
COMMANDS = ("history", "history --json", "history --failed --all", "log ENTRY", "log ENTRY --json", "last", "last --json", "audit",
            "audit --json", "list jobs", "list triggers", "list --json", "nodes", "show next")
MAY = "\n\t"  # control characters that may be shown
COLOUR = re.compile(r"\x1b\[(3[1-6]|0)m")
NODE = """\
format = 1
[node]
name = "{name}"
hub = "unix:{folder}/hub.sock"
check_in = 2000
workers = 20
ahead = 200
[class.harm]
command = ["/bin/sh", "-c", "cat {folder}/output; exit 3"]
"""
SETTINGS = """\
format = 1
[on.failure]
command = ["/bin/sh", "-c", "PATH={folder}/bin:$PATH exec sh {folder}/mail ops@example.org"]
every = 1
"""
STUB = "#!/bin/sh\ncat > {folder}/mail-$$\n"


def tried(folder, program, tally):
    team = Processes(folder, program)
    _write(folder, "output", OUTPUT)
    _write(folder, "north.toml", NODE.format(folder=folder, name="no\\u001b[2Jrth\\u202e").encode())
    _write(folder, "hub.toml", SETTINGS.format(folder=folder).encode())
    _write(folder, "mail", example("mail").encode())
    os.mkdir(os.path.join(folder, "bin"))
    _write(folder, "bin/curl", STUB.format(folder=folder).encode(), 0o755)
    team.hub_words = ["--settings", os.path.join(folder, "hub.toml")]
    try:
        team.start("hub")
        team.wait_for_hub()
        present = time.time_ns() // 1_000_000
        once = {"kind": "simple", "start": present, "interval": 0, "count": 0}
        team.add({"jobs": [{"name": name, "group": name, "class": "harm", "durable": True, "data": name} for name in NAMES],
                  "triggers": [{"name": name, "group": name, "job": name, "job_group": name, **once} for name in NAMES]})
        team.start("north")
        _look(team, tally)
        for who in ("north", "hub"):
            team.stop(who)
    finally:
        team.end()


def _write(folder, name, data, mode=0o644):
    path = os.path.join(folder, name)
    with open(path, "wb") as file:
        file.write(data)
    os.chmod(path, mode)


def example(name):
    """The script of the page "See what ran" that stands below this word."""
    with open(os.path.join(ROOT, "docs", "HISTORY.md")) as file:
        return re.search(rf"kemtrua-{name}`:\n\n```sh\n(.*?)```", file.read(), re.S)[1]


def _look(team, tally):
    until, found = time.monotonic() + 120, []
    while time.monotonic() < until and sum(one.get("state") == "failed" for one in found) < len(NAMES):
        time.sleep(0.5)
        found = [one for one in json.loads(team.client("history", "--json").stdout or "[]") if "state" in one]
    all_failed = len(found) == len(NAMES) and all(one["state"] == "failed" and one["status"] == 3 for one in found)
    tally.that(all_failed, f"{len(NAMES)} jobs with names of all kinds ran", f"{found}")
    entry = str(found[0]["entry"])
    for text in COMMANDS:
        words = text.replace("ENTRY", entry).split()
        tally.that(not (wrong := harm_in(in_a_pipe(team, words))), f"kemtrua {text} is harmless", wrong)
        tally.that(not (wrong := harm_in(COLOUR.sub("", on_a_terminal(team, words)))), f"kemtrua {text} is harmless on a terminal", wrong)
    raw = subprocess.run(team.command("log", entry, "--raw"), env=team.environment, capture_output=True).stdout
    tally.that(raw == OUTPUT, "kemtrua log --raw gives the bytes as they are", f"{raw}")
    for who in ("hub", "north"):
        lines = team.log_of(who).split("\n")
        forged = [line for line in lines if line and not re.match(r"\d{4}-\d\d-\d\d ", line) or "\x1b" in line or "\x9b" in line]
        tally.that(not forged, f"no line of the log of {who} is forged", f"{forged[:3]}")
    _look_at_mail(team, tally)


def _look_at_mail(team, tally):
    """The mail of the page's example, by a `curl` that keeps what it is given."""
    until, told = time.monotonic() + 60, 0
    while time.monotonic() < until and told < 1:
        told = len(mails := [name for name in os.listdir(team.folder) if name.startswith("mail-")])
        time.sleep(0.5)
    wrong = []
    for name in mails:
        with open(os.path.join(team.folder, name), "rb") as file:
            head = file.read().partition(b"\n\n")[0].split(b"\n")
        if [line.split(b":")[0] for line in head] != [b"From", b"To", b"Subject"]:
            wrong.append(head)
    tally.that(mails and not wrong, f"{told} mails of the page's example have the three lines of their head, and no further one", f"{wrong}")
    owned = [name for _, _, names in os.walk(team.folder) for name in names if name == "owned"]
    tally.that(not owned and not os.path.exists("/owned"), "no command in a name was run")


def harm_in(text):
    """What a terminal could take for a command, or what hides or turns text."""
    found = {one for one in text if one not in MAY and (unicodedata.category(one) in ("Cc", "Cf", "Cs", "Zl", "Zp"))}
    return " ".join(f"{ord(one):#x}" for one in sorted(found))


def in_a_pipe(team, words):
    done = subprocess.run(team.command(*words), env=team.environment, capture_output=True)
    return (done.stdout + done.stderr).decode(errors="surrogateescape")


def on_a_terminal(team, words):
    """What a command writes where its output is a terminal, without the carriage returns that this adds."""
    ours, theirs = pty.openpty()
    process = subprocess.Popen(team.command(*words), env={**team.environment, "TERM": "xterm"}, stdin=theirs, stdout=theirs, stderr=theirs)
    os.close(theirs)
    data = b""
    while True:
        try:
            piece = os.read(ours, 65536)
        except OSError:
            break
        if not piece:
            break
        data += piece
    process.wait()
    os.close(ours)
    return data.decode(errors="surrogateescape").replace("\r\n", "\n")
