"""Calls of the program that are measured, for the scripts of this folder that run it."""
import os
import subprocess
import sys
from typing import NamedTuple

PROGRAM = os.path.abspath("crates/qz_sched/out/qz_sched")


class Figures(NamedTuple):
    """Processor seconds, those of them in the kernel, seconds by the clock, peak memory in KiB, and the last line that was written."""
    seconds: float
    kernel: float
    clock: float
    memory: int
    last_line: str


def built():
    """Ends the script where the program isn't built."""
    if not os.access(PROGRAM, os.X_OK):
        sys.exit("build it first: (cd crates/qz_sched && rt run)")


def measured(words, folder, lines="", status=0, given=None):
    """The figures of one call, which has to end with this status. Its input are these lines, or the file `given`."""
    if given is None:
        given = os.path.join(folder, "lines")
        with open(given, "w") as file:
            file.write(lines)
    command = ["/usr/bin/time", "-q", "-f", "%U %S %e %M", "-o", "figures", PROGRAM, *words]
    with open(given, "rb") as source, open(os.path.join(folder, "written"), "w") as written:
        done = subprocess.run(command, cwd=folder, stdin=source, stdout=written, stderr=subprocess.PIPE)
    if done.returncode != status:
        sys.exit(f"{' '.join(words)} ended with status {done.returncode}: {done.stderr.decode()}")
    with open(os.path.join(folder, "figures")) as figures:
        user, system, clock, memory = figures.read().split()
    return Figures(float(user) + float(system), float(system), float(clock), int(memory), last_line(os.path.join(folder, "written")))


def last_line(path):
    with open(path) as file:
        lines = file.read().splitlines()
    return lines[-1] if lines else ""
