"""One call of `qz_sched script`: a line in, a reply out."""
from __future__ import annotations

import fcntl
import os
import subprocess
import time

from . import __version__, logs
from .errors import CannotRun, NotFitting, ProgramEnded, StoreLocked
from .versions import age_of

STORE_FILES = ("qz-triggers.store", "qz-states.store")
log = logs.logger("kemtrua.store")

DISK_FAULT = 5  # the exit status


class Gone(Exception):
    """The program ended before it answered."""


class Program:
    """A running call of `script`. Not safe for threads."""

    def __init__(self, program: str, folder: str):
        try:
            # (in a session of its own, so that Ctrl-C in a terminal ends it no sooner than its owner)
            self._process = subprocess.Popen([program, "script"], cwd=folder, stdin=subprocess.PIPE, stdout=subprocess.PIPE,
                                             stderr=subprocess.PIPE, bufsize=0, start_new_session=True)
        except OSError as error:
            raise cannot_run(program, folder, error) from error
        assert self._process.stdin is not None and self._process.stdout is not None and self._process.stderr is not None
        self._in, self._out, self._said = self._process.stdin, self._process.stdout, self._process.stderr
        self.input, self.output = self._in.fileno(), self._out.fileno()  # for those who don't wait for each answer
        self._read = b""

    def ask(self, line: bytes) -> str:
        """The reply to a line. Raises Gone where the program ended before it."""
        try:
            self._in.write(line)
            while b"\n" not in self._read:
                more = os.read(self.output, 65536)
                if not more:
                    raise Gone
                self._read += more
        except OSError:
            raise Gone from None
        reply, _, self._read = self._read.partition(b"\n")
        return reply.decode()

    def end(self) -> tuple[int, str]:
        """Ends the input, waits, and gives the exit status (negative: the signal) and what was said on standard error."""
        self._in.close()
        said = self._said.read().decode(errors="replace").strip()
        self._out.close()
        status = self._process.wait()
        self._said.close()
        return status, said

    def kill(self) -> None:
        """Ends it at once. Whoever waits for an answer finds it gone."""
        self._process.kill()

    @property
    def pid(self) -> int:
        return self._process.pid


def opened(program: str, folder: str) -> Program:
    """A program that has opened the store, and says so by an answer."""
    running = Program(program, folder)
    try:
        running.ask(b'{"do":"show_next"}\n')
    except Gone:
        raise ended(folder, *running.end()) from None
    return running


def cannot_run(program: str, folder: str, error: OSError) -> CannotRun:
    missing = not os.path.isdir(folder)
    return CannotRun(f"the folder {folder} isn't there" if missing else f"the program {program} can't be run: {error.strerror}")


def call(program: str, folder: str, word: str) -> str:
    """What one call of the program with this word writes. Raises ProgramEnded where its status isn't 0."""
    try:
        ran = subprocess.run([program, word], cwd=folder, stdin=subprocess.DEVNULL, capture_output=True, start_new_session=True)
    except OSError as error:
        raise cannot_run(program, folder, error) from error
    if ran.returncode:
        raise ended(folder, ran.returncode, ran.stderr.decode(errors="replace").strip())
    return ran.stdout.decode()


def ended(folder: str, status: int, said: str) -> ProgramEnded:
    """What a call that ended says. Of the causes of a disk fault, another program's lock can be seen."""
    return StoreLocked(folder) if status == DISK_FAULT and is_locked(folder) else ProgramEnded(status, said)


def check_version(program: str) -> None:
    """Raises NotFitting where the program is too old or too new for this client."""
    version = (call(program, os.curdir, "--version").split() or [""])[-1]
    if (age := age_of(version)) is not None:
        raise NotFitting(f"the program {program} is too {age} for this hub: it is version {version}, and the hub is {__version__}; install both of one version")


def make_store(program: str, folder: str) -> bool:
    """Makes the two stores in a folder. Says whether one was made; both may be there already."""
    try:
        call(program, folder, "init")
    except ProgramEnded as error:
        if error.status != 10:
            raise
        return False
    return True


def is_locked(folder: str) -> bool:
    """Whether another program works on a store of this folder."""
    for name in STORE_FILES:
        try:
            with open(os.path.join(folder, name), "rb") as file:
                fcntl.flock(file, fcntl.LOCK_EX | fcntl.LOCK_NB)
        except BlockingIOError:
            return True
        except OSError:
            continue
    return False


def wait_until_free(folder: str, seconds: float) -> None:
    """Waits until no other program works on the store: one whose owner was killed ends by itself soon. Raises StoreLocked."""
    begun, said = time.monotonic(), False
    while is_locked(folder):
        if time.monotonic() >= begun + seconds:
            raise StoreLocked(folder)
        if not said and time.monotonic() >= begun + 1.0:
            said = True
            log.warning("another program works on the store in %s; waiting up to %g seconds for its end", folder, seconds)
        time.sleep(0.05)
