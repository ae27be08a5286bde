"""Calls of the program: with a kill at a random moment or without one, line by line or all at once."""
import os
import re
import select
import signal
import subprocess
import threading
import time

from fuzzing.judge import Violation, need

HANG = 120.0  # seconds after which a call counts as one that doesn't end
# the lines on standard error, by status
SAID = {0: "", 1: "qz: bad words\n", 2: r"qz: line \d+: (too long|not JSON|not here|not a step|bad cron [1-7]|too many lines)\n", 3: "qz: read fault\n", 4: "qz: write fault\n",
        5: "qz: disk fault\n", 6: r"qz: (triggers|states) (not a store|damaged at \d+)\n", 7: r"qz: journal full need \d+ room \d+\n", 8: r"qz: budget \d+ spent\n",
        9: "qz: no memory\n", 10: "qz: store exists\n", 11: r"qz: too many \d+\n", 12: "qz: old store\n"}


def check_status(status, said, allowed):
    need(status in allowed, f"status {status}, and it said {said!r}")
    need(re.fullmatch(SAID[status], said), f"status {status}, and it said {said!r}")


class Ended:
    """How a call ended: its status, what it wrote and said, whether it was killed, and when it began and ended in ms."""

    def __init__(self, running, written, said, killed, begun):
        self.status, self.killed, self.clock = running.returncode, killed and running.returncode == -signal.SIGKILL, (begun, int(time.time() * 1000))
        self.written, self.said = written, said.decode(errors="replace")

    def replies(self):
        """The replies that are whole."""
        return self.written[: self.written.rfind(b"\n") + 1].decode().splitlines()


def call(program, folder, words, data=b"", kill_after=None):
    """A call that gets its whole input at once. It is killed after so many seconds, if it hasn't ended by then."""
    begun = int(time.time() * 1000)
    running = subprocess.Popen([program, *words], cwd=folder, stdin=subprocess.PIPE, stdout=subprocess.PIPE, stderr=subprocess.PIPE)
    killed = False
    try:
        written, said = running.communicate(data, timeout=kill_after or HANG)
    except subprocess.TimeoutExpired:
        running.kill()
        written, said = running.communicate()
        killed = True
        need(kill_after, f"{words} didn't end in {HANG:.0f} seconds")
    return Ended(running, written, said, killed, begun)


class Conversation:
    """A call of script that is sent one line after another, each once the one before was answered."""

    def __init__(self, program, folder, kill_after):
        self.begun, self.written = int(time.time() * 1000), b""
        self.running = subprocess.Popen([program, "script"], cwd=folder, stdin=subprocess.PIPE, stdout=subprocess.PIPE, stderr=subprocess.PIPE, bufsize=0)
        self.timer = threading.Timer(kill_after or 4 * HANG, self.running.kill)
        self.timer.start()
        self.killed = bool(kill_after)

    def ask(self, line, wants_reply):
        """Sends a line, and gives its reply; None where the program ended."""
        try:
            self.running.stdin.write(line + b"\n")
        except BrokenPipeError:
            return None
        before = len(self.written)
        while wants_reply and not self.written.endswith(b"\n", before):
            ready, _, _ = select.select([self.running.stdout], [], [], HANG)
            need(ready, f"{line[:200]} wasn't answered in {HANG:.0f} seconds")
            piece = os.read(self.running.stdout.fileno(), 65536)
            if not piece:
                return None
            self.written += piece
        return self.written[before:].decode().rstrip("\n")

    def end(self):
        try:
            rest, said = self.running.communicate(timeout=HANG)
        except subprocess.TimeoutExpired:
            self.running.kill()
            self.running.communicate()
            raise Violation(f"script didn't end in {HANG:.0f} seconds") from None
        finally:
            self.timer.cancel()
        return Ended(self.running, self.written + rest, said, self.killed, self.begun)
