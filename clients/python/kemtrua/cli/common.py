"""What the commands have in common."""
from __future__ import annotations

import argparse
import contextlib
import os
import sys
from collections.abc import Callable

from .. import __version__, logs
from ..address import Tls
from ..errors import BadFolder, BadSettings, KemtruaError, ProgramEnded

BAD = 1  # exit status: what was asked for wasn't done


class Formatter(argparse.RawDescriptionHelpFormatter):
    """Keeps the lines of a description, and has room for options."""

    def __init__(self, prog: str):
        super().__init__(prog, max_help_position=32, width=110)


def parser(name: str, description: str) -> argparse.ArgumentParser:
    made = argparse.ArgumentParser(name, description=description, formatter_class=Formatter, allow_abbrev=False)
    made.add_argument("--version", action="version", version=f"{name} {__version__}")
    return made


def add_tls(to: argparse.ArgumentParser) -> None:
    group = to.add_argument_group("TLS", "PEM files; wanted where an address begins with tls:")
    group.add_argument("--certificate", metavar="FILE", help="one's own certificate")
    group.add_argument("--key", metavar="FILE", help="its key")
    group.add_argument("--authority", metavar="FILE", help="the authority whose certificates are trusted")


def tls_of(words: argparse.Namespace) -> Tls | None:
    files = [words.certificate, words.key, words.authority]
    if files == [None] * 3:
        return None
    if None in files:
        raise BadSettings("--certificate, --key and --authority belong together")
    return Tls(*files)


def log_to_stderr(level: str) -> None:
    logs.to_stderr(level.upper())


def add_log_level(to: argparse.ArgumentParser) -> None:
    to.add_argument("--log", default="info", choices=["debug", "info", "warning", "error"], help="what is logged on standard error (info)")


def ended(name: str, work: Callable[[], int | None]) -> int:
    """Runs a command. The exit status is that of qz_sched where this ended, and 1 for what else went wrong."""
    try:
        status = work() or 0
        sys.stdout.flush()
        return status
    except ProgramEnded as error:
        print(f"{name}: {error}", file=sys.stderr)
        return error.status if error.status > 0 else BAD
    except KemtruaError as error:
        print(f"{name}: {error}", file=sys.stderr)
        return error.status if isinstance(error, BadFolder) else BAD
    except BrokenPipeError:
        with contextlib.suppress(OSError, ValueError):  # (whoever read the output has enough of it; what is left goes nowhere)
            os.dup2(os.open(os.devnull, os.O_WRONLY), sys.stdout.fileno())
        return BAD
    except OSError as error:
        print(f"{name}: {f'{error.filename}: ' if isinstance(error.filename, str) else ''}{error.strerror or error}", file=sys.stderr)
        return BAD
    except KeyboardInterrupt:
        return 130
