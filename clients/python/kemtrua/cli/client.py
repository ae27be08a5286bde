"""`kemtrua`: adds, lists, shows, pauses, deletes and triggers, over a hub or over a store that no hub holds."""
from __future__ import annotations

import sys

from . import common, words


def main(given: list[str] | None = None) -> int:
    read = words.parser().parse_args(given)
    common.log_to_stderr("error")
    return common.ended("kemtrua", lambda: int(read.work(read)))


if __name__ == "__main__":
    sys.exit(main())
