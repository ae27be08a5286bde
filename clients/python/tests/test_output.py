"""What of an execution's output is logged, and that no line of a log can be forged."""
from __future__ import annotations

import io
import logging
import unittest

from kemtrua import logs
from kemtrua.output import LINE, Output


def said(budget: int, *parts: bytes) -> list[str]:
    found: list[str] = []
    output = Output(found.append, budget)
    for part in parts:
        output.feed(part)
    output.end()
    return found


class Outputs(unittest.TestCase):
    def test_little(self) -> None:
        self.assertEqual(said(1 << 20, b"one\ntw", b"o\nthree"), ["one", "two", "three"])
        self.assertEqual(said(1 << 20), [])

    def test_the_end_is_kept(self) -> None:
        """Before, what came after the first MiB was dropped, and with it the error at the end."""
        data = b"".join(b"%d\n" % number for number in range(400000)) + b"FATAL: disk gone\n"
        found = said(1 << 16, *(data[at : at + 65536] for at in range(0, len(data), 65536)))
        self.assertEqual((found[0], found[-1]), ("0", "FATAL: disk gone"))
        dropped = next(int(text.split()[1]) for text in found if text.startswith(".."))
        self.assertEqual(dropped + sum(len(text) + 1 for text in found if not text.startswith("..")), len(data))

    def test_empty_lines_fill_no_log(self) -> None:
        """Before, 128 KiB of empty lines were 131072 lines of the log."""
        found = said(1 << 17, b"\n" * (1 << 17), b"THE ERROR\n")
        self.assertLess(len(found), 2100)
        self.assertEqual(found[-1], "THE ERROR")

    def test_long_lines_come_in_pieces(self) -> None:
        self.assertEqual([len(text) for text in said(1 << 20, b"x" * 10000)], [LINE, LINE, 10000 - 2 * LINE])

    def test_nothing_is_logged_where_nothing_is_wanted(self) -> None:
        self.assertEqual(said(0, b"one\n" * 10), [".. 40 further bytes of output were dropped here"])


class Logs(unittest.TestCase):
    def test_a_line_feed_in_a_name_is_no_line(self) -> None:
        """Before, a node's name with a line feed in it could forge a line of the hub's log."""
        stream = io.StringIO()
        handler = logging.StreamHandler(stream)
        handler.setFormatter(logging.Formatter("%(levelname)s %(message)s"))
        log = logs.logger("kemtrua.test")
        log.setLevel(logging.WARNING)  # (other tests set that of all)
        log.addHandler(handler)
        self.addCleanup(log.removeHandler, handler)
        log.warning("%s joined", "x\nWARNING north takes south for failed\u2028\x1b[2J\t50%")
        self.assertEqual(stream.getvalue(), "WARNING x\\nWARNING north takes south for failed\\u2028\\x1b[2J\t50% joined\n")


if __name__ == "__main__":
    unittest.main()
