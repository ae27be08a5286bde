"""The manual pages name each option and each command, and nothing that isn't there."""
import os
import re
import subprocess
import sys
import unittest

from tests.helpers import ROOT

MAN = os.path.join(os.path.dirname(os.path.dirname(ROOT)), "docs", "man")


def page(name: str) -> str:
    with open(os.path.join(MAN, f"{name}.1"), encoding="utf-8") as file:
        return re.sub(r"\\f.", "", file.read().replace("\\-", "-"))


def help_of(module: str) -> str:
    words = [sys.executable, "-m", f"kemtrua.cli.{module}", "--help"]
    return subprocess.run(words, env={**os.environ, "PYTHONPATH": ROOT}, capture_output=True, text=True).stdout


def options(text: str) -> set[str]:
    return set(re.findall(r"(?<![\w-])--[a-z][a-z-]*[a-z]", text)) - {"--help"}


class Pages(unittest.TestCase):
    def test_options(self) -> None:
        for name, module in (("kemtrua-hub", "hub"), ("kemtrua-node", "node"), ("kemtrua", "client")):
            self.assertEqual(options(page(name)), options(help_of(module)), name)

    def test_commands(self) -> None:
        commands = set(re.findall(r"^ {4}([a-z][a-z-]*)(?: |$)", help_of("client").partition("options:")[0], re.MULTILINE))
        self.assertGreater(len(commands), 25)
        bold = " ".join(re.findall(r"^\.(?:B|BR|BI) (.*)$", page("kemtrua"), re.MULTILINE))
        self.assertEqual(commands - set(re.findall(r"[a-z][a-z-]*", bold)), set())
        listed = page("kemtrua").partition("THAT ADD")[2].partition("EXIT STATUS")[0]
        given = " ".join(re.findall(r"^\.TP\n\.(?:B|BR|BI) (.*)$", listed, re.MULTILINE))
        self.assertEqual(set(re.findall(r"[a-z][a-z-]*", given)) - commands - {"accept"}, set())

    @unittest.skipUnless(os.path.exists("/usr/bin/man"), "there is no man")
    def test_they_are_read_without_a_complaint(self) -> None:
        for name in sorted(os.listdir(MAN)):
            words = ["man", "--warnings", "-E", "UTF-8", "-l", "-Tutf8", "-Z", os.path.join(MAN, name)]
            done = subprocess.run(words, capture_output=True, text=True)
            self.assertEqual((done.returncode, done.stderr), (0, ""), name)


if __name__ == "__main__":
    unittest.main()
