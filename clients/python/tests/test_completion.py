"""Completion knows the commands and options that there are, in each shell."""
from __future__ import annotations

import argparse
import re
import subprocess
import unittest
from unittest import mock

from kemtrua.cli import hub, node, words
from tests.helpers import ROOT


def options_of(parser: argparse.ArgumentParser) -> set[str]:
    return {option for action in parser._actions for option in action.option_strings if option.startswith("--")}


def commands_of(parser: argparse.ArgumentParser) -> dict[str, argparse.ArgumentParser]:
    return next(dict(action.choices) for action in parser._actions if isinstance(action, argparse._SubParsersAction))


def parser_of(main: object) -> argparse.ArgumentParser:
    """The parser that a command makes."""
    found: list[argparse.ArgumentParser] = []

    def keep(self: argparse.ArgumentParser, *_: object) -> None:
        found.append(self)
        raise SystemExit(0)

    with mock.patch.object(argparse.ArgumentParser, "parse_args", keep):
        try:
            main([])  # type: ignore[operator]
        except SystemExit:
            pass
    return found[0]


class Completions(unittest.TestCase):
    def test_each_shell_knows_all(self) -> None:
        client = words.parser()
        wanted = options_of(client) | options_of(parser_of(hub.main)) | options_of(parser_of(node.main))
        for one in commands_of(client).values():
            wanted |= options_of(one)
        for shell in ("bash", "zsh", "fish"):
            with open(f"{ROOT}/completion/kemtrua.{shell}") as file:
                text = file.read()
            for command in commands_of(client):
                self.assertRegex(text, rf"[( \"]{command}[) \"\n]", shell)
            known = set(re.findall(r"--[a-z-]+", text)) | {f"--{name}" for name in re.findall(r"-l ([a-z-]+)", text)}
            known |= {f"--{name}" for line in re.findall(r"for option in (.*)", text) for name in line.split()}
            self.assertEqual({option for option in wanted if option not in known} - {"--help", "--version"}, set(), shell)

    def completed(self, line: str) -> list[str]:
        """What bash completes a line to."""
        script = (f'source {ROOT}/completion/kemtrua.bash; COMP_WORDS=({line}); COMP_CWORD=$((${{#COMP_WORDS[@]}} - 1)); '
                  '_kemtrua; printf "%s\\n" "${COMPREPLY[@]}"')
        return subprocess.run(["bash", "-c", script], capture_output=True, text=True, check=True).stdout.split()

    def test_bash_completes(self) -> None:
        self.assertEqual(self.completed("kemtrua re"), ["resume", "reset", "recover", "restore", "receive"])
        self.assertEqual(self.completed("kemtrua --within 5s pause ''"), ["trigger", "group", "job-group"])
        self.assertEqual(self.completed("kemtrua clock a"), ["accept"])
        self.assertEqual(self.completed("kemtrua list --j"), ["--json"])


if __name__ == "__main__":
    unittest.main()
