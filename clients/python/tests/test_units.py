"""The package makes whom its units name, and its first node may open the socket that it names."""
from __future__ import annotations

import os
import re
import runpy
import tomllib
import unittest

from tests.helpers import ROOT

SCRIPTS = runpy.run_path(os.path.join(ROOT, "..", "..", "tools", "packaging_of", "scripts.py"))


def unit(name: str) -> str:
    with open(os.path.join(ROOT, "systemd", f"{name}.service"), encoding="utf-8") as file:
        return file.read()


class Users(unittest.TestCase):
    def test_the_package_makes_them(self) -> None:
        """Before, it made no user for nodes, so that neither the hub nor a node of an installed package began."""
        made = re.search(r"^ *for user in (.*); do$", SCRIPTS["POSTINST"], re.MULTILINE)
        assert made is not None
        for name in ("kemtrua-hub", "kemtrua-node@", "kemtrua-web"):
            named = re.findall(r"^(?:User|Group|SupplementaryGroups)=(.*)$", unit(name), re.MULTILINE)
            self.assertEqual([user for user in named if user not in made[1].split()], [], name)

    def test_the_first_node_may_open_its_socket(self) -> None:
        hub = tomllib.loads(SCRIPTS["FIRST_NODE"])["node"]["hub"]
        self.assertIn(f"--listen-nodes {hub} --nodes-group {re.findall('^Group=(.*)$', unit('kemtrua-node@'), re.MULTILINE)[0]}", unit("kemtrua-hub"))


if __name__ == "__main__":
    unittest.main()
