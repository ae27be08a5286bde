"""The alerts and the dashboard that are shipped: promtool takes them, and each metric that they name is told."""
import json
import os
import re
import shutil
import subprocess
import unittest

from tests.helpers import ROOT

FOLDER = os.path.join(ROOT, "monitoring")
ENDINGS = ("", "_total", "_bucket", "_sum", "_count")  # of a metric's name, where it is told


def read(*parts: str) -> str:
    with open(os.path.join(*parts), encoding="utf-8") as file:
        return file.read()


class Shipped(unittest.TestCase):
    @unittest.skipUnless(shutil.which("promtool"), "there is no promtool")
    def test_promtool_takes_the_alerts(self) -> None:
        for words in (("check", "rules", "kemtrua.rules.yml"), ("test", "rules", "kemtrua.rules.test.yml")):
            done = subprocess.run(["promtool", *words], cwd=FOLDER, capture_output=True, text=True)
            self.assertEqual(done.returncode, 0, done.stdout + done.stderr)
        done = subprocess.run(["promtool", "check", "rules"], input=read(FOLDER, "kemtrua.rules.yml").replace("expr: ", "expr: )", 1), cwd=FOLDER,
                              capture_output=True, text=True)
        self.assertNotEqual(done.returncode, 0)  # (it does look)

    def test_each_metric_that_they_name_is_told(self) -> None:
        code = "".join(read(ROOT, "kemtrua_web", name) for name in ("metrics.py", "board.py"))
        told = {name + ending for name in re.findall(r'"(kemtrua_\w+)"', code) for ending in ENDINGS}
        self.assertGreater(len(told), 100)
        json.loads(read(FOLDER, "kemtrua.dashboard.json"))
        for name in ("kemtrua.rules.yml", "kemtrua.dashboard.json"):
            named = set(re.findall(r"\bkemtrua_\w+", read(FOLDER, name)))
            self.assertGreater(len(named), 8, name)
            self.assertEqual(named - told, set(), name)


if __name__ == "__main__":
    unittest.main()
