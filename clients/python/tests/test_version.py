"""Program, client and package have one version, that of the file VERSION at the top of the repository."""
import os
import subprocess
import unittest

import kemtrua
from tests.helpers import IS_STAND_IN, PROGRAM, ROOT

TOP = os.path.dirname(os.path.dirname(ROOT))


@unittest.skipUnless(os.path.exists(f"{TOP}/VERSION"), "this isn't a clone of the repository")
class Version(unittest.TestCase):
    def test_the_client_has_the_number_of_the_file(self) -> None:
        with open(f"{TOP}/VERSION") as file:
            self.assertEqual(kemtrua.__version__, file.read().strip())

    def test_each_text_says_it(self) -> None:
        programs = [] if IS_STAND_IN else [PROGRAM]
        checked = subprocess.run([f"{TOP}/tools/version", "--check", *programs], capture_output=True, text=True)
        self.assertEqual(checked.returncode, 0, checked.stdout)


if __name__ == "__main__":
    unittest.main()
