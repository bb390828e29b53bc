"""Does tests/units see that there is nothing to run?"""

import os
import shutil
import subprocess
import sys
import tempfile
import unittest

UNITS = os.path.join(os.path.dirname(os.path.dirname(os.path.abspath(__file__))), "units")
TEST = "import unittest\n\n\nclass One(unittest.TestCase):\n    def test_one(self):\n        self.assertTrue(%s)\n"


def run(files):
    """The exit status of the runner on folders with these files, and what it says."""
    with tempfile.TemporaryDirectory() as top:
        shutil.copy(UNITS, top)
        for folder in ("mapfile", "tools"):
            os.mkdir(os.path.join(top, folder))
        for name, text in files.items():
            with open(os.path.join(top, name), "w", encoding="utf-8") as f:
                f.write(text)
        done = subprocess.run([sys.executable, os.path.join(top, "units")], capture_output=True, text=True, check=False)
        return done.returncode, done.stdout


SOUND = {"mapfile/test_a.py": TEST % "True", "tools/test_b.py": TEST % "True"}


class Units(unittest.TestCase):
    """Sound folders pass; no module, no test, a failed and a skipped test are seen."""

    def test_sound(self):
        status, said = run(SOUND)
        self.assertEqual(status, 0, said)
        self.assertIn("units: 2 tests, 0 failed, 0 wrong", said)

    def test_breaks(self):
        skipped = (TEST % "True").replace("    def", "    @unittest.skip('no')\n    def")
        for name, text, words in (
            ("tools/test_b.py", None, "no tests in tests/tools"),
            ("tools/test_b.py", "import unittest\n", "no test in tests/tools/test_b.py"),
            ("tools/test_b.py", TEST % "False", "units: 2 tests, 1 failed, 0 wrong"),
            ("tools/test_b.py", "import nothing_of_that_name\n", "1 failed"),
            ("tools/test_b.py", skipped, "tests/tools/test_b.py: 0 of 1 tests ran"),
        ):
            with self.subTest(words):
                files = dict(SOUND, **{name: text})
                if text is None:
                    del files[name]
                status, said = run(files)
                self.assertEqual(status, 1, said)
                self.assertIn(words, said)


if __name__ == "__main__":
    unittest.main()
