"""Does tests/tools/weaker see a weakening that no test sees, and one that is none?"""

import contextlib
import io
import os
import runpy
import shutil
import tempfile
import unittest

from sound import write

WEAKER = os.path.join(os.path.dirname(os.path.abspath(__file__)), "weaker")
# tests of a small tool, which say what unittest says, and load in no time
TEST = """import os, sys
sys.path.insert(0, os.path.join(os.path.dirname(os.path.abspath(__file__)), "..", "..", "tools"))
ended = []
for name, n, wanted in (("test_sound", 1, True), ("test_break", 10, False)):
    try:
        import small
        ended += ["FAIL: " + name] if small.is_small(n) != wanted else []
    except (SyntaxError, ZeroDivisionError):
        ended += ["ERROR: " + name]
sys.exit("\\n".join(ended) if ended else 0)
"""
SMALL = {
    "tools/small.py": "def is_small(n):\n    if n > 5:\n        return False\n    return n < 9 or n == 20\n",
    "tests/tools/test_small.py": TEST,
    "tests/tools/weaker_small.txt": """# all
file: tools/small.py
old:     if n > 5:
old:         return False
new:     if n > 50:
new:         return True
new:     n = 0
""",
}
# the old text, the new text, and what the runner has to say of it
BREAKS = [
    ("n == 20", "n == 21", "NOT SEEN: no test of test_small.py fails"),
    ("n > 5", "n > 5 and 1 // 0", "NOT SEEN: no test of test_small.py fails"),
    ("return", "not", "its old text stands 2 times in tools/small.py"),
    ("n > 7", "n > 8", "its old text stands 0 times in tools/small.py"),
    ("", "n > 8", "its old text stands 0 times in tools/small.py"),
    ("n > 5", "n > 5", "it changes nothing"),
    ("n > 5", "n > 0", "what is sound no longer passes: it is not weaker"),
    ("n > 5", "n > ", "what is sound no longer passes: it is not weaker"),
]


def run(files):
    """The exit status of the runner on a tree of these files, and what it says."""
    said = io.StringIO()
    with tempfile.TemporaryDirectory() as root:
        write(root, files)
        copy = shutil.copy(WEAKER, os.path.join(root, "tests", "tools"))
        with contextlib.redirect_stdout(said):
            return runpy.run_path(copy)["main"]([]), said.getvalue()


class Weaker(unittest.TestCase):
    """A weakening that a test sees passes; each other one is said."""

    def test_sound(self):
        self.assertEqual(run(SMALL), (0, "weaker: 1 passed, 0 failed\n"))

    def test_breaks(self):
        listed = "".join("file: tools/small.py\nold: %s\nnew: %s\n\n" % (old, new) for old, new, _ in BREAKS)
        status, said = run(dict(SMALL, **{"tests/tools/weaker_small.txt": listed}))
        words = ["weaker: weaker_small.txt:%d: %s" % (4 * k + 1, words) for k, (_, _, words) in enumerate(BREAKS)]
        self.assertEqual(said.split("\n"), words + ["weaker: 0 passed, %d failed" % len(BREAKS), ""])
        self.assertEqual(status, 1)

    def test_lists(self):
        """A list that is none, or that lists nothing; tests that fail by themselves; no list at all."""
        for name, text, words in (
            ("tests/tools/weaker_small.txt", "file: tools/small.py\nand so on\n", "weaker_small.txt:2: no line of a weakening"),
            ("tests/tools/weaker_small.txt", "file: tools/large.py\n", "there is no file tools/large.py"),
            ("tests/tools/weaker_small.txt", "# none\n", "no weakening is listed"),
            ("tests/tools/test_small.py", TEST.replace("10, False", "10, True"), "its tests fail without one"),
            ("tests/tools/weaker_small.txt", None, "weaker: 0 passed, 0 failed"),
        ):
            with self.subTest(words):
                files = dict(SMALL, **{name: text})
                if text is None:
                    del files[name]
                status, said = run(files)
                self.assertIn(words, said)
                self.assertEqual(status, 1)


if __name__ == "__main__":
    unittest.main()
