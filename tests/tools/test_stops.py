"""Does tools/differ see an edit whose program does not stop as it says, and does tools/wrong not count one that stops?"""

import os
import tempfile
import unittest
from unittest import mock

from small_try import ENDED
from sound import SOUND, told, write

STOPS = """# function: small::double
# a number that does not fit
file: src/lib.rt
in: double
old:     n + n
new:     n + n + 18446744073709551615
input: n = 3
right: result = 6
wrong: stops = Overflow
"""
FAIL = "the end of the program's standard output:\n| result =\ninterpreter: fault kind=x in=small::double: undefined behavior (`%s`): no matter\nrun=fault proved=no\n"

# what the run of the edited program says, its exit status, and a part of what `differ` has to say of it
OTHER = [
    (FAIL % "Bounds", 4, "the wrong answer is another: status 4: interpreter: fault kind=x"),
    ("run=differs proved=no\n", 5, "the wrong answer is another: status 5: run=differs"),
    ("", 1, "the wrong answer is another: status 1"),
    ("", 0, "the wrong answer is another: status 0"),
    (ENDED + "\n", 0, "the wrong answer is another: it gives the right answer"),
]


def tried(said="", status=0, text=STOPS):
    """The exit status and the words of `differ` on an edit, with a run of the edited program that says this and ends so."""
    with tempfile.TemporaryDirectory() as root:
        right = "cat stdout; grep -q 18446744073709551615 ../small*/src/lib.rt || { echo %s >&2; exit 0; }" % ENDED
        runner = '#!/bin/sh\n%s\ncat "%s/said" >&2\nexit %d\n' % (right, root, status)
        write(root, dict(SOUND, said=said, **{"bin/rt": runner, "tests/wrong/small/stops.edit": text}))
        os.chmod(os.path.join(root, "bin", "rt"), 0o755)
        with mock.patch.dict(os.environ, PATH=os.path.join(root, "bin") + os.pathsep + os.environ["PATH"]):
            return told("differ", ["--root=" + root, "small/stops"])


class Stops(unittest.TestCase):
    """An edit that names how its program stops."""

    def test_stopped(self):
        """The program stops as the edit says."""
        status, said = tried(FAIL % "Overflow", 4)
        self.assertIn("differ: 1 wrong answers, 0 not shown", said)
        self.assertEqual(status, 0)

    def test_other(self):
        """It stops otherwise, gives an answer, or the right one."""
        for run, ended, words in OTHER:
            with self.subTest(words):
                status, said = tried(run, ended)
                self.assertIn("stops.edit: " + words, said)
                self.assertIn("1 wrong answers, 1 not shown", said)
                self.assertEqual(status, 1)

    def test_unfit(self):
        """The right answer is looked at as ever, and a stop stands alone."""
        for old, new, words in (
            ("right: result = 6\n", "", "it has to name an input and the two answers"),
            ("right: result", "right: n", "the function does not write n"),
            ("wrong: stops", "wrong: result = 9\nwrong: stops", "the two answers are not of the same things"),
        ):
            with self.subTest(words):
                status, said = tried(FAIL % "Overflow", 4, STOPS.replace(old, new))
                self.assertIn("stops.edit: " + words, said)
                self.assertEqual(status, 1)

    def test_not_counted(self):
        """It is none of the two wrong answers that a function needs."""
        with tempfile.TemporaryDirectory() as root:
            write(root, dict(SOUND, **{"tests/wrong/small/thrice.edit": STOPS}))
            status, said = told("wrong", ["--root=" + root, "--list"])
        self.assertIn("small::double: 1 wrong answers are named, and 2 are needed", said)
        self.assertEqual(status, 1)


if __name__ == "__main__":
    unittest.main()
