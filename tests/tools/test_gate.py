"""Does .ci/run fail where any of its parts fails, and end with the line of the prover's part? Does `make` run every check that there is?"""

import glob
import os
import shutil
import subprocess
import tempfile
import unittest

ROOT = os.path.dirname(os.path.dirname(os.path.dirname(os.path.abspath(__file__))))
LAST = "7 passed, 0 failed"
OK = "rt: ok; handles allowed: none; must-fail edits: 12 refused%s; done in this run: 1 of the 2 proofs"


def gate(said=OK % "", **fails):
    """The exit status of the gate where `rt ci` says something and some parts fail, the parts that it ran, and its last line."""
    with tempfile.TemporaryDirectory() as root:
        os.makedirs(os.path.join(root, ".ci"))
        os.makedirs(os.path.join(root, "bin"))
        shutil.copy(os.path.join(ROOT, ".ci", "run"), os.path.join(root, ".ci", "run"))
        with open(os.path.join(root, "Makefile"), "w", encoding="utf-8") as f:
            for part in ("quick", "cases"):
                f.write("%s:\n\t@echo ran-%s; exit %d\n" % (part, part, fails.get(part, 0)))
        with open(os.path.join(root, "bin", "rt"), "w", encoding="utf-8") as f:
            f.write('#!/bin/sh\n[ "$*" = ci ] && [ -f Makefile ] || exit 9\necho ran-rt\necho "%s"\necho "%s"\nexit %d\n' % (said, LAST, fails.get("rt", 0)))
        os.chmod(os.path.join(root, "bin", "rt"), 0o755)
        known = {k: v for k, v in os.environ.items() if not k.startswith(("MAKE", "MFLAGS"))}
        known["PATH"] = os.path.join(root, "bin") + os.pathsep + known["PATH"]
        done = subprocess.run(["bash", os.path.join(root, ".ci", "run")], capture_output=True, text=True, env=known, check=False)
        said = done.stdout.strip().split("\n")
        return done.returncode, [x[4:] for x in said if x.startswith("ran-")], said[-1]


def commands(target):
    """What `make` would run for a target."""
    return subprocess.run(["make", "-n", "-C", ROOT, target], capture_output=True, text=True, check=True).stdout


class Gate(unittest.TestCase):
    """The parts run in their order, and each can fail the whole."""

    def test_passes(self):
        self.assertEqual(gate(), (0, ["quick", "rt", "cases"], LAST))

    def test_fails(self):
        for part, ran in (("quick", ["quick"]), ("rt", ["quick", "rt"]), ("cases", ["quick", "rt", "cases"])):
            with self.subTest(part):
                status, parts, _ = gate(**{part: 1})
                self.assertNotEqual(status, 0)
                self.assertEqual(parts, ran)

    def test_bad_edits(self):
        """Edits that `rt ci` calls bad fail the gate, though not `rt ci`; none that is bad does not, nor do other words of that line."""
        for words, good in ((", 1 bad", False), (", 3 of them only by a limit, 2 bad", False), (", 10 bad", False), (", 0 bad", True), (", 3 of them only by a limit", True), (" bad", True)):
            with self.subTest(words):
                status, parts, last = gate(OK % words)
                self.assertEqual((status == 0, "cases" in parts, last == LAST), (good, good, good))

    def test_no_word(self):
        """Without its line `rt: ok` nothing is said of the edits; that of another line is none."""
        for said in ("rt: note: 12 refused", "say rt: ok; must-fail edits: 12 refused"):
            with self.subTest(said):
                status, parts, _ = gate(said)
                self.assertNotEqual(status, 0)
                self.assertEqual(parts, ["quick", "rt"])
        self.assertEqual(gate("note: 1 edit, 2 bad\n" + OK % ""), (0, ["quick", "rt", "cases"], LAST))

    def test_nothing_before(self):
        """What runs before `rt ci` copies, deletes and leaves out nothing, and `rt ci` has no names and no flags."""
        with open(os.path.join(ROOT, ".ci", "run"), encoding="utf-8") as f:
            before = f.read().partition("\nrt ci | tee")[0]
        commands_of = [line.split()[0] for line in before.split("\n") if line and not line.startswith("#")]
        self.assertEqual(commands_of, ["set", "cd", "command", "said=$(mktemp)", "trap", "make"])

    def test_make_test_is_the_gate(self):
        self.assertIn("bash .ci/run", commands("test"))

    def test_every_tool_is_run(self):
        quick = commands("quick")
        for tool in sorted(os.listdir(os.path.join(ROOT, "tools"))):
            if os.path.exists(os.path.join(ROOT, "tests", "tools", "test_%s.py" % tool)):
                with self.subTest(tool):
                    self.assertIn("tools/" + tool, quick)
        self.assertIn("tests/units", quick)

    def test_every_checking_tool_is_tested(self):
        others = {"mapfile", "native-archive", "native-program", "respell", "respell.tsv", "run-program"}
        for tool in sorted(os.listdir(os.path.join(ROOT, "tools"))):
            if not tool.endswith(".py") and tool not in others | {"__pycache__"}:
                with self.subTest(tool):
                    self.assertTrue(os.path.exists(os.path.join(ROOT, "tests", "tools", "test_%s.py" % tool)))

    def test_every_program_with_cases_is_run(self):
        cases, runners = commands("cases"), glob.glob(os.path.join(ROOT, "tests", "*", "run_*.py"))
        self.assertEqual(len(runners), cases.count("tools/native-program "))
        for path in runners:
            told = os.path.basename(path)[4:-3], os.path.relpath(path, ROOT)
            self.assertIn('program=$(tools/native-program %s) && python3 %s "$program"\n' % told, cases)


if __name__ == "__main__":
    unittest.main()
