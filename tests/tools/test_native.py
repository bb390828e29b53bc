"""Do tools/native-program, tools/run-program and tools/native-archive build what is missing or older than the crates, and nothing else, and say where it is not built?"""

import os
import shutil
import subprocess
import tempfile
import unittest

from sound import TOOLS, write

TREE = {
    "crates.txt": "low:\nsmall: low\ndimetumble staticlib: low\n",
    "crates/low/src/lib.rt": "",
    "crates/low/specs/Low.antt": "",
    "crates/low/must-fail/low.edit": "",
    "crates/small/src/main.rt": "",
    "crates/small/stdin": "",
    "crates/small/proofs/main/Answers.antt": "",
    "crates/dimetumble/src/lib.rt": "",
}
# stands for `rt`: `run` makes a program that says what it is given, and runs it; `lib` makes an archive; what it does is noted
RT = r"""#!/bin/sh
name=$(basename "$PWD")
echo "$* $name" >>"$NOTES"
case $1 in
  version) echo kit; exit 0 ;;
  run) mkdir -p out/rlib; [ -z "$FAIL" ] || exit 1; printf '#!/bin/sh\necho "$0: $(cat)"\n' >out/$name; chmod +x out/$name; touch out/rlib/new.rt; exit 7 ;;
  lib) mkdir -p out; [ -z "$FAIL" ] || exit 1; echo archive >out/lib$name.a ;;
esac
"""


class Native(unittest.TestCase):
    """A tree with a program and a static library, as `rt` would build them."""

    def setUp(self):
        self.folder = tempfile.TemporaryDirectory()
        self.root = os.path.realpath(self.folder.name)
        write(self.root, dict(TREE, **{"bin/rt": RT}))
        for tool in ("native-program", "run-program", "native-archive"):
            os.makedirs(os.path.join(self.root, "tools"), exist_ok=True)
            shutil.copy(os.path.join(TOOLS, tool), os.path.join(self.root, "tools"))
        os.chmod(os.path.join(self.root, "bin", "rt"), 0o755)
        self.age(10)

    def tearDown(self):
        self.folder.cleanup()

    def age(self, seconds):
        """Makes all files of the tree older."""
        for folder, _, files in os.walk(self.root):
            for name in files:
                path = os.path.join(folder, name)
                at = os.stat(path).st_mtime - seconds
                os.utime(path, (at, at))

    def run_tool(self, *words, given="", **more):
        """The status of a tool, what it says, and what `rt` was asked for."""
        notes = os.path.join(self.root, "notes")
        write(self.root, {"notes": ""})
        known = {k: v for k, v in os.environ.items() if k != "DIMETUMBLE_ARCHIVE_DIR"}
        known.update(dict({"FAIL": "", "NOTES": notes, "PATH": os.path.join(self.root, "bin") + os.pathsep + known["PATH"]}, **more))
        done = subprocess.run([os.path.join(self.root, "tools", words[0])] + list(words[1:]), input=given, capture_output=True, text=True, env=known, check=False)
        with open(notes, encoding="utf-8") as f:
            return done.returncode, done.stdout.strip(), [line for line in f.read().split("\n") if line and not line.startswith("version")]

    def test_program(self):
        """Built where it is missing or a source is newer, and then found."""
        path = os.path.join(self.root, "crates", "small", "out", "small")
        self.assertEqual(self.run_tool("native-program", "small"), (0, path, ["run small"]))
        self.assertEqual(self.run_tool("native-program", "small"), (0, path, []))
        for name in ("crates/low/src/lib.rt", "crates/low/specs/Low.antt", "crates/small/proofs/main/Answers.antt", "crates.txt"):
            with self.subTest(name):
                self.age(10)
                write(self.root, {name: "-- newer"})
                self.assertEqual(self.run_tool("native-program", "small"), (0, path, ["run small"]))
        self.age(10)
        write(self.root, {"crates/low/must-fail/low.edit": "newer", "crates/small/stdin": "newer", "crates/low/out/rlib/low/src/lib.rt": "newer"})
        self.assertEqual(self.run_tool("native-program", "small"), (0, path, []))

    def test_run(self):
        """A program is run on what is given."""
        path = os.path.join(self.root, "crates", "small", "out", "small")
        self.assertEqual(self.run_tool("run-program", "small", given="one"), (0, path + ": one", ["run small"]))
        self.assertEqual(self.run_tool("run-program", "small", given="two"), (0, path + ": two", []))

    def test_not_built(self):
        """What is not built is no program, an older one neither; and what is none."""
        self.run_tool("native-program", "small")
        self.age(10)
        write(self.root, {"crates/low/src/lib.rt": "newer"})
        for tool, words in (("native-program", ["small"]), ("run-program", ["small"]), ("native-program", ["low"]), ("native-program", ["none"]), ("run-program", [])):
            with self.subTest(tool + " " + " ".join(words)):
                status, said, _ = self.run_tool(tool, *words, FAIL="1")
                self.assertNotEqual(status, 0)
                self.assertEqual(said, "")

    def test_archive(self):
        """The archive is made where it is missing or a source is newer, and one that is named is taken as it is."""
        made = os.path.join(self.root, "target", "native")
        self.assertEqual(self.run_tool("native-archive"), (0, made, ["lib dimetumble"]))
        self.assertTrue(os.path.exists(os.path.join(made, "libdimetumble.a")))
        self.assertEqual(self.run_tool("native-archive"), (0, made, []))
        self.age(10)
        write(self.root, {"crates/low/src/lib.rt": "newer"})
        status, said, _ = self.run_tool("native-archive", FAIL="1")
        self.assertEqual((status != 0, said), (True, ""))
        self.assertEqual(self.run_tool("native-archive"), (0, made, ["lib dimetumble"]))
        self.assertEqual(self.run_tool("native-archive", DIMETUMBLE_ARCHIVE_DIR=made), (0, made, []))
        self.assertNotEqual(self.run_tool("native-archive", DIMETUMBLE_ARCHIVE_DIR=self.root)[0], 0)
        write(self.root, {"crates.txt": "dimetumble: low\ndimetumble_c staticlib: dimetumble\n", "crates/dimetumble_c/src/lib.rt": ""})
        self.assertEqual(self.run_tool("native-archive"), (0, made, ["lib dimetumble_c"]))


if __name__ == "__main__":
    unittest.main()
