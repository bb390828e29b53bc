"""Does tools/edges see an edge that no source names, a name that is not listed, and a crate that names one on no floor below it?"""

import unittest

from sound import broken, exits, run, with_breaks

TREE = {
    "crates.txt": """# Crates.
# floor 0, in order: laws
base:
upper: base
# floor 1: data
left: base upper
right: base
# floor 2: programs
main: base left io libc json
door staticlib: left
""",
    "crates/base/src/lib.rt": "mod words;\n\npub fn one() -> usize {\n    words::one() + base::one()\n}\n",
    "crates/base/src/words.rt": "// left::two is no name here, nor is\npub fn one() -> usize {\n    let told = \"right::two\";\n    1\n}\n",
    "crates/upper/src/lib.rt": "ghost use Rattle.base.specs.One.{one};\n",
    "crates/upper/specs/Two.antt": "-- Not of Rattle.left.specs.Two.\nuse Rattle.upper.specs.One.{one}\n",
    "crates/left/src/lib.rt": "mod right;\n\npub fn two() -> usize {\n    base::one() + right::three()\n}\n",
    "crates/left/proofs/two/Proof.antt": "use Rattle.left.proofs.Two.{two}\nuse Rattle.upper.proofs.Two.{two}\n",
    "crates/right/out/rlib/right.rlib/lang/src/lib.rt": "pub fn three() -> usize {\n    left::three()\n}\n",
    "crates/right/specs/Three.antt": "use Rattle.base.specs.One.{one}\n",
    "crates/main/src/main.rt": "use libc::STDOUT_FILENO;\n\nfn main() {\n    io::print(STDOUT_FILENO, json::three(left::two() + base::one()));\n}\n",
    "crates/door/src/lib.rt": "ghost use Rattle.std.specs.Prelude.{right};\nuse left::two as it;\nuse std::{fmt, io::{self, right, Write as base}};\n\n"
    "pub fn two() -> io::Result<usize> {\n    right::two() + base::two() + it()\n}\n",
}

BREAKS = [
    ("crates.txt", "right: base\n", "right: base upper\n", "right lists upper, which it does not name"),
    ("crates.txt", "main: base left io libc json", "main: base left io libc json os", "main lists os, which it does not name"),
    ("crates.txt", "left: base upper", "left: upper", "left names base, which it does not list"),
    ("crates.txt", "left: base upper", "left: base", "left names upper, which it does not list"),
    ("crates.txt", "left: base upper", "left: base base upper", "left has to list base upper, in this order"),
    ("crates.txt", "left: base upper", "left: upper base", "left has to list base upper, in this order"),
    ("crates.txt", "main: base left io libc json", "main: io libc json base left", "main has to list base left io libc json, in this order"),
    ("crates.txt", "main: base left io libc json", "main: base left libc json", "main names io, which it does not list"),
    ("crates.txt", "door staticlib: left", "door staticlib: left io", "door lists io, which it does not name"),
    ("crates.txt", "door staticlib: left", "door staticlib: base left", "door lists base, which it does not name"),
    ("crates.txt", "door staticlib: left", "door staticlib:", "door names left, which it does not list"),
    ("crates.txt", "door staticlib: left", "door staticlib: left json", "door lists json, which it does not name"),
    ("crates/door/src/lib.rt", "use std::{fmt, io::{self, right, Write as base}};", "use std::{fmt, io::right, Write as base};", "door names io, which it does not list"),
    ("crates/door/src/lib.rt", "right, Write", "Write", "door names right, which it does not list"),
    ("crates/door/src/lib.rt", "Write as base", "Write", "door names base, which it does not list"),
    ("crates/door/src/lib.rt", "use left::two as it;", "use left::two as it;\nuse base;", "door names base, which it does not list"),
    ("crates/door/src/lib.rt", "right::two()", "json::two()", "door names json, which it does not list"),
    ("crates.txt", "# floor 0, in order: laws", "# floor 0: laws", "upper names base, which stands on no floor below it"),
    ("crates.txt", "base:\nupper: base\n", "upper: base\nbase:\n", "upper names base, which stands on no floor below it"),
    ("crates.txt", "# floor 2: programs", "# programs", "main names left, which stands on no floor below it"),
    ("crates.txt", "# floor 2: programs", "# floor 0, in order: programs", "main names left, which stands on no floor below it"),
    ("crates/right/specs/Three.antt", "base.specs.One.{one}", "left.specs.Two.{two}", "right names left, which stands on no floor below it"),
    ("crates/base/src/lib.rt", "words::one()", "upper::one()", "base names upper, which stands on no floor below it"),
    ("crates/right/src/lib.rt", None, "pub fn three() -> usize {\n    upper::two()\n}\n", "right names upper, which it does not list"),
    ("crates/upper/proofs/Two.antt", None, "use Rattle.left.specs.Two.{two}\n", "upper names left, which it does not list"),
]


@with_breaks("edges", BREAKS, TREE)
class Edges(unittest.TestCase):
    """The sound tree passes, each break of it is seen, and the list that is printed is that of the sound tree."""

    def test_exit(self):
        self.assertEqual(exits("edges", broken(TREE, *BREAKS[0][:3])), 1)

    def test_print(self):
        for name, old, new, _ in BREAKS[:12]:
            with self.subTest(new):
                self.assertEqual(run("edges", broken(TREE, name, old, new), ["--print"]), (0, TREE["crates.txt"]))


if __name__ == "__main__":
    unittest.main()
