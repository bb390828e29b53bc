"""Does tools/columns see a line that is too long, in code, definitions and proofs, and count characters?"""

import unittest

from sound import LIB, ONE, SOUND, SUMS, exits, with_breaks


def wide(columns, start):
    """A comment of so many columns, with letters of more than one byte."""
    return start + " " + "λ" * (columns - len(start) - 1) + "\n"


BREAKS = [
    (LIB, "// Twice a number.\n", wide(141, "//"), "crates/small/src/lib.rt:14 has 141 columns, more than 140"),
    (SUMS, "-- twice a number\n", wide(141, "--"), "crates/small/specs/Sums.antt:4 has 141 columns, more than 140"),
    (ONE, "-- twice is twice\n", wide(201, "--"), "crates/small/proofs/One.antt:10 has 201 columns, more than 200"),
    (ONE, "  twice_again = refl\n", "  twice_again = refl\n" + wide(250, "--"), "One.antt:17 has 250 columns, more than 200"),
]
SHORT = [(LIB, "// Twice a number.\n", wide(140, "//")), (SUMS, "-- twice a number\n", wide(140, "--")), (ONE, "-- twice is twice\n", wide(200, "--"))]


@with_breaks("columns", BREAKS)
class Columns(unittest.TestCase):
    """The sound tree passes, and each break of it is seen."""

    def test_just_short_enough(self):
        for file, old, new in SHORT:
            with self.subTest(file):
                self.assertEqual(SOUND[file].count(old), 1)
                self.assertEqual(exits("columns", dict(SOUND, **{file: SOUND[file].replace(old, new)})), 0)

    def test_deep_proofs_and_modules(self):
        for file, most in (("crates/small/proofs/double/Proof.antt", 200), ("crates/small/src/deep/two.rt", 140)):
            with self.subTest(file):
                self.assertEqual(exits("columns", dict(SOUND, **{file: wide(most, "--")})), 0)
                self.assertEqual(exits("columns", dict(SOUND, **{file: wide(most + 1, "--")})), 1)

    def test_other_files(self):
        for file in ("crates/small/LIST.md", "crates/small/out/rlib/small.rlib/lang/src/lib.rt"):
            with self.subTest(file):
                self.assertEqual(exits("columns", dict(SOUND, **{file: wide(300, "//")})), 0)

    def test_nothing_there(self):
        self.assertEqual(exits("columns", {"README.md": "none\n"}), 1)


if __name__ == "__main__":
    unittest.main()
