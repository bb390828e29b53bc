"""Does tools/statements see that a theorem says something else than docs/STATEMENTS.md, and that no law leans on it?"""

import unittest

from sound import ONE, SOUND, with_breaks

PAGE, AUDIT, LEAN = "docs/STATEMENTS.md", "docs/AUDIT.md", "crates/audit/proofs/Lean.antt"
FIRST, SECOND = ("### `" + part for part in SOUND[PAGE].split("### `")[1:])

BREAKS = [
    # a statement emptied, by a short name too, and a section's parameters changed, in the sources
    (ONE, "(n : ℕ) → twice n ≡ twice n", "(n : ℕ) → n ≡ n", 'twice n ≡ twice n"; the sources say "pub twice_is : (n : ℕ) → n ≡ n"'),
    (ONE, "twice k ≡ twice k", "k ≡ k", "under twice_again: the page says"),
    (ONE, "module _ (k : ℕ) where", "module _ (k j : ℕ) where", 'the sources say "module _ (k j : ℕ) where"'),
    (ONE, "  pub twice_again :", "  abbrev twice : ℕ → ℕ\n  twice x = 0\n\n  pub twice_again :", 'the sources say "abbrev twice : ℕ → ℕ" and 1 more'),
    # on the page: one missing, one too many, another order, other words
    (PAGE, FIRST, "", 'docs/STATEMENTS.md:8, under twice?: the page says nothing; the sources say "### `twice_is`" and 7 more'),
    (PAGE, SECOND, SECOND + "\n" + FIRST.replace("twice_is", "thrice_is"), 'the page says "### `thrice_is`" and'),
    (PAGE, FIRST + SECOND, SECOND + "\n" + FIRST.rstrip("\n") + "\n", 'docs/STATEMENTS.md:18, under twice_again: the page says "### `twice_is`" and 7 more'),
    (PAGE, "## twice?", "## thrice?", 'under twice?: the page says "## thrice?"'),
    (PAGE, "word for word", "in short", "under What the theorems say"),
    # no law leans: it is gone, its proof is another, it names the theorem in its statement alone
    (LEAN, "sym (twice_is n)", "refl", "no law of audit leans on twice_is in small/proofs/One.antt"),
    (LEAN, "sym (one.twice_again k)", "refl", "no law of audit leans on twice_again in small/proofs/One.antt"),
    (LEAN, "twice n ≡ twice n\ntwice_turned n = sym (twice_is n)", "twice_is n ≡ twice_is n\ntwice_turned n = refl", "no law of audit leans on twice_is"),
    (LEAN, "pub twice_turned :", "pub turned :", "under twice_is: the page says"),
    # what the audit page names
    (AUDIT, "`twice_is`", "`thrice_is`", "no theorem thrice_is in small/proofs/One.antt"),
    (AUDIT, "`.._again`", "`.._never`", "no theorem .._never in small/proofs/One.antt"),
    (AUDIT, "`.._again`", "`.._again`, `told_one`", "no law of audit leans on told_one"),
    (AUDIT, "| | `.._again` | `small/proofs/One.antt` | it is, again |\n", "", 'the page says "### `twice_again`" and'),
    (AUDIT, "| twice? |", "| thrice? |", 'the sources say "## thrice?"'),
]


@with_breaks("statements", BREAKS)
class Statements(unittest.TestCase):
    """The sound tree passes, and each break of it is seen."""


if __name__ == "__main__":
    unittest.main()
