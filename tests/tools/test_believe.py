"""Does tools/believe see that the audit page counts other lines than there are?"""

import tempfile
import unittest

from sound import LIB, ONE, SOUND, SUMS, exits, told, with_breaks, write

MORE, SHEET, AUDIT = "crates/small/specs/More.antt", "crates/sheet/specs/Sheet.antt", "docs/AUDIT.md"
KINDS, ASKS, APART = "crates/kinds/src/lib.rt", "crates/asks/src/lib.rt", "crates/apart/src/lib.rt"

TREE = dict(SOUND, **{
    MORE: """-- More.
use Rattle.std.specs.Prelude.{ℕ, ◌+◌}
use Rattle.small.specs.Sums.{twice as doubled}
use Rattle.small.specs.Deep as deep
use Rattle.small.specs.declared.Count.{Count}
pub use Rattle.small.specs.Deep.{deepest as lowest}
infixl 6 ◌⊕◌

module _ (k : deep.Kind) where
  -- in a section
  pub six : ℕ → ℕ
  six n = doubled n ⊕ doubled n -- and unused

  pub seven : ℕ
  seven = unused

-- a sum
pub ◌⊕◌ : ℕ → ℕ → ℕ
a ⊕ b = a + b

-- a case of a choice
pub data Choice : Type 0 where
  left : Choice
  right : Count → Choice

-- a record that has a field and fills one
pub record Pair : Type 0 where
  pub first : ℕ
  pub second : ℕ

pub pair : Pair
pair = record { first = 1; second = (six 2) }

pub unused : ℕ
unused = 5
""",
    "crates/small/specs/Deep.antt": "-- Deep.\npub Kind : Type 1\nKind = Type 0\n\npub deepest : Kind\ndeepest = Kind\n\npub Wide : Type 0\nWide = ℕ\n",
    ONE: SOUND[ONE] + """
module _ (w : deep.Wide) where
  -- its statement alone is believed, not its proof
  pub six_is : (p : Pair)
    → p.first ≡ pair.second → left ≡ left
  six_is p = unused

hidden_is : unused ≡ deepest
hidden_is = refl
""",
    "crates/sheet/src/lib.rt": """ghost use Rattle.sheet.specs.Sheet.{Sheet};

// A sheet.
pub fn sheet(out: &mut [u8])

    // nothing is demanded
    ensures { Sheet out.new }
{
}
""",
    SHEET: "use Rattle.small.specs.Sums.{twice}\npub Sheet : List ℕ → Type 0\nSheet l =\n\n  length l ≡ twice 4\n",
    # a trait with ghost members and a type, with what has it in two crates; another trait of that name, and other members
    KINDS: """ghost use Rattle.std.specs.Prelude.{ℕ, List};
ghost use Rattle.kinds.specs.Sizes.{size_of, other};

use small::Count;

pub struct Held {
    one: u8,
}

// A kind.
pub trait Kind: Copy {
    type Each;

    ghost size: { List Self.Each → ℕ };

    ghost small: { (l : List Self.Each)
        → size l ≡ 0 };

    fn size(&self) -> usize
        ensures { result ≡ other }
}

impl<'a> Kind for &'a Count {
    type Each = u8;

    ghost size = { λ l. size_of l };

    ghost small = { other };
}
""",
    "crates/kinds/specs/Sizes.antt": "pub size_of : List ℕ → ℕ\nsize_of l =\n  0\n\npub other : ℕ\nother = 1\n",
    ASKS: """ghost use Rattle.std.specs.Prelude.{◌≡◌};
ghost use Rattle.asks.specs.Own.{none};

use kinds::{Kind};
use small::Count;

pub struct Own {
    one: u8,
}

impl Kind for Own {
    type Each = Count;

    ghost size = { none };
}

// How large.
pub fn ask<D, C: Kind>(c: C, d: D) -> usize
    ensures { result ≡ C.size c }
{
    c.size()
}
""",
    "crates/asks/specs/Own.antt": "pub none : ℕ\nnone = 0\n",
    APART: """ghost use Rattle.kinds.specs.Sizes.{other};

pub trait Kind {
    ghost size: { other };
}

impl Kind for u8 {
    ghost size = { other };
}
""",
    "docs/SETTLED.md": SOUND["docs/SETTLED.md"] + "| `sheet::sheet` | by equation |\n| `asks::ask` | by equation |\n\n| Function | Law |\n|---|---|\n| `small::double` | by equation |\n",
    AUDIT: """# Audit

| Question | Theorem | File | In words |
|---|---|---|---|
| twice? | `.._is` | `small/proofs/One.antt` | it is |

## What must be believed

The 8 lines of the 4 contracts: `make test`.

| File | Lines | What |
|---|---|---|
| `small/specs/More.antt` | 13 | more |
| `small/specs/Sums.antt` | 11 | all |
| `small/specs/Deep.antt` | 4 | deep |
| `kinds/src/lib.rt` | 6 | a kind |
| `kinds/specs/Sizes.antt` | 2 | a size |
| `asks/src/lib.rt` | 3 | a kind more |
| `asks/specs/Own.antt` | 2 | its size |
| `small/src/lib.rt` | 4 | a struct |
| `sheet/specs/Sheet.antt` | 2 | a sheet |
| together | 47 | |

The last one rows are the map file, its sheet and the C functions; the questions alone rest on 45 lines.

| Other | Lines |
|---|---|
| `small/specs/Sums.antt` | 1 |
""",
})
TREE[ONE] = TREE[ONE].replace("{Told, twice}\n", "{Told, twice}\nuse Rattle.small.specs.More.{Pair, pair, left, unused}\nuse Rattle.small.specs.Deep as deep\nuse Rattle.small.specs.Deep.{deepest}\n")

BREAKS = [
    # the table: lines of a file, a file that is not reached, one that is not told, one told twice, their sum
    (AUDIT, "More.antt` | 13 |", "More.antt` | 12 |", "says 12 lines of small/specs/More.antt, there are 13"),
    (AUDIT, "| `small/src/lib.rt` | 4 |", "| `small/proofs/One.antt` | 4 | |\n| `small/src/lib.rt` | 4 |",
     "says 4 lines of small/proofs/One.antt, there are none"),
    (AUDIT, "| `small/specs/Sums.antt` | 11 | all |\n", "", "says no lines of small/specs/Sums.antt, there are 11"),
    (AUDIT, "| 11 | all |\n", "| 11 | all |\n| `small/specs/Sums.antt` | 11 | again |\n", "says 11 and 11 lines of small/specs/Sums.antt"),
    (AUDIT, "| together | 47 |", "| together | 48 |", "does not end its table with: together 47"),
    (AUDIT, "| together | 47 | |\n", "", "does not end its table with: together 47"),
    (AUDIT, "| together | 47 | |\n", "| together | 47 | |\n| together | 47 | |\n| `small/src/lib.rt` | 4 | |\n",
     "does not end its table with: together 47"),
    (AUDIT, "## What must be believed", "## What may be believed", "says no lines of small/specs/More.antt"),
    # what the questions alone rest on
    (AUDIT, "rest on 45 lines", "rest on 48 lines", "does not say once: The last 1 rows .. rest on 45 lines"),
    (AUDIT, "The last one rows", "The last two rows", "does not say once: The last 1 rows"),
    (AUDIT, "lines.\n", "lines. The last one rows are the map file, its sheet and the C functions; the questions alone rest on 48 lines.\n",
     "does not say once: The last 1 rows"),
    (AUDIT, "The last one rows", "The rows", "does not say once: The last 1 rows"),
    (AUDIT, "| `small/src/lib.rt` | 4 | a struct |\n| `sheet/specs/Sheet.antt` | 2 | a sheet |\n", "| `sheet/specs/Sheet.antt` | 2 | a sheet |\n| `small/src/lib.rt` | 4 | a struct |\n",
     "the last rows are not: sheet/specs/Sheet.antt"),
    # the contracts
    (AUDIT, "8 lines of the 4 contracts", "9 lines of the 4 contracts", "does not say once: 8 lines of the 4 contracts"),
    (AUDIT, "8 lines of the 4 contracts", "8 lines of the 5 contracts", "does not say once: 8 lines of the 4 contracts"),
    (AUDIT, "contracts: `make test`", "contracts, 9 lines of the 4 contracts", "does not say once: 8 lines of the 4 contracts"),
    (LIB, "out.new result }", "out.new result }\n    ensures low { 0 ≤ n }", "does not say once: 9 lines of the 4 contracts"),
    (LIB, "pub fn tell(out: &mut [u8], n: usize) -> usize", "pub fn tell(\n    out: &mut [u8],\n    n: usize,\n) -> usize", "does not say once: 11 lines"),
    ("docs/SETTLED.md", "`sheet::sheet`", "`sheet::sheets`", "no public function sheet::sheets"),
    ("docs/SETTLED.md", "| `sheet::sheet` | by equation |\n", "", "does not say once: 6 lines of the 3 contracts"),
    # the theorems
    (AUDIT, "`.._is`", "`.._was`", "no theorem .._was in small/proofs/One.antt"),
    (AUDIT, "`.._is`", "`.._is`, `told`", "no theorem told in small/proofs/One.antt"),
    (AUDIT, "`.._is`", "all", "no theorem or no file: twice? | all"),
    (AUDIT, "`small/proofs/One.antt` | it is", "all | it is", "no theorem or no file: twice? | `.._is` | all"),
    (AUDIT, "`small/proofs/One.antt` | it is", "`small/proofs/Two.antt` | it is", "no theorem .._is in small/proofs/Two.antt"),
    # what is reached: a line more of a definition, of a section, of a struct; a name more
    (SUMS, "twice n = n + n", "twice 0 = 0\ntwice n = n + n", "says 11 lines of small/specs/Sums.antt, there are 12"),
    (SUMS, "twice n = n + n", "twice n =\n    let m = n in\n    (m + n)", "says 11 lines of small/specs/Sums.antt, there are 12"),
    (SUMS, "twice n = n + n", "twice n = m\n  where\n    m : ℕ\n    m = n + n", "says 11 lines of small/specs/Sums.antt, there are 14"),
    (MORE, "module _ (k : deep.Kind) where", "module _ where", "says 4 lines of small/specs/Deep.antt, there are 2"),
    (MORE, "  left : Choice\n", "  left : Choice\n  other : Choice\n", "says 13 lines of small/specs/More.antt, there are 14"),
    (MORE, "a ⊕ b = a + b", "a ⊕ b = a + unused", "says 13 lines of small/specs/More.antt, there are 15"),
    (MORE, "  pub seven : ℕ", "  pub seven : ℕ\n  seven = six", "does not") if False else
    (LIB, "    pub number: usize,\n", "    pub number: usize,\n    pub more: usize,\n", "says 4 lines of small/src/lib.rt, there are 5"),
    (ONE, "(w : deep.Wide)", "(w : ℕ)", "says 4 lines of small/specs/Deep.antt, there are 2"),
    (ONE, "→ left ≡ left", "→ left ≡ deepest", "says 4 lines of small/specs/Deep.antt, there are 6"),
    (SHEET, "{twice}\npub Sheet : List ℕ", "{twice}\nuse Rattle.small.specs.Deep\npub Sheet : List Deep.deepest",
     "says 4 lines of small/specs/Deep.antt, there are 6"),
    (SHEET, "{twice}\npub Sheet : List ℕ", "{twice}\nuse Rattle.small.specs.More.{lowest}\npub Sheet : List lowest",
     "says 4 lines of small/specs/Deep.antt, there are 6"),
    (SHEET, "\n  length l", "\n  let k = 4 in\n  length l", "says 2 lines of sheet/specs/Sheet.antt, there are 3"),
    # members of a bound: one less, another one, one that no bound has; a name more of one; one more that has the trait, and no other trait of that name
    (ASKS, "    ghost size = { none };\n", "", "says 3 lines of asks/src/lib.rt, there are 2"),
    (ASKS, "C.size c", "C.small c", "says 2 lines of asks/specs/Own.antt, there are none"),
    (ASKS, "C.size c", "C.large c", "asks::ask names C.large, and no bound of ours has it"),
    (ASKS, "<D, C: Kind>", "<D, C: Copy>", "asks::ask names C.size, and no bound of ours has it"),
    (ASKS, "<D, C: Kind>", "<D: Kind, C>", "asks::ask names C.size, and no bound of ours has it"),
    (ASKS, "use kinds::{Kind};", "use apart::{Kind};", "says 6 lines of kinds/src/lib.rt, there are none"),
    (KINDS, "size: { List Self.Each → ℕ }", "size: { List ℕ → ℕ }", "says 6 lines of kinds/src/lib.rt, there are 4"),
    (KINDS, "size_of l }", "size_of (other l) }", "says 2 lines of kinds/specs/Sizes.antt, there are 4"),
    (KINDS, "size: { List", "size: { other List", "says 2 lines of kinds/specs/Sizes.antt, there are 4"),
    (KINDS, "type Each = u8;\n", "type Each = Held;\n", "says 6 lines of kinds/src/lib.rt, there are 9"),
    (APART, "pub trait Kind {\n    ghost size: { other };\n}\n", "use kinds::Kind;\n", "says no lines of apart/src/lib.rt, there are 2"),
]


# the same, with lines broken: within a bracket, before an operator, behind `=`, between arguments
BROKEN = [
    (SUMS, "twice n = n + n", "twice n =\n    n + n"),
    (SUMS, "twice n = n + n", "twice n = n\n    + n"),
    (SUMS, "record { number = x; length = n; out = l }", "record {\n  number = x;\n  length = n;\n  out = l;\n}"),
    (SUMS, "pub kept : after ≡ before", "pub kept :\n      after\n      ≡ before"),
    (SUMS, "packed x n l = ", "packed x\n    (n)\n    (l) = "),
    (MORE, "module _ (k : deep.Kind) where", "module _\n    (k : deep.Kind) where"),
    (LIB, "{ Told n out.old out.new result }", "{ Told n\n        out.old\n        out.new result }"),
    (KINDS, "ghost size: { List Self.Each → ℕ };", "ghost size: {\n        List Self.Each\n        → ℕ\n    };"),
    (KINDS, "impl<'a> Kind for &'a Count {", "impl<'a> Kind for\n    &'a Count\n{"),
]


def told_of(files, option):
    """What the tool says of a tree, with an option."""
    with tempfile.TemporaryDirectory() as root:
        write(root, files)
        return told("believe", [option, root])


@with_breaks("believe", BREAKS, TREE)
class Believe(unittest.TestCase):
    """The sound tree passes, and each break of it is seen."""

    def test_exit(self):
        self.assertEqual(exits("believe", dict(TREE, **{AUDIT: TREE[AUDIT].replace("rest on 45 lines", "rest on 54 lines")})), 1)

    def test_broken_lines(self):
        for file, old, new in BROKEN:
            with self.subTest(new):
                self.assertEqual(TREE[file].count(old), 1)
                self.assertEqual(exits("believe", dict(TREE, **{file: TREE[file].replace(old, new)})), 0)

    def test_names(self):
        status, said = told_of(TREE, "--names")
        self.assertEqual(status, 0)
        self.assertIn("| `small/specs/More.antt` | 13 | Choice, Pair, pair, six, ◌⊕◌\n", said)
        self.assertIn("contracts: 8 lines of 4 functions; the questions alone: 45\n", said)
        self.assertIn("| `small/specs/More.antt` | 13 |\n", told_of(TREE, "--print")[1])


if __name__ == "__main__":
    unittest.main()
