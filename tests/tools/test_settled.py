"""Does tools/settled see a function that is not settled, a law that does not settle it, a list that is not whole?"""

import re
import unittest

from sound import LIB, ONE, SOUND, SUMS, broken, loaded, run, with_breaks

MORE, DEEP, TWO, SPECS, ONES = ("crates/more/" + name for name in ("src/lib.rt", "src/deep.rt", "src/deep/two.rt", "specs/More.antt", "proofs/Ones.antt"))
EVEN, OTHER, HOLDS, VIEWS = "crates/even/src/lib.rt", "crates/more/src/other.rt", "crates/more/specs/Holds.antt", "crates/more/proofs/Views.antt"
SETTLED, EXCEPTIONS = "docs/SETTLED.md", "docs/EXCEPTIONS.md"

# the sound tree with a crate that has a function for each way in which a law may be written
FILES = dict(SOUND, **{
    MORE: """ghost use Rattle.std.specs.Prelude.{◌≡◌, ◌+◌};
ghost use Rattle.std.specs.Prelude.{◌≤◌};
ghost use Rattle.small.specs.Sums.{Told, twice};
ghost use Rattle.more.specs.More.{Written, Text, Left, kept_of, is_set};
ghost use Rattle.more.specs.More as more;

pub mod deep;
mod deeper;

pub struct Pair {
    pub first: usize,
    ghost in_order: { first ≤ second },
    pub second: usize, // of the two
}

pub fn write(out_at: &mut [u8], at: usize, n: usize) -> usize
    ensures near { result ≤ at + 9 }
    ensures all { Written (Text n) «out_at».old at «out_at».new result }
{
    at
}

pub fn write_first(out: &mut [u8], n: usize) -> usize
    ensures { more.Written (more.Text n) out.old 0 out.new result }
{
    n
}

pub fn tell_again<'a>(out: &'a mut [u8], n: usize) -> usize
    ghost most: { ℕ }
    ensures { Told n out.old out.new result }
{
    n
}

pub fn tell_few(out: &mut [u8], n: usize) -> usize
    requires { n ≤ 9 }
    ensures { Told n out.old out.new result }
{
    n
}

pub fn byte(out: &mut [u8], yes: &mut u8, n: usize)
    ensures { (Told n out.old out.new (is_set yes.new)) × (yes.new ≤ 1) }
{
}

pub fn leave(out: &mut [u8], rest: &mut [u8], n: usize) -> Pair
    ensures { Left n
        (kept_of out.old n rest.old) (kept_of out.new result.first rest.new) result.second }
{
    Pair { first: n, second: n }
}

pub fn leave_named(out: &mut [u8], rest: &mut [u8], n: usize) -> Pair
    ensures { let before = out.old in
        let lent = kept_of before n rest.old in
        let left = kept_of out.new result.first
        rest.new in
        Left n lent left result.second }
{
    Pair { first: n, second: n }
}

pub fn part<'a>(list: &'a [u8], pair: Pair) -> &'a [u8]
    ensures { result.now ≡ list.now }
{
    list
}

impl Pair {
    pub fn new(first: usize, second: usize) -> Pair
        ensures { (result.first ≡ first) × ((result.second ≡ second) × (result.first ≤ 9)) }
    {
        Pair { first: first, second: second }
    }
}
""",
    DEEP: "ghost use Rattle.std.specs.Prelude.{◌≡◌};\n\npub fn same(mut n: usize) -> usize\n    ensures { result ≡ n }\n{\n    n\n}\n\nstruct Tally<'a> {\n    out: &'a mut [u8],\n}\n",
    TWO: "ghost use Rattle.std.specs.Prelude.{◌≡◌};\n\npub fn two() -> usize\n    ensures { result ≡ 2 }\n{\n    2\n}\n",
    "crates/more/src/deeper.rt": "pub fn nobody() -> usize\n{\n    2\n}\n",
    SPECS: """-- More definitions.
use Rattle.std.specs.Prelude.{◌≡◌, List, ℕ}

abbrev pub Text : ℕ → List ℕ → Type 0
Text n text = text ≡ n ∷ []

pub record Other (n : ℕ) (text : List ℕ) : Type 0 where
  pub long : n ≡ n

pub record Written (P : List ℕ → Type 0) (out : List ℕ) (at : ℕ) (after : List ℕ) (stop : ℕ) : Type 0 where
  pub text : List ℕ
  pub allowed : P text

pub record Rest : Type 0 where
  pub number : ℕ
  pub list : List ℕ

pub record Kept (C : Type 0) : Type 0 where
  pub out : List C
  pub rest : Rest

abbrev pub rest_of : ℕ → List ℕ → Rest
rest_of n l =
    record {
      number = n;
      list = l;
    }

abbrev pub kept_of : List ℕ → ℕ → List ℕ → Kept ℕ
kept_of x n l = record { out = x; rest = rest_of n l }

pub record Left (n : ℕ) {C : Type 0} (before after : Kept C) (r : ℕ) : Type 0 where
  pub same : after ≡ before

abbrev pub is_set : ℕ → ℕ
is_set n = n
""",
    ONES: """-- More laws.
use Rattle.std.proofs.Common.{◌≡◌, List, ℕ}
use Prim.Native.Nat.{◌≤◌}
use Rattle.small.specs.Sums.{Told}
use Rattle.more.specs.More.{Text, Other, Written, Kept, Left, is_set}

module _ {t t' : List ℕ} where
  pub text_one : {n : ℕ} → Text n t → Text n t' → t ≡ t'
  text_one p q = p.is

pub written_one : {P : List ℕ → Type 0} {out after after' : List ℕ} {at stop stop' : ℕ} → ((t t' : List ℕ) → P t → P t' → t ≡ t') → Written P out at after stop → Written P out at after' stop' → (after ≡ after') × (stop ≡ stop')
written_one one p q = one p q

pub first_one : {n : ℕ} {out after after' : List ℕ} {r r' : ℕ} → Written (Text n) out 0 after r → Written (Text n) out 0 after' r' → (after ≡ after') × (r ≡ r')
first_one p q = written_one text_one p q

module _ {n r : ℕ} {b x : List ℕ} (p : Told n b x r) where
  pub again_one : {y : List ℕ} {s : ℕ} → Told n b y s → (s ≡ r) × (x ≡ y)
  again_one q = p

pub few_one : {n m r s : ℕ} {b x y : List ℕ} → n ≤ m → n ≤ m → Told n b x r → Told n b y s → (x ≡ y) × (r ≡ s)
few_one h i p q = (p.kept, q.is)

pub byte_one : {n : ℕ} {b x x' : List ℕ} (y y' : ℕ) → Told n b x (is_set y) → y ≤ 1 → Told n b x' (is_set y') → y' ≤ 1 → (x ≡ x') × (y ≡ y')
byte_one y y' p h q k = p

pub left_one {n : ℕ} : {C : Type 0} {b e f : Kept C} {r s : ℕ} →
    Left n b e r →
    Left n b f s →
    (e ≡ f) × (r ≡ s)
left_one p q = p
""",
    SETTLED: SOUND[SETTLED] + """
## Helpers

| Function | Law |
|---|---|
| `more::write` | `more/proofs/Ones.antt` `written_one`, `text_one` |
| `more::write_first` | `more/proofs/Ones.antt` `first_one` |
| `more::tell_again` | `more/proofs/Ones.antt` `again_one` |
| `more::tell_few` | `more/proofs/Ones.antt` `few_one` |
| `more::byte` | `more/proofs/Ones.antt` `byte_one` |
| `more::leave` | `more/proofs/Ones.antt` `left_one` |
| `more::leave_named` | `more/proofs/Ones.antt` `left_one` |
""",
    EXCEPTIONS: SOUND[EXCEPTIONS] + "| `more::tell_few` | large numbers | none |\n",
})

# with structs of what is lent, and views of results
FILES = dict(FILES, **{
    EVEN: """// What another crate lends.
pub struct Lists<'a, W> {
    pub out: &'a mut [usize],
    pub rest: &'a mut [W],
}

pub struct Tally<'a> {
    pub out: &'a mut [u8],
    pub count: usize,
}

pub struct Held<'a> {
    pub out: &'a mut [u8],
    pub rest: &'a mut [u8],
    pub most: &'a mut [u8],
}
""",
    OTHER: """ghost use Rattle.std.specs.Prelude.{◌≡◌, ◌≤◌};
ghost use Rattle.small.specs.Sums.{Told, twice};
ghost use Rattle.more.specs.More.{rest_of};
ghost use Rattle.more.specs.Holds.{Swept, held_in, lists_in, all_in, tally_of, number_after, count_after, number_in};

use even::Tally;
use even::{
    Lists, Two,
};

pub enum Trouble {
    Full,
    Bad,
}

pub struct Held<'a> {
    pub out: &'a mut [u8],
    pub rest: &'a mut [u8],
    ghost even: { length out ≡ length rest },
}

impl<'a> Held<'a> {
    pub fn clear(&mut self, n: usize)
        ensures { held_in self.new ≡ cleared n (held_in self.old) }
    {
    }

    pub fn look(&self, n: usize) -> usize
        ensures { result ≡ first_of self.now n }
    {
        n
    }
}

pub fn tell_each(held: &mut Held, n: usize)
    ensures { (held.new.out.now ≡ twice n) × (held.new.rest.now ≡ held.old.rest.now) }
{
}

pub fn tell_other<'a>(held: &'a mut even::Held<'a>, n: usize)
    ensures { (held.new.out.now ≡ twice n) × (held.new.rest.now ≡ held.old.rest.now) }
    ensures most { held.new.most.now ≡ held.old.most.now }
{
}

pub fn tally(tally: &mut Tally<'_>, n: usize)
    ensures { tally_of tally.new.out.now tally.new.count ≡ tally_of tally.old.out.now n }
{
}

pub struct Wide<'a> {
    pub pair: Two<&'a mut [u8], even::Out>,
    pub out: &'a mut [u8],
}

pub struct Found {
    pub pair: Two<u8, more::Pair>,
    pub at: usize,
}

pub fn widen<W: Into<Two<u8, W>>, F: Fn(usize) -> usize>(wide: &mut Wide, pair: Two<u8, more::Pair>, n: usize) -> Found
    ensures { (wide.new.out.now ≡ twice n) × (wide.new.pair ≡ wide.old.pair) }
    ensures { (result.pair ≡ pair) × (result.at ≡ n) }
{
    Found { pair: pair, at: n }
}

pub fn sweep<'a, W>(held: &Held, lists: &mut Lists<'a, W>, n: usize)
    ensures { Swept (first_of held n) (lists_in lists.old) (lists_in lists.new) }
{
}

pub fn sweep_all(out: &mut [u8], lists: &mut Lists<u8>, held: &mut Held, n: usize)
    ensures { Swept n (all_in out.old lists.old held.old) (all_in out.new lists.new held.new) }
{
}

pub fn tried(n: usize) -> Result<usize, other::Trouble>
    ensures { (number_after n result ≡ 0) × (count_after (twice n) result ≡ twice n) }
{
    Ok(n)
}

pub fn tried_at(out: &mut [u8], n: usize) -> Result<(), Trouble>
    ensures { rest_of (number_in result) out.new ≡ rest_of n out.old }
{
    Ok(())
}

pub fn told(out: &mut [u8], n: usize) -> Result<(), Trouble>
    ensures { Told n out.old out.new (number_in result) }
{
    Ok(())
}

// A kind of thing, which has public functions; an impl of it has none of its own.
pub trait Thing: Copy {
    type Key;

    ghost size: { Self → ℕ };

    fn fill(self, list: &mut [Self], n: usize) -> usize
        ensures { (result ≡ size self) × (list.new ≡ list.old) };

    fn least(at: usize) -> [Self::Key; 2]
        ensures { result ≡ twice at };

    fn each<F: Fn(usize) -> usize>(&self, f: F) -> usize
        ensures { result ≡ size self }
    {
        fn inner(n: usize) -> usize {
            n
        }
        inner(f(0))
    }
}

impl Thing for u8 {
    type Key = u8;

    fn fill(self, list: &mut [u8], n: usize) -> usize {
        n
    }
}

trait Own {
    fn own(self) -> usize;
}

pub(crate) trait Hidden {
    fn hidden(self) -> usize;
}
""",
    HOLDS: """-- What is lent, and what is answered.
use Rattle.std.specs.Prelude.{◌≡◌, List, ℕ, Result, Ok, Err}
use Rattle.more.specs.declared.Held as code
use Rattle.more.specs.declared.Trouble.{Trouble}
use Rattle.even.specs.declared.Lists as even

pub record Both : Type 0 where
  pub out : List ℕ
  pub rest : List ℕ

abbrev pub both_of : List ℕ → List ℕ → Both
both_of x y = record { out = x; rest = y }

abbrev pub held_in : code.Held → Both
held_in h = both_of h.out.now h.rest.now

abbrev pub lists_in : {W : Type 0} → even.Lists W → Both
lists_in l =
    record {
      out = l.out.now;
      rest = l.rest.now;
    }

pub record All : Type 0 where
  pub first : List ℕ
  pub lists : Both
  pub held : Both

abbrev pub all_in : List ℕ → even.Lists ℕ → code.Held → All
all_in x l h = record { first = x; lists = lists_in l; held = both_of h.out.now h.rest.now }

pub record Tally : Type 0 where
  pub out : List ℕ
  pub count : ℕ

abbrev pub tally_of : List ℕ → ℕ → Tally
tally_of x n = record { out = x; count = n }

pub record Swept {K : Type 0} (n : ℕ) (before after : K) : Type 0 where
  pub same : after ≡ before

abbrev pub number_in : {A : Type 0} → Result A Trouble → ℕ
number_in (Ok _) = 0
number_in (Err t) = 1

abbrev pub number_after : ℕ → Result ℕ Trouble → ℕ
number_after n (Ok _) = 0
number_after n (Err t) = n

abbrev pub count_after : ℕ → Result ℕ Trouble → ℕ
count_after n (Ok k) = k
count_after n (Err t) = n
""",
    "crates/more/specs/Same.antt": "-- Another.\nuse Rattle.std.specs.Prelude.{ℕ, Result}\n\nabbrev pub number_in : Result ℕ ℕ → ℕ\nnumber_in r = 0\n",
    VIEWS: """-- What tells all.
use Rattle.std.proofs.Common.{◌≡◌, List, ℕ}
use Rattle.std.specs.Prelude.{Result, Option}
use Rattle.small.specs.Sums.{Told}
use Rattle.more.specs.declared.Trouble as code
use Rattle.more.specs.Holds.{Swept, Both, All, number_in, number_after}
use Rattle.more.specs.Holds as holds

pub swept_one : {n : ℕ} {b e f : Both} → Swept n b e → Swept n b f → e ≡ f
swept_one p q = p

pub all_one : {n : ℕ} {b e f : All} → Swept n b e → Swept n b f → e ≡ f
all_one p q = p

pub answered_one : {n r s : ℕ} {b x y : List ℕ} → Told n b x r → Told n b y s → (x ≡ y) × (r ≡ s)
answered_one p q = p

pub number_one : (x y : Result Unit code.Trouble) → number_in x ≡ number_in y → x ≡ y
number_one x y e = e

pub both_one : (n m : ℕ) (x y : Result ℕ code.Trouble) →
    number_after n x ≡ number_after n y →
    (holds.count_after m x ≡ holds.count_after m y) → x ≡ y
both_one n m x y e f = f
""",
    SETTLED: FILES[SETTLED] + """| `more::other::sweep` | `more/proofs/Views.antt` `swept_one` |
| `more::other::sweep_all` | `more/proofs/Views.antt` `all_one` |
| `more::other::told` | `more/proofs/Views.antt` `answered_one` |

## Views

| Of | Views | File | Law |
|---|---|---|---|
| `Result<(), Trouble>` | `number_in` | `more/specs/Holds.antt` | `more/proofs/Views.antt` `number_one` |
| `Result<usize, Trouble>` | `number_after`, `count_after` | `more/specs/Holds.antt` | `more/proofs/Views.antt` `both_one` |
""",
})

# contracts that settle nothing by equation, in place of the one of `double`, and of `count`
DOUBLE = "result ≡ twice n }\n{\n    n + n"
COUNT = "packed result.number result.length out.new ≡ packed n (twice n) out.old"
NO_EQUATION = [
    "twice result ≡ twice n",
    "n ≡ result",
    "result ≤ twice n",
    "result ≡ result",
    "result ≡ twice (result)",
    "result ≡ n ≡ n",
    "result ≡ twice n → n ≤ 1",
    "result ≡ twice n ↔ n ≤ 1",
    "result ≡ twice n ⊎ Told n n n n",
    "n ≡ 0 → result ≡ twice n",
    "(x : ℕ) × (result ≡ twice x)",
    "(x y : ℕ) × ((result ≡ twice x) × (x ≤ y))",
    "(n ≤ 1) × ((x : ℕ) × (result ≡ twice x))",
    "((x , y) : Two) × (result ≡ x)",
    "(result ≡ twice n) × (n ≤ 1) → n ≤ 2",
    "n ≤ 1 → (n ≤ 2) × (result ≡ twice n)",
    "let x = result in (n ≤ 1) × (result ≡ x)",
    "(result ≡ twice n) × (n ≤ 1) ⊎ (n ≤ 2)",
    "(n ≤ 1) ∨ (n ≤ 2) × (result ≡ twice n)",
    "result ≡ twice n ∨ n ≤ 1",
    "result ≡ twice n ∧ n ≤ 1",
    "¬ result ≡ twice n",
    "let x = n in n ≡ 0 → result ≡ twice x",
]
NO_RECORD = [
    "packed result.number result.number out.new ≡ packed n n out.old",
    "packed result.number (twice result.length) out.new ≡ packed n n out.old",
    "packed result.number result.length out.old ≡ packed n n out.old",
    "packed result.number result.length out.new ≡ packed n n out.new",
    "packed result.number result.length out.new ≡ packed n result.number out.old",
    "packed result.number result.length out.new ≡ packed n n (last_of out)",
    "packed result.number result.length out.new n ≡ packed n n out.old n",
    "strewn result.number result.length out.new ≡ packed n n out.old",
    "Told result.number result.length out.new ≡ packed n n out.old",
]
# heads of new functions, and how each is called
NEW = [
    ("pub fn fresh(out: &mut [u8])", "small::fresh is not settled"),
    ("pub fn fresh(out: & mut [u8])", "small::fresh is not settled"),
    ("pub fn fresh<'a>(n: usize, out: &'a mut u8)", "small::fresh is not settled"),
    ("pub fn fresh(out: [&mut u8; 2])", "small::fresh is not settled"),
    ("pub struct Slot<'a> {\n    out: &'a mut [u8],\n}\n\npub fn fresh<'a>(slot: Slot<'a>)", "small::fresh is not settled"),
    ("struct Slot<'a> {\n    out: &'a mut [u8],\n}\n\npub struct Outer<'a> {\n    slot: Slot<'a>,\n}\n\npub fn fresh<'a>(outer: Outer<'a>)", "small::fresh is not settled"),
    ("pub struct Slot<'a>(&'a mut [u8]);\n\npub fn fresh<'a>(slot: Slot<'a>)", "small::fresh is not settled"),
    ("pub fn fresh(n: usize) -> usize\n    // ensures { result ≡ n }", "small::fresh is not settled"),
    ("pub fn fresh(n: usize) -> usize\n    ensures { _ ≡ n }", "small::fresh is not settled"),
    ("pub fn fresh(n: usize) -> Count\n    ensures { result.number ≡ n }", "small::fresh is not settled"),
    ("pub fn fresh(n: usize) -> usize\n    ensures { result.number ≡ n }", "small::fresh is not settled"),
    ("pub fn fresh(n: usize) -> usize\n    ensures { (a : ℕ) → result ≡ a }", "small::fresh is not settled"),
    ("pub fn fresh(n: usize) -> usize\n    ensures* { result ≡ n }", "small::fresh is not settled"),
    ("pub fn fresh(n: usize) -> usize\n    ensures* told { result ≡ n }", "small::fresh is not settled"),
    ("pub fn fresh<T>(n: usize) -> usize\nwhere\n    T: Copy,\n    ghost low: { ℕ }\n    requires* some { n ≤ low }\n    ensures { result ≡ n }", "small::fresh has a `requires`"),
    ("#[unsafe(no_mangle)]\npub extern \"C\" fn door(n: usize) -> usize", "small::door is not settled"),
    ("pub unsafe fn door(n: usize) -> usize", "small::door is not settled"),
    ("pub const fn door(n: usize) -> usize", "small::door is not settled"),
    ("impl Count {\n    pub fn grow(&mut self)\n    {\n    }\n}\n\npub fn fresh()", "small::Count::grow is not settled"),
    ("impl Count {\n    pub fn grow(self: &mut Count)\n    {\n    }\n}\n\npub fn fresh()", "small::Count::grow is not settled"),
    ("impl<'a> Count<'a> {\n    pub fn grow(&'a mut self)\n    {\n    }\n}\n\npub fn fresh()", "small::Count::grow is not settled"),
    ("pub fn double(n: usize) -> usize\n    requires { n ≤ 1 }\n    ensures { result ≡ n }", "there are two public functions small::double"),
]
# heads over structs of what is lent, in place of the first of `other`, and how each is called
LENT = [
    ("pub fn fresh<'a>(pair: Two<&'a u8, Held<'a>>)", "more::other::fresh is not settled"),
    ("pub fn fresh<'a>(pair: Two<u8, Held<'a>>)", "more::other::fresh is not settled"),
    ("pub fn fresh<'a>(held: &'a mut Held<'a>)", "more::other::fresh is not settled"),
    ("pub fn fresh<W: Into<Two<u8, W>>>(held: &mut Held)", "more::other::fresh is not settled"),
    ("impl<'a> Held<'a> {\n    pub fn take(self)\n    {\n    }\n}\n\npub fn fresh()", "more::other::Held::take is not settled"),
    ("impl<'a> Held<'a> {\n    pub fn take(mut self)\n    {\n    }\n}\n\npub fn fresh()", "more::other::Held::take is not settled"),
    ("impl<'a> Held<'a> {\n    pub fn take(self: Self)\n    {\n    }\n}\n\npub fn fresh()", "more::other::Held::take is not settled"),
    ("impl<'a> Held<'a> {\n    pub fn take(from: Two<u8, Self>)\n    {\n    }\n}\n\npub fn fresh()", "more::other::Held::take is not settled"),
    ("impl<'a, W> Lists<'a, W>\nwhere\n    W: Copy,\n{\n    pub fn take(self)\n    {\n    }\n}\n\npub fn fresh()", "more::other::Lists::take is not settled"),
    ("impl<'a, W: Into<Two<u8, W>>> Lists<'a, Two<u8, W>> {\n    pub fn take(self)\n    {\n    }\n}\n\npub fn fresh()", "more::other::Lists::take is not settled"),
]
TELL = "Told n out.old out.new result }"
TOLD_ONE = "{n r s : ℕ} {b x y : List ℕ} → Told n b x r → Told n b y s → (x ≡ y) × (r ≡ s)"
TOLD = "pub fn tell(out: &mut [u8], n: usize) -> usize\n    ensures { " + TELL
NOT_SAID = "the contract does not say Told n b x r, of which told_one speaks"
NO_OUTCOME = "no outcome and no record of outcomes, where told_one has the outcome "
# contracts that told_one does not settle, and what is said of them
NOT_TOLD = [
    ("Told n out.new out.new result }", "an outcome, in out.new, where both outcomes of told_one have b"),
    ("Told n out.now out.new result }", "an outcome, in out.now, where both outcomes of told_one have b"),
    ("Told n ⟦out⟧.new out.new result }", "an outcome, in ⟦out⟧.new, where both outcomes of told_one have b"),
    ("Told n (last_of out) out.new result }", "an outcome, in last_of out, where both outcomes of told_one have b"),
    ("Told result out.old out.new result }", "where both outcomes of told_one have n"),
    ("Told (twice result) out.old out.new result }", "where both outcomes of told_one have n"),
    ("Told n out.old out.old result }", "has out.old, " + NO_OUTCOME + "x"),
    ("Told n out.old out.new (twice result) }", NO_OUTCOME + "r"),
    ("Told n out.old out.new n }", "has n, " + NO_OUTCOME + "r"),
    ("Told n out.old out.new result n }", NOT_SAID),
    ("Told n out.old out.new }", NOT_SAID),
    ("Tell n out.old out.new result }", NOT_SAID),
    ("n ≡ n → Told n out.old out.new result }", NOT_SAID),
    ("Told n out.old out.new result ⊎ (n ≡ n) }", NOT_SAID),
    ("(x : ℕ) × (Told x out.old out.new result) }", NOT_SAID),
    ("(Told n out.old out.new result) × (n ≡ n) → n ≡ n }", NOT_SAID),
    ("Told n out.old out.new result ∨ (n ≡ n) }", NOT_SAID),
    ("⊤ }", NOT_SAID),
]
# what a parameter is that is lent in a pair, of which the contract speaks by another name
PAIRS = [
    "Two<usize, &mut [u8]>",
    "Two<usize, Two<usize, &mut [u8]>>",
    "Two<fn(usize) -> usize, &mut [u8]>",
]
NO_END = "told_one does not conclude that its outcomes are equal"
# statements by which told_one settles nothing, and what is said of them
NO_LAW = [
    ("{n r s : ℕ} {b x y : List ℕ} → Told n b x r → (x ≡ y) × (r ≡ s)", "told_one does not speak twice of Told n b x r"),
    ("{n r s : ℕ} {b x y : List ℕ} → Told n b x r → Counted n b y s → (x ≡ y) × (r ≡ s)", "told_one does not speak twice of Told n b x r"),
    ("{n r s : ℕ} {b x y : List ℕ} → Told n b x r → Told n b y → (x ≡ y) × (r ≡ s)", "told_one does not speak twice of Told n b x r"),
    ("{n r s : ℕ} {b x y : List ℕ} → Told n b x (twice r) → Told n b y (other s) → (x ≡ y) × (r ≡ s)", "told_one does not speak twice of Told n b x (twice r)"),
    ("{n r s : ℕ} {b x y : List ℕ} → Told 0 b x r → Told 1 b y s → (x ≡ y) × (r ≡ s)", "told_one does not speak twice of Told 0 b x r"),
    ("{n r s : ℕ} {b x y : List ℕ} → Told n b x x → Told n b y s → (x ≡ y) × (r ≡ s)", "told_one does not speak twice of Told n b x x"),
    ("{n r : ℕ} {b x y : List ℕ} → Told n b x r → Told n b y 0 → (x ≡ y) × (r ≡ 0)", "told_one does not speak twice of Told n b x r"),
    ("{n s : ℕ} {b x y : List ℕ} → Told n b x 0 → Told n b y s → (x ≡ y) × (0 ≡ s)", "told_one does not speak twice of Told n b x 0"),
    ("{n r s : ℕ} {b x y : List ℕ} → n ≤ 3 → Told n b x r → Told n b y s → (x ≡ y) × (r ≡ s)", "told_one does not speak twice of n ≤ 3"),
    ("{n r s : ℕ} {b x y : List ℕ} (h : n ≤ 3) → Told n b x r → Told n b y s → (x ≡ y) × (r ≡ s)", "told_one does not speak twice of n ≤ 3"),
    ("{n r s : ℕ} {b x y : List ℕ} {never : ⊥} → Told n b x r → Told n b y s → (x ≡ y) × (r ≡ s)", "told_one does not speak twice of ⊥"),
    ("{n} {r s : ℕ} {b x y : List ℕ} → Told n b x r → Told n b y s → (x ≡ y) × (r ≡ s)", "told_one does not speak twice of {n}"),
    ("{n r s : ℕ} {b x y : List ℕ} {n : ⊥} → Told n b x r → Told n b y s → (x ≡ y) × (r ≡ s)", "told_one binds a name twice"),
    ("{n r s : ℕ} {b x y : List ℕ} → Told n b x r → Told n x y s → (b ≡ x) × (x ≡ y) × (r ≡ s)", "told_one has a variable in both of its outcomes"),
    ("{n r : ℕ} {b x y : List ℕ} → Told n b x r → Told n b y n → (x ≡ y) × (r ≡ n)", "told_one has a variable in both of its outcomes"),
    ("{n r : ℕ} {b x y : List ℕ} → Told n b x r → Told n b y y → (x ≡ y) × (r ≡ y)", "told_one has a variable in both of its outcomes"),
    ("{n r s : ℕ} {b x y : List ℕ} → Told n b x r → Told n b y s → (x ≡ x) × (r ≡ r)", NO_END),
    ("{n r : ℕ} {b x : List ℕ} → Told n b x r → Told n b x r → (x ≡ x) × (r ≡ r)", NO_END),
    ("{n r s : ℕ} {b x y : List ℕ} → Told n b x r → Told n b y s → x ≡ y", NO_END),
    ("{n r s : ℕ} {b x y : List ℕ} → Told n b x r → Told n b y s → (x ≡ y) × (r ≤ s)", NO_END),
    ("{n r s : ℕ} {b x y : List ℕ} → Told n b x r → Told n b y s → (x ≡ s) × (r ≡ y)", NO_END),
    ("{n r s : ℕ} {b x y : List ℕ} → Told n b x r → Told n b y s → (x ≡ y) ⊎ (r ≡ s)", NO_END),
    ("{n r s : ℕ} {b x y : List ℕ} → Told n b x r → Told n b y s → (x ≡ y) × (r ≡ s) × (n ≡ n)", NO_END),
    ("{n r s : ℕ} {b x y : List ℕ} → Told n b x r → Told n b y s → Type 0", NO_END),
    ("{n s : ℕ} {b x y : List ℕ} → Told n b x n → Told n b y n → x ≡ y", "told_one does not speak twice of ℕ"),
    ("{n : ℕ} {b x y : List ℕ} → Told n b x 0 → Told n b y 0 → x ≡ y", "the contract does not say Told n b x 0, of which told_one speaks"),
    ("{n r : ℕ} {b x y : List ℕ} → Told n b x r → Told n b y r → x ≡ y", "an outcome, in result, where both outcomes of told_one have r"),
    ("{n r s : ℕ} {b x y : List ℕ} → Told n b (twice x) r → Told n b (twice y) s → (x ≡ y) × (r ≡ s)", "the contract does not say Told n b (twice x) r"),
    ("{f : ℕ → Type 0} {r s : ℕ} → f r → f s → r ≡ s", "the contract does not say f r, of which told_one speaks"),
]
WRITTEN = "{at stop stop' : ℕ} → ((t t' : List ℕ) → P t → P t' → t ≡ t')"
# laws that do not say of two results that they are one where the views of them are
NUMBER = "(x y : Result Unit code.Trouble) → number_in x ≡ number_in y → x ≡ y"
BOTH = """(n m : ℕ) (x y : Result ℕ code.Trouble) →
    number_after n x ≡ number_after n y →
    (holds.count_after m x ≡ holds.count_after m y) →"""
NO_VIEWS = [
    (NUMBER, "(x y : Result Unit code.Trouble) → number_in x ≡ number_in x → x ≡ y"),
    (NUMBER, "(x y : Result Unit code.Trouble) → number_in x ≤ number_in y → x ≡ y"),
    (NUMBER, "(x y : Result Unit code.Trouble) → number_in x ≡ number_in y ≡ 0 → x ≡ y"),
    (NUMBER, "(x y : Result Unit code.Trouble) → number_in x ≡ number_in y → x ≡ x"),
    (NUMBER, "(x y : Result Unit code.Trouble) → number_in x ≡ number_in y → x ≤ y"),
    (NUMBER, "(x y : Result Unit code.Trouble) → number_in x ≡ number_in y → n ≤ 3 → x ≡ y"),
    (NUMBER, "(x y : Result Unit code.Trouble) → x ≡ y → x ≡ y"),
    (NUMBER, "(x y : Result Unit code.Trouble) → x ≡ y"),
    (NUMBER, "(x y : Result Unit code.Trouble) → number_in (turned x) ≡ number_in (turned y) → x ≡ y"),
    (NUMBER, "(x y : Result Unit code.Trouble) → number_in (turned x) ≡ number_in y → x ≡ y"),
    (NUMBER, "(x y : Result Unit code.Trouble) → other_in x ≡ other_in y → x ≡ y"),
    (NUMBER, "(x y : Result Unit code.Trouble) (never : ⊥) → number_in x ≡ number_in y → x ≡ y"),
    (NUMBER, "(never : ⊥) (x y : Result Unit code.Trouble) → number_in x ≡ number_in y → x ≡ y"),
    (NUMBER, "{never : ⊥} → (x y : Result Unit code.Trouble) → number_in x ≡ number_in y → x ≡ y"),
    (NUMBER, "(x y : Result ℕ code.Trouble) → number_in x ≡ number_in y → x ≡ y"),
    (NUMBER, "(x y : Option Unit code.Trouble) → number_in x ≡ number_in y → x ≡ y"),
    (NUMBER, "(x : Result Unit code.Trouble) (y : Result ℕ code.Trouble) → number_in x ≡ number_in y → x ≡ y"),
    (NUMBER, "(x : Result ℕ code.Trouble) (y : Result Unit code.Trouble) → number_in x ≡ number_in y → x ≡ y"),
    (NUMBER, "{A : Type 0} → (x y : Result A code.Trouble) → number_in x ≡ number_in y → x ≡ y"),
    ("number_one : (x y", "number_one {never : ⊥} : (x y"),
    ("pub number_one", "module _ (never : ⊥) where\n  pub number_one"),
    ("Common.{◌≡◌, List, ℕ}", "Common.{◌≢◌ as ◌≡◌, List, ℕ}"),
    ("{Result, Option}", "{Option as Result}"),
    ("specs.Holds.{Swept, Both, All, number_in, ", "specs.Same.{number_in}\nuse Rattle.more.specs.Holds.{Swept, Both, All, "),
]
NO_BOTH = [
    "(n : ℕ) (x y : Result ℕ code.Trouble) → number_after n x ≡ number_after n y → holds.count_after n x ≡ holds.count_after n y →",
    "(n : ℕ) (x y : Result ℕ code.Trouble) → number_after n x ≡ number_after n y → holds.count_after 0 x ≡ holds.count_after 0 y →",
    "(n : ℕ) (x y : Result ℕ code.Trouble) → number_after n x ≡ number_after n y → holds.count_after (turned x) x ≡ holds.count_after (turned x) y →",
    "(n : ℕ) (x y : Result ℕ code.Trouble) → number_after n x ≡ number_after n y → holds.count_after x x ≡ holds.count_after x y →",
    "(n m : ℕ) (x y : Result ℕ code.Trouble) → number_after n x ≡ number_after n y → holds.count_after x m ≡ holds.count_after y m →",
    "(n m : ℕ) (x y : Result ℕ code.Trouble) → number_after n x ≡ number_after n y → holds.count_after m x ≡ holds.count_after n y →",
    "(n m : ℕ) (x y : Result ℕ code.Trouble) → number_after n x ≡ number_after n y → holds.count_after m x ≡ number_after m y →",
    "(n : ℕ) (x y : Result ℕ code.Trouble) → number_after n x ≡ number_after n y →",
    "(m : ℕ) (x y : Result ℕ code.Trouble) → holds.count_after m x ≡ holds.count_after m y →",
]
VIEW = "| `Result<(), Trouble>` | `number_in` | `more/specs/Holds.antt` | `more/proofs/Views.antt` `number_one` |"
NUMBERED, COUNTED = "number_in: number_one does not say that they tell all of a Result<(), Trouble>", "does not say that they tell all of a Result<usize, Trouble>"
FEW = "the contract does not say n ≤ m, of which few_one speaks"
# the rest: a file, what stands there, what is put for it, a part of what is said
OTHERS = [
    (LIB, "pub fn tell(out: &mut [u8], n: usize) -> usize\n", "pub fn tell(out: &mut [u8], n: usize) -> usize\n    requires { n ≤ 100 }\n", "small::tell is a question or put and has a `requires`"),
    (LIB, "pub fn tell(out: &mut [u8], n: usize)", "pub fn tell(out: &mut [u8], on: &mut [u8], n: usize)", "told_one does not speak of on"),
    (LIB, "pub fn tell(out: &mut [u8], n: usize) -> usize", "pub fn tell(out: &mut [u8], result: &mut [u8], n: usize) -> Count", "told_one does not speak of result"),
    (LIB, "pub fn tell(out: &mut [u8], n: usize)", "pub fn tell(out: &mut [u8], n: usize, Told: usize)", NOT_SAID),
    (LIB, "pub fn count(out: &mut [u8], n: usize)", "pub fn count(out: &mut [u8], n: usize, packed: usize)", "small::count is not settled"),
    (LIB, "    ensures { packed", "    ghost packed: { ℕ }\n    ensures { packed", "small::count is not settled"),
    (LIB, "Rattle.std.specs.Prelude.{◌≡◌,", "small.Same.{◌≡◌,", "small::double is not settled"),
    (LIB, "Rattle.std.specs.Prelude.{◌≡◌,", "Rattle.std.specs.Float.{◌≡◌,", "small::double is not settled"),
    (LIB, "Rattle.std.specs.Prelude.{◌≡◌,", "Rattle.std.specs.Prelude.{◌≢◌ as ◌≡◌,", "small::double is not settled"),
    (LIB, "ghost use Rattle.std.specs.Prelude.{◌≡◌, ◌≤◌, length};\n", "", "small::double is not settled"),
    (LIB, "specs.Sums.{twice, Told, packed}", "specs.Sums.{twice, Counted as Told, packed}", NOT_SAID),
    (LIB, "ghost use Rattle.small.specs.Sums", "ghost use Rattle.large.specs.Sums", NOT_SAID),
    (ONE, "mathlib.Core.Path.{◌≡◌, sym, ◌∙◌}", "small.Same.{◌≡◌, sym, ◌∙◌}", NO_END),
    (ONE, "-- twice is twice\n", "◌≡◌ : List ℕ → List ℕ → Type 0\nx ≡ y = Unit\n\n", NO_END),
    (ONE, "specs.Sums.{Told, twice}", "specs.Sums.{Counted as Told, twice}", NOT_SAID),
    (ONE, "pub told_one :", "pub told_other :", "no law told_one in small/proofs/One.antt"),
    (SETTLED, "`told_one`", "`Told`", "no law Told in small/proofs/One.antt"),
    (SETTLED, "`small/proofs/One.antt` `told_one`", "`small/specs/Sums.antt` `Told`", "no law Told in small/specs/Sums.antt"),
    (ONE, "-- what is told is one thing\npub told_one", "other : ⊥ → ℕ\nother never = 0\n  where\n    told_one", "no law told_one in small/proofs/One.antt"),
    (ONE, "-- what is told is one thing\npub told_one", "module _ (never : ⊥) where\n  pub told_one", "told_one does not speak twice of ⊥"),
    (SUMS, "packed x n l = record { number = x; length = n; out = l }", "packed x n l = record { number = x; length = x; out = l }", "small::count is not settled"),
    (SUMS, "packed x n l = record { number = x; length = n; out = l }", "packed x n l = record { number = x; length = twice n; out = l }", "small::count is not settled"),
    (SUMS, "packed x n l = record { number = x; length = n; out = l }", "packed x n l = record { number = x; length = n; out = l }.out", "small::count is not settled"),
    (SUMS, "packed x n l = record { number = x; length = n; out = l }", "packed x n l = counted x n l", "small::count is not settled"),
    (SUMS, "packed x n l = record { number = x; length = n; out = l }", "packed x n [] = record { number = 0; length = 0; out = [] }\npacked x n l = record { number = x; length = n; out = l }", "small::count is not settled"),
    # a record that a `let` names is held to the same
    (MORE, "        rest.new in\n", "        rest.old in\n", "more::leave_named is not settled by left_one"),
    (MORE, "Left n lent left result.second", "Left n lent lent result.second", "more::leave_named is not settled by left_one"),
    (MORE, "let left = kept_of out.new result.first\n", "let left = more out.new result.first\n", "more::leave_named is not settled by left_one"),
    (SPECS, "rest = rest_of n l", "rest = twice n l", "more::leave is not settled by left_one: the contract has kept_of"),
    (SPECS, "      list = l;\n", "      list = [];\n", "more::leave is not settled by left_one: the contract has kept_of"),
    (MORE, "(kept_of out.old n rest.old)", "(kept_of out.new n rest.old)", "where both outcomes of left_one have b"),
    (MORE, "(kept_of out.new result.first rest.new)", "(kept_of out.new result.first rest.old)", "no outcome and no record of outcomes, where left_one has the outcome e"),
    (MORE, "(kept_of out.new result.first rest.new)", "(kept_of out.new result.second rest.new)", "left_one does not speak of the result"),
    (MORE, "(kept_of out.new result.first rest.new)", "(kept_of out.new result.first out.new)", "left_one does not speak of rest"),
    (MORE, "(kept_of out.new result.first rest.new) result.second", "(kept_of out.new (twice result.first) rest.new) result", "where left_one has the outcome e"),
    (MORE, "rest.new) result.second", "rest.new) result.second.first", "where left_one has the outcome r"),
    # what is required is said where it is the very premise, a fact, and of the input alone
    (MORE, "    requires { n ≤ 9 }\n", "", FEW),
    (MORE, "requires { n ≤ 9 }", "requires { 9 ≡ n }", FEW),
    (MORE, "requires { n ≤ 9 }", "requires* { n ≤ 9 }", FEW),
    (MORE, "requires { n ≤ 9 }", "requires { n ≤ 9 → n ≤ 8 }", FEW),
    (MORE, "requires { n ≤ 9 }", "requires { n ≤ 9 ⊎ (n ≤ 8) }", FEW),
    (MORE, "requires { n ≤ 9 }\n    ensures { Told n", "requires { n ≤ 9 }\n    requires { Told n", FEW),
    (MORE, " × (yes.new ≤ 1)", "", "the contract does not say Told n b x (is_set y), of which byte_one speaks"),
    (MORE, "(yes.new ≤ 1)", "(yes.new ≤ 2)", "the contract does not say Told n b x (is_set y), of which byte_one speaks"),
    (MORE, "(yes.new ≤ 1)", "(out.new ≤ 1)", "the contract does not say Told n b x (is_set y), of which byte_one speaks"),
    (MORE, "Rattle.std.specs.Prelude.{◌≤◌}", "small.Nat.{◌≤◌}", "the contract does not say Told n b x (is_set y), of which byte_one speaks"),
    (MORE, "(is_set yes.new)", "(twice yes.new)", "the contract does not say Told n b x (is_set y), of which byte_one speaks"),
    (MORE, "result.now ≡ list.now", "result.first.now ≡ list.now", "more::part is not settled"),
    (MORE, "result.now ≡ list.now", "result.now n ≡ list.now", "more::part is not settled"),
    (MORE, "× ((result.second ≡ second) × (result.first ≤ 9))", "× ((result.second ≤ second) × (result.first ≤ 9))", "more::Pair::new is not settled"),
    (MORE, "more.Written (more.Text n) out.old 0", "more.Written (more.Text n) out.old 1", "of which first_one speaks"),
    (MORE, "more.Written (more.Text n)", "more.Written (more.Other n)", "of which first_one speaks"),
    (MORE, "more.Written (more.Text n)", "more.Written (λ t. length t ≤ 9)", "of which first_one speaks"),
    (MORE, "more.Written (more.Text n)", "more.Written (more.Text result)", "where both outcomes of first_one have n"),
    (MORE, "ghost use Rattle.more.specs.More as more;", "ghost use Rattle.small.specs.Sums as more;", "of which first_one speaks"),
    (MORE, " Written (Text n) «", " Written (λ t. length t ≤ 9) «", "the contract does not say Text n t, of which text_one speaks"),
    (MORE, " Written (Text n) «", " Written (more.Other n) «", "the contract does not say Text n t, of which text_one speaks"),
    (MORE, " Written (Text n) «", " Written (Text) «", "the contract does not say Text n t, of which text_one speaks"),
    (MORE, " Written (Text n) «", " Written (Text result) «", "where both outcomes of written_one have P"),
    (ONES, WRITTEN, "{at stop stop' : ℕ} → ((t t' : List ℕ) → P t → t ≡ t')", "the premise of written_one does not speak twice of P t"),
    (ONES, WRITTEN, "{at stop stop' : ℕ} → ((t t' : List ℕ) → P t → P t' → t ≤ t')", "the premise of written_one does not conclude"),
    (ONES, WRITTEN, "{at stop stop' : ℕ} → ((t t' : List ℕ) → at ≤ 9 → P t → P t' → t ≡ t')", "the premise of written_one does not speak twice of at ≤ 9"),
    (ONES, WRITTEN, "{Q : ℕ → Type 0} {at stop stop' : ℕ} → ((t t' : List ℕ) → Q t → Q t' → t ≡ t')", "the contract does not say Text n t, of which text_one speaks"),
    (ONES, "{n : ℕ} → Text n t → Text n t' → t ≡ t'", "{n : ℕ} → Text n t → Text n t' → t ≡ t", "text_one does not conclude that its outcomes are equal"),
    (ONES, "module _ {n r : ℕ} {b x : List ℕ} (p : Told n b x r) where", "module _ {n r : ℕ} {b x : List ℕ} (p : Left n b x r) where", "again_one does not speak twice of Told n b y s"),
    (ONES, "    Left n b f s →\n", "", "left_one does not speak twice of Left n b e r"),
    (ONES, "pub left_one {n : ℕ} :", "pub left_one {n : ℕ} {h : n ≤ 3} :", "left_one does not speak twice of n ≤ 3"),
    (ONES, "{C : Type 0} {b e f : Kept C}", "{b e f : Kept Unit}", "left_one is about Kept Unit, where the contract has kept_of"),
    (ONES, "{C : Type 0} {b e f : Kept C}", "{b e f : Rest}", "left_one is about Rest, where the contract has kept_of"),
    # a lent struct is told by all that it holds, by definitions that are made of that
    (OTHER, "    ghost even:", "    pub most: &'a mut [u8],\n    ghost even:", "more::other::Held::clear is not settled"),
    (OTHER, "    ghost even:", "    pub most: Lists<'a, u8>,\n    ghost even:", "more::other::tell_each is not settled"),
    (OTHER, "    ghost even:", "    pub most: usize,\n    ghost even:", "more::other::Held::clear is not settled"),
    (OTHER, " × (held.new.rest.now ≡ held.old.rest.now) }\n{", " }\n{", "more::other::tell_each is not settled"),
    (OTHER, "    ensures most { held.new.most.now ≡ held.old.most.now }\n", "", "more::other::tell_other is not settled"),
    (OTHER, "tally_of tally.new.out.now tally.new.count", "tally_of tally.new.out.now tally.old.count", "more::other::tally is not settled"),
    (OTHER, "tally_of tally.new.out.now tally.new.count", "tally_of tally.new.out.now tally.new.count.now", "more::other::tally is not settled"),
    (OTHER, " × (wide.new.pair ≡ wide.old.pair)", "", "more::other::widen is not settled"),
    (OTHER, "wide.new.pair ≡ wide.old.pair", "wide.new.pair.now ≡ wide.old.pair", "more::other::widen is not settled"),
    (OTHER, " × (result.at ≡ n)", "", "more::other::widen is not settled"),
    (OTHER, "    pub out: &'a mut [u8],\n    pub rest: &'a mut [u8],\n    ghost", "    pub out: &'a mut [u8],\n    pub rest: &'a [u8],\n    ghost", "more::other::Held::clear is not settled"),
    (OTHER, "(&self, n: usize)", "(&mut self, n: usize)", "more::other::Held::look is not settled"),
    (OTHER, "result ≡ first_of self.now n", "result ≡ first_of self.new n", "more::other::Held::look is not settled"),
    (OTHER, "held_in self.new ≡", "held_in self.old ≡", "more::other::Held::clear is not settled"),
    (OTHER, "held_in self.new ≡", "held_in (twice self.new) ≡", "more::other::Held::clear is not settled"),
    (OTHER, "held_in self.new ≡", "held_in self.new n ≡", "more::other::Held::clear is not settled"),
    (OTHER, "(held: &Held, lists", "(held: &mut Held, lists", "where both outcomes of swept_one have n"),
    (OTHER, "(lists_in lists.old) (lists_in lists.new)", "(lists_in lists.new) (lists_in lists.new)", "where both outcomes of swept_one have b"),
    (OTHER, "(lists_in lists.old) (lists_in lists.new)", "(lists_in lists.old) (lists_in lists.old)", "where swept_one has the outcome e"),
    (OTHER, "(all_in out.new lists.new held.new)", "(all_in out.new lists.new held.old)", "where all_one has the outcome e"),
    (OTHER, "(all_in out.new lists.new held.new)", "(all_in (twice out.new) lists.new held.new)", "where all_one has the outcome e"),
    (OTHER, "(all_in out.new lists.new held.new)", "(all_in out.new lists.new held)", "where all_one has the outcome e"),
    (OTHER, "sweep_all(out: &mut [u8]", "sweep_all(on: &mut [u8], out: &mut [u8]", "all_one does not speak of on"),
    (EVEN, "    pub rest: &'a mut [W],\n", "    pub rest: &'a mut [W],\n    pub most: &'a mut [u8],\n", "more::other::sweep is not settled by swept_one: swept_one does not speak of lists"),
    (EVEN, "    pub count: usize,\n", "    pub count: usize,\n    pub most: usize,\n", "more::other::tally is not settled"),
    (HOLDS, "held_in h = both_of h.out.now h.rest.now", "held_in h = both_of h.out.now h.out.now", "more::other::Held::clear is not settled"),
    (HOLDS, "held_in h = both_of h.out.now h.rest.now", "held_in h = both_of h.out.now (twice h.rest.now)", "more::other::Held::clear is not settled"),
    (HOLDS, "held_in h = both_of h.out.now h.rest.now", "held_in h = both_of h.out.now h.rest.later", "more::other::Held::clear is not settled"),
    (HOLDS, "held_in h = both_of h.out.now h.rest.now", "held_in h = both_of h.out.now k.rest.now", "more::other::Held::clear is not settled"),
    (HOLDS, "held_in h = both_of h.out.now h.rest.now", "held_in h = first_of h.out.now h.rest.now", "more::other::Held::clear is not settled"),
    (HOLDS, "held_in h = both_of h.out.now h.rest.now", "held_in h = [] ≡ both_of h.out.now h.rest.now", "more::other::Held::clear is not settled"),
    (HOLDS, "held_in h = both_of h.out.now h.rest.now", "held_in z = both_of [] []\nheld_in h = both_of h.out.now h.rest.now", "more::other::Held::clear is not settled"),
    (HOLDS, "held_in h = both_of h.out.now h.rest.now", "held_in (made h) = both_of h.out.now h.rest.now", "more::other::Held::clear is not settled"),
    (HOLDS, "abbrev pub both_of", "abbrev pub other_of", "more::other::Held::clear is not settled"),
    (HOLDS, "      rest = l.rest.now;\n", "      rest = l.out.now;\n", "swept_one does not speak of lists"),
    (HOLDS, "      rest = l.rest.now;\n", "      rest = [];\n", "where swept_one has the outcome e"),
    (HOLDS, "      rest = l.rest.now;\n", "      rest = l.rest;\n", "where swept_one has the outcome e"),
    (HOLDS, "      rest = l.rest.now;\n    }", "      rest = l.rest.now;\n    }.out", "where swept_one has the outcome e"),
    (HOLDS, "first = x; lists", "first = []; lists", "where all_one has the outcome e"),
    (HOLDS, "first = x; lists", "first = h.out.now; lists", "all_one does not speak of out"),
    # a result is told by all of its views, each of which has it last
    (OTHER, "(number_after n result ≡ 0) × ", "", "more::other::tried is not settled"),
    (OTHER, " × (count_after (twice n) result ≡ twice n)", "", "more::other::tried is not settled"),
    (OTHER, "count_after (twice n) result ≡", "count_after result n ≡", "more::other::tried is not settled"),
    (OTHER, "count_after (twice n) result ≡", "count_after n (twice result) ≡", "more::other::tried is not settled"),
    (OTHER, "count_after (twice n) result ≡", "count_after (number_after n result) result ≡", "more::other::tried is not settled"),
    (OTHER, "count_after (twice n) result ≡", "count_before (twice n) result ≡", "more::other::tried is not settled"),
    (OTHER, "rest_of (number_in result) out.new", "rest_of (number_in out.new) out.new", "more::other::tried_at is not settled"),
    (OTHER, "rest_of (number_in result) out.new", "rest_of (number_in out.new result) out.new", "more::other::tried_at is not settled"),
    (OTHER, "rest_of (number_in result) out.new", "rest_of (number_in result) out.old", "more::other::tried_at is not settled"),
    (OTHER, "(out: &mut [u8], n: usize) -> Result<(), Trouble>\n    ensures { rest_of", "(out: &mut [u8], n: usize) -> Result<u8, Trouble>\n    ensures { rest_of", "more::other::tried_at is not settled"),
    (OTHER, "(out: &mut [u8], n: usize) -> Result<(), Trouble>\n    ensures { Told", "(out: &mut [u8], n: usize) -> Option<()>\n    ensures { Told", "where answered_one has the outcome r"),
    (OTHER, "ensures { Told n out.old out.new (number_in result) }", "ensures { Told (number_in result) out.old out.new (number_in result) }", "where both outcomes of answered_one have n"),
    (OTHER, "count_after, number_in};", "count_after};\nghost use Rattle.more.specs.Same.{number_in};", "more::other::tried_at is not settled"),
    (HOLDS, "abbrev pub number_in :", "abbrev pub number_of :", "there is no number_in in more/specs/Holds.antt"),
    (SETTLED, VIEW, VIEW.replace("Holds", "Nowhere"), "there is no number_in in more/specs/Nowhere.antt"),
    (SETTLED, VIEW, VIEW.replace("Holds", "Same"), NUMBERED),
    (SETTLED, VIEW, VIEW.replace("`number_one`", "`number_two`"), "no law number_two in more/proofs/Views.antt"),
    (SETTLED, VIEW, VIEW.replace("proofs/Views.antt` `number_one`", "specs/Holds.antt` `Swept`"), "no law Swept in more/specs/Holds.antt"),
    (SETTLED, VIEW, VIEW.replace("`number_one`", "`both_one`"), "number_in: both_one does not say"),
    (SETTLED, VIEW, VIEW.replace("`number_in`", "all of it"), ": number_one does not say"),
    (SETTLED, VIEW, VIEW.replace("`number_in`", "all of it").replace("number_one", "swept_one"), ": swept_one does not say"),
    (SETTLED, VIEW, VIEW.replace("`number_in`", "`number_in`, `number_in`"), "number_in, number_in: number_one does not say"),
    (SETTLED, VIEW, VIEW.replace("Result<(), ", "Result<u8, "), NUMBERED.replace("<(), ", "<u8, ")),
    (SETTLED, VIEW, VIEW.replace("Result<(), ", "Option<(), "), NUMBERED.replace("Result", "Option")),
    (SETTLED, VIEW, "", "more::other::tried_at is not settled"),
    (SETTLED, "`number_after`, `count_after`", "`count_after`, `number_after`", "both_one " + COUNTED),
    (SETTLED, "`number_after`, `count_after`", "`number_after`", "both_one " + COUNTED),
    (SETTLED, "## Views", "## Results", "Result<(), Trouble> is listed, and there is no such public function"),
    # a method of a public trait is a public function
    (OTHER, "(result ≡ size self) × (list.new ≡ list.old)", "result ≡ size self", "more::other::Thing::fill is not settled"),
    (OTHER, "(result ≡ size self) × (list.new ≡ list.old)", "list.new ≡ list.old", "more::other::Thing::fill is not settled"),
    (OTHER, "        ensures { result ≡ twice at };", "        requires { at ≤ 9 }\n        ensures { result ≡ twice at };", "more::other::Thing::least has a `requires`"),
    (OTHER, " -> [Self::Key; 2]\n        ensures { result ≡ twice at };", " -> [Self::Key; 2];", "more::other::Thing::least is not settled"),
    (OTHER, "\n        ensures { result ≡ twice at };", "\n    where\n        Self: Sized;", "more::other::Thing::least is not settled"),
    (OTHER, "ensures { result ≡ size self }\n    {", "ensures { size self ≡ result }\n    {", "more::other::Thing::each is not settled"),
    (OTHER, "(&self, f: F)", "(&mut self, f: F)", "more::other::Thing::each is not settled"),
    (OTHER, "\ntrait Own", "\npub trait Own", "more::other::Own::own is not settled"),
    (OTHER, "\ntrait Own", "\npub unsafe trait Own", "more::other::Own::own is not settled"),
    (OTHER, "\ntrait Own {", "\npub trait Own<W: Into<Two<u8, W>>>: Copy\nwhere\n    W: Copy,\n{", "more::other::Own::own is not settled"),
    (DEEP, "result ≡ n", "result ≤ n", "settled: crates/more/src/deep.rt:3: more::deep::same is not settled"),
    (TWO, "result ≡ 2", "result ≤ 2", "more::deep::two::two is not settled"),
    (MORE, "mod deeper;", "pub mod deeper;", "more::deeper::nobody is not settled"),
    (SETTLED, "`told_one`", "`told_one`, `twice_is`", "twice_is is named and not asked for"),
    (SETTLED, "`told_one`", "`twice_is`", "twice_is does not speak twice of ℕ"),
    (SETTLED, "`written_one`, `text_one`", "`written_one`", "no law is named for a premise that is a law"),
    (SETTLED, "`written_one`, `text_one`", "`text_one`, `written_one`", "the contract does not say Text n t, of which text_one speaks"),
    (SETTLED, "`written_one`, `text_one`", "`written_one`, `first_one`", "of which first_one speaks"),
    (SETTLED, "`small/proofs/One.antt` `told_one`", "`small/proofs/Two.antt` `told_one`", "no law told_one in small/proofs/Two.antt"),
    (SETTLED, "| `small::tell` | `small/proofs/One.antt` `told_one` |\n", "", "small::tell is not settled"),
    (SETTLED, "`small/proofs/One.antt` `told_one`", "by equation", "small::tell is not settled"),
    (SETTLED, "by equation", "by itself", "small::count has no law in docs/SETTLED.md"),
    (SETTLED, "| by equation |\n", "| by equation |\n| `small::nowhere` | by equation |\n", "small::nowhere is listed, and there is no such public function"),
    (SETTLED, "`more::leave`", "`more::leave`, `more::nowhere`", "more::nowhere is listed, and there is no such public function"),
    (SETTLED, "`more::leave`", "`more::leave`, `small::tell`", "small::tell is listed twice in docs/SETTLED.md"),
    (SETTLED, "`more::leave`", "`more::leave`, `small::double`", "small::double is not settled by left_one"),
    (EXCEPTIONS, "| `small::somewhere` | the slice | none |\n", "", "small::somewhere is not settled"),
    (EXCEPTIONS, "`small::somewhere`", "`small::somewhere`, `small::nowhere`", "small::nowhere is listed, and there is no such public function"),
    (EXCEPTIONS, "`small::somewhere`", "`small::somewhere`, `small::somewhere`", "small::somewhere is listed twice in docs/EXCEPTIONS.md"),
    (EXCEPTIONS, "`small::somewhere`", "`small::somewhere`, `more::write`", "more::write stands in docs/SETTLED.md and is an exception"),
    (EXCEPTIONS, "`small::somewhere`", "`small::somewhere`, `small::count`", "small::count stands in docs/SETTLED.md and is an exception"),
    (EXCEPTIONS, "`small::somewhere`", "`small::somewhere`, `small::double`", "small::double is settled by equation and yet an exception"),
    (EXCEPTIONS, "| `small::double` | large numbers | none |\n", "", "small::double has a `requires`, and docs/EXCEPTIONS.md says otherwise"),
    (EXCEPTIONS, "`small::double`", "`small::double`, `small::somewhere`", "small::somewhere has no `requires`, and docs/EXCEPTIONS.md says otherwise"),
    (EXCEPTIONS, "`small::double`", "`small::double`, `small::tell`", "small::tell has no `requires`, and docs/EXCEPTIONS.md says otherwise"),
    (EXCEPTIONS, "`small::double`", "`small::double`, `small::nowhere`", "small::nowhere is listed, and there is no such public function"),
    (EXCEPTIONS, "`small::double`", "`small::double`, `small::double`", "small::double is listed twice in docs/EXCEPTIONS.md"),
    (EXCEPTIONS, "\n## Shut out\n\n| Function | What | Cause |\n|---|---|---|\n", "", "docs/EXCEPTIONS.md has 1 tables and not two"),
]

LISTED = """more::Pair::new equation
more::byte law byte_one in more/proofs/Ones.antt
more::deep::same equation
more::deep::two::two equation
more::leave law left_one in more/proofs/Ones.antt
more::leave_named law left_one in more/proofs/Ones.antt
more::other::Held::clear equation
more::other::Held::look equation
more::other::Thing::each equation
more::other::Thing::fill equation
more::other::Thing::least equation
more::other::sweep law swept_one in more/proofs/Views.antt
more::other::sweep_all law all_one in more/proofs/Views.antt
more::other::tally equation
more::other::tell_each equation
more::other::tell_other equation
more::other::told law answered_one in more/proofs/Views.antt
more::other::tried equation
more::other::tried_at equation
more::other::widen equation
more::part equation
more::tell_again law again_one in more/proofs/Ones.antt
more::tell_few law few_one in more/proofs/Ones.antt
more::write law written_one in more/proofs/Ones.antt, text_one in more/proofs/Ones.antt
more::write_first law first_one in more/proofs/Ones.antt
small::count equation
small::double equation
small::somewhere exception
small::tell law told_one in small/proofs/One.antt
settled: 29 public functions in 4 crates: 17 by equation, 11 by a law, 1 exceptions; 2 with a `requires`; 0 wrong
""".split("\n")

# what the sound tree may have in another form: a file, what stands there, what is put for it
SAME = [
    (LIB, "{◌≡◌, ◌≤◌, length};", "{\n    ◌≡◌, ◌≤◌,\n    length,\n};"),
    (LIB, "Rattle.std.specs.Prelude.{◌≡◌,", "Rattle.core.specs.Prelude.{◌≡◌,"),
    (LIB, "ensures { Told n out.old out.new result }", "ensures told { Told n out.old out.new result }\n    ensures* { ⌜ result ≤ 9 ⌝ }"),
    (LIB, "ensures { Told n out.old out.new result }", "ensures { let answer = result in Told n out.old out.new answer }"),
    (ONE, "mathlib.Core.Path.{◌≡◌, sym, ◌∙◌}", "Rattle.std.proofs.Common.{◌≡◌, sym, ◌∙◌}"),
    (MORE, "let before = out.old in", "let before = let other = out.old in other in"),
    (MORE, "let before = out.old in", "let before : List ℕ = out.old in"),
    (MORE, "ghost use Rattle.more.specs.More as more;", "ghost use Rattle.more.specs.More as more;\nghost use Rattle.small.specs.Sums;"),
    (OTHER, "use even::{\n    Lists, Two,\n};", "use even::Lists;\nuse even::Two;"),
    (OTHER, "lists: &mut Lists<'a, W>", "lists: &mut even::Lists<'a, W>"),
    (OTHER, "impl<'a> Held<'a> {", "impl<'a> Held<'a>\nwhere\n    Held<'a>: Drop,\n{"),
    (OTHER, "(&mut self, n: usize)", "(self: &'a mut Self, n: usize)"),
    (OTHER, "(&self, n: usize)", "(self: &Self, n: usize)"),
    (OTHER, "-> Result<usize, other::Trouble>", "-> std::Result<usize, Trouble>"),
    (VIEWS, "pub number_one : (x y : Result ", "use Rattle.std.specs.Prelude.{Result as Given}\n\npub number_one : (x y : Given "),
    (HOLDS, "held_in h = both_of h.out.now h.rest.now", "held_in h = record { out = h.out.now; rest = h.rest.now }"),
    (HOLDS, "lists = lists_in l; held = both_of h.out.now h.rest.now", "lists = both_of l.out.now l.rest.now; held = held_in h"),
]
# a name of the library, and where it is declared
DECLARED = [
    ("Rattle.std.specs.Prelude", "◌≡◌", "mathlib.Core.Path", "◌≡◌"),
    ("Rattle.std.proofs.Common", "◌≡◌", "mathlib.Core.Path", "◌≡◌"),
    ("mathlib.Core.Path", "◌≡◌", "mathlib.Core.Path", "◌≡◌"),
    ("Rattle.std.specs.Int.Signed", "lt_z", "lib.Signed", "lt_z"),
    ("Rattle.std.specs.Prelude", "encode_utf8_all", "lib.Utf8", "encodes"),
    ("Rattle.std.specs.Prelude", "nothing", "Rattle.std.specs.Prelude", "nothing"),
    ("Rattle.small.specs.Sums", "◌≡◌", "Rattle.small.specs.Sums", "◌≡◌"),
    ("small.Same", "◌≡◌", "small.Same", "◌≡◌"),
]

BREAKS = OTHERS
BREAKS += [(LIB, DOUBLE, DOUBLE.replace("result ≡ twice n", said), "small::double is not settled") for said in NO_EQUATION]
BREAKS += [(LIB, COUNT, said, "small::count is not settled") for said in NO_RECORD]
BREAKS += [(LIB, "// A place", head + "\n{\n}\n\n// A place", said) for head, said in NEW]
BREAKS += [(OTHER, "impl<'a> Held", head + "\n{\n}\n\nimpl<'a> Held", said) for head, said in LENT]
BREAKS += [(LIB, TELL, said, words) for said, words in NOT_TOLD]
BREAKS += [(LIB, TOLD, TOLD.replace("out: &mut [u8]", "out: " + pair).replace("out.", "u8."), "the contract has u8.new, " + NO_OUTCOME + "x") for pair in PAIRS]
BREAKS += [(VIEWS, old, new, NUMBERED) for old, new in NO_VIEWS] + [(VIEWS, BOTH, statement, COUNTED) for statement in NO_BOTH]
BREAKS += [(ONE, TOLD_ONE, statement, words) for statement, words in NO_LAW]


@with_breaks("settled", BREAKS, FILES)
class Settled(unittest.TestCase):
    """The sound tree passes, with what it has to say of each function, and each break of it is seen."""

    def test_list(self):
        status, said = run("settled", FILES, ["--list"])
        self.assertEqual([re.sub(" +", " ", line) for line in said.split("\n")], LISTED)
        self.assertEqual(status, 0)

    def test_same(self):
        """What means the same passes too."""
        for name, old, new in SAME:
            with self.subTest(new):
                status, said = run("settled", broken(FILES, name, old, new))
                self.assertEqual(status, 0, said)

    def test_exported(self):
        """A function of a static library is that of a crate that it lists where it promises the same, and has to be settled where it promises anything else."""
        door = """ghost use Rattle.std.specs.Prelude.{◌≡◌, ◌≤◌};
ghost use Rattle.small.specs.Sums.{twice};

// Twice a number, for C.
#[unsafe(no_mangle)]
pub extern "C" fn double(n: usize) -> usize
    requires { n ≤ 100 }
    ensures { result ≡ twice n }
{
    small::double(n)
}
"""
        same = "small_c staticlib: small\n"
        for line, text, wanted in (
            (same, door, 0),
            (same, door.replace("n ≤ 100", "n ≤ 99"), 1),
            (same, door.replace("result ≡ twice n", "result ≡ twice (twice n)"), 1),
            (same, door.replace("Rattle.small.specs.Sums.{twice}", "Rattle.small.specs.Others.{twice}"), 1),
            (same, door.replace("fn double", "fn doubled"), 1),
            ("small_c: small\n", door, 1),
            ("small_c staticlib: more\n", door, 1),
        ):
            with self.subTest(line + text):
                files = dict(FILES, **{"crates.txt": FILES["crates.txt"] + line, "crates/small_c/src/lib.rt": text})
                status, said = run("settled", files)
                self.assertEqual(status, wanted, said)

    def test_declared(self):
        """A name of the library is what declares it, however often it is passed on."""
        for module, name, *declared in DECLARED:
            with self.subTest(module + "." + name):
                self.assertEqual(loaded("settled").origin(module, name), tuple(declared))


if __name__ == "__main__":
    unittest.main()
