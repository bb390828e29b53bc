"""Does tools/wrong see a list of wrong answers that is not whole, an edit that does not fit, and a program or a definition that the prover does not refuse for what is wrong?"""

import os
import tempfile
import unittest
from types import SimpleNamespace
from unittest import mock

from sound import LIB, SOUND, loaded, run, told, with_breaks, write

THRICE, TWICE, ZERO = "tests/wrong/small/thrice.edit", "tests/wrong/small/twice_once.edit", "crates/small/must-fail/zero.edit"
FILL8, FILL16, FILL_NONE, WHOLE, WHOLE64, TAKE, LONG = (
    "tests/wrong/more/%s.edit" % name for name in ("fill8", "fill16", "fill_none", "whole", "whole64", "take", "long")
)


def more(function, new, *inputs):
    """An edit of the function of one line of the crate `more`, with its inputs."""
    lines = ["# function: more::" + function, "# a wrong answer", "file: src/lib.rt", "in: " + function.split("::")[-1], "old: n + 1", "new: " + new]
    return "\n".join(lines + ["input: " + x for x in inputs] + ["right: result = 2", "wrong: result = 1"]) + "\n"


# the sound tree with a crate of functions for several types, and one that has inputs like theirs and is for one type
FILES = dict(SOUND, **{
    "crates/more/src/lib.rt": """pub struct Held<'a, K> {
    pub keys: &'a mut [K],
}

pub fn fill<'a, T: Into<Two<u8, T>>>(list: &'a mut [T], n: usize) -> usize
{
    n + 1
}

pub fn whole<C: Costs>(costs: C, n: usize) -> usize
{
    n + 1
}

impl<'a, K: Copy> Held<'a, K> {
    pub fn take(&mut self, n: usize) -> usize
    {
        n + 1
    }
}

pub fn long(costs: &mut [i32], bits: &mut [u64], n: usize) -> usize
{
    n + 1
}
""",
    FILL8: more("fill", "n", "T = u8", "T::Key = u8", "n = 1"),
    FILL16: more("fill", "n", "T = u16", "T::Key = u16", "n = 1"),
    FILL_NONE: more("fill", "0", "T = u16", "n = 1"),
    WHOLE: more("whole", "n", "costs = [1]", "n = 1"),
    WHOLE64: more("whole", "n", "bits = [1]", "opens = [1]", "n = 1"),
    "tests/wrong/more/whole_named.edit": more("whole", "n", "C = Others", "n = 1"),
    "tests/wrong/more/whole_none.edit": more("whole", "0", "costs = [1]", "n = 1"),
    TAKE: more("Held::take", "n", "K = u8", "n = 1"),
    "tests/wrong/more/take16.edit": more("Held::take", "n", "K = u16", "n = 1"),
    "tests/wrong/more/take_none.edit": more("Held::take", "0", "K = u8", "n = 1"),
    LONG: more("long", "n", "bits = [1]", "n = 1"),
    "tests/wrong/more/long_none.edit": more("long", "0", "costs = [1]", "n = 1"),
})

BREAKS = [
    (ZERO, "# function: small::count\n", "", "small::count: 1 wrong answers are named"),
    (ZERO, "src/lib.rt", "specs/Sums.antt", "zero.edit: it changes no source"),
    (ZERO, "small::count", "small::nothing", "there is no public function small::nothing"),
    (ZERO, "old: number: n,", "old: number: m,", "zero.edit: its old text stands 0 times"),
    (LIB, "// A place", "// New.\npub fn fresh(n: usize) -> usize\n{\n    n\n}\n\n// A place", "small::fresh: 0 wrong answers are named"),
    (LIB, "// A place", "// New.\npub trait Thing {\n    fn fresh(self) -> usize;\n}\n\n// A place", "small::Thing::fresh: 0 wrong answers are named"),
    (THRICE, "small::double", "small::treble", "there is no public function small::treble"),
    (THRICE, "# a wrong answer\n", "", "it has to have the lines"),
    (THRICE, "# a wrong answer\n", "# \n", "it has to have the lines"),
    (THRICE, "in: double\nold:     n + n\nnew:     n + n + n", "old:     pub length: usize,\nnew:     pub length: u64,", "its old text stands in no function"),
    (THRICE, "src/lib.rt", "specs/Sums.antt", "it changes no source"),
    (THRICE, "src/lib.rt", "src/other.rt", "there is no src/other.rt"),
    (THRICE, "in: double", "in: treble", "there is not one function treble"),
    (THRICE, "old:     n + n", "old:     n - n", "its old text stands 0 times"),
    (THRICE, "old:     n + n", "old: n", "its old text stands"),
    (THRICE, "new:     n + n + n", "new:     n + n", "it changes nothing"),
    (THRICE, "new:     n + n + n", "new:     n", "the same program as"),
    (THRICE, "# function: small::double", "# definition: small::twice", "it changes no definition"),
    (TWICE, "# a wrong definition\n", "", "it has to have the lines"),
    (TWICE, "# definition: small::twice", "# law: small::twice", "it has to have the lines"),
    (TWICE, "specs/Sums.antt", "proofs/One.antt", "it changes no definition"),
    (TWICE, "specs/Sums.antt", "specs/Other.antt", "there is no specs/Other.antt"),
    (TWICE, "small::twice", "small::Told", "its old text stands in twice"),
    (TWICE, "small::twice", "other::twice", "its definition is of another crate"),
    (TWICE, "old: twice n = n + n", "old: -- Small definitions.", "its old text stands in no definition"),
    (TWICE, "old: twice", "in: Told\nold: twice", "its old text stands 0 times"),
    (TWICE, "old: twice", "in: told\nold: twice", "there is not one definition told"),
    (TWICE, "new: twice n = n", "new: twice n = n + n -- once", "it changes nothing"),
    # twins name different types for a parameter of their function, and are one wrong answer
    (FILL16, "input: T = u16", "input: T = u8", "fill8.edit: the same program as tests/wrong/more/fill16.edit"),
    (FILL16, "input: T = u16\n", "", "fill8.edit: the same program as tests/wrong/more/fill16.edit"),
    (FILL16, "input: T = u16", "input: S = u16", "fill8.edit: the same program as tests/wrong/more/fill16.edit"),
    (FILL16, "input: T = u16", "input: T = u8\ninput: list = [2]", "fill8.edit: the same program as tests/wrong/more/fill16.edit"),
    (FILL16, "new: n", "new: 0", "fill_none.edit: the same program as tests/wrong/more/fill16.edit"),
    (FILL_NONE, "new: 0\ninput: T = u16", "new: n\ninput: T = u32", "more::fill: 1 wrong answers are named, and 2 are needed"),
    (FILL_NONE, "new: 0\ninput: T = u16", "new: n\ninput: T = u8", "fill_none.edit: the same program as tests/wrong/more/fill8.edit"),
    (WHOLE64, "input: bits = [1]\n", "", "whole64.edit: the same program as tests/wrong/more/whole.edit"),
    (WHOLE64, "input: bits = [1]", "input: costs = [1]", "whole64.edit: the same program as tests/wrong/more/whole.edit"),
    (WHOLE64, "input: bits = [1]", "input: C = Others", "whole_named.edit: the same program as tests/wrong/more/whole64.edit"),
    (TAKE, "input: K = u8", "input: K = u16", "take16.edit: the same program as tests/wrong/more/take.edit"),
    (TAKE, "new: n", "new: 0", "take_none.edit: the same program as tests/wrong/more/take.edit"),
    (LONG, "new: n", "new: 0", "long_none.edit: the same program as tests/wrong/more/long.edit"),
    (LONG, "new: n", "new: 0\ninput: T = u8", "long_none.edit: the same program as tests/wrong/more/long.edit"),
]

# what a prover says of the sound tree with an edit, its exit status, and a part of what `wrong` has to say
NAMED = "./proofs/double/Answers.antt:1:1: error: `%s`: the two types differ\nfn small::double: not proved\nlogic=not-proved\n"
BY_HAND = NAMED.replace("Answers", "Proof")
SEARCHED = "fn small::double: no proof: expected answers in ./proofs/double/Answers.antt; `search` did not prove %s\nlogic=not-proved\n"
LEFT = "note: src/%s:1: it is not proved that what the function ensures holds when it returns (`%s`); `search` gave up\nfn small::double: not proved\nlogic=not-proved\n"
REFUSED = [
    (NAMED % "returns", 1, "refused at small::double, returns"),
    (NAMED % "returns-2", 1, "refused at small::double, returns-2"),
    (NAMED % "returns-clause-told", 1, "refused at small::double, returns-clause-told"),
    (NAMED % "loop-i-init", 1, "refused at small::double, loop-i-init"),
    (NAMED % "rows-preserved", 1, "refused at small::double, rows-preserved"),
    (NAMED % "loop-i-preserved-2", 1, "refused at small::double, loop-i-preserved-2"),
    (NAMED.replace("/double/", "/deep/+double/") % "loop-i-preserved-clause-told", 1, "refused at small::double, loop-i-preserved-clause-told"),
    (BY_HAND % "loop-again", 1, "refused at small::double, loop-again"),
    (BY_HAND % "double_spec", 1, "refused at small::double, double_spec"),
    ((BY_HAND % "walk").replace("not proved\n", "not proved; the borrow checker does not cover this function yet\n", 1), 1, "refused at small::double, walk"),
    (SEARCHED % "`returns`", 1, "refused at small::double, returns"),
    (LEFT % ("lib.rt:15", "returns-then-n"), 1, "refused at small::double, returns-then-n"),
    (LEFT % ("lib.rt:20", "loop-i-preserved"), 1, "refused at small::double, loop-i-preserved"),
    (SEARCHED % "`overflow_add-n`, `returns-then-n`", 1, "refused at small::double, overflow_add-n, returns-then-n"),
]
NOT_REFUSED = [
    ("logic=proved\n", 0, "NOT REFUSED"),
    ("error: mismatched types\n", 1, "it did not reach the prover"),
    (NAMED % "returns", 2, "it did not reach the prover"),
    ((NAMED % "returns").replace("double", "tell"), 1, "double was changed, and refused was small::tell"),
    (NAMED % "overflow_add-result", 1, "refused at small::double, overflow_add-result"),
    (NAMED % "wipe-requires", 1, "refused at small::double, wipe-requires"),
    (NAMED % "loop-i-smaller", 1, "refused at small::double, loop-i-smaller"),
    (NAMED % "bounds-out-n-in-loop-i", 1, "refused at small::double, bounds-out-n-in-loop-i"),
    (NAMED % "double_spec", 1, "refused at small::double, double_spec"),
    (BY_HAND % "add-result", 1, "refused at small::double, add-result"),
    (BY_HAND % "loop-smaller", 1, "refused at small::double, loop-smaller"),
    (SEARCHED % "`overflow_add-n`", 1, "refused at small::double, overflow_add-n"),
    ((SEARCHED % "`overflow_add-n`").replace("logic", "note: `returns` of ./proofs/tell/Answers.antt must prove\nlogic"), 1, "refused at small::double, overflow_add-n"),
    (LEFT % ("lib.rt:14", "returns-then-n"), 1, "refused at small::double, nothing that has a name"),
    (LEFT % ("lib.rt:21", "returns-then-n"), 1, "refused at small::double, nothing that has a name"),
    (LEFT % ("other.rt:20", "returns-then-n"), 1, "refused at small::double, nothing that has a name"),
    (LEFT % ("lib.rt:20", "overflow_add-n"), 1, "refused at small::double, overflow_add-n"),
    (SEARCHED % "`overflow_add-n`; `returns` is proved", 1, "refused at small::double, overflow_add-n"),
    ((NAMED % "returns").replace("the two types differ", "record `x` has no field `args`"), 1, "refused at small::double, nothing that has a name"),
    ((NAMED % "returns").replace("the two types differ", "`args` is not a field of record `x`"), 1, "refused at small::double, nothing that has a name"),
    ((NAMED % "returns").replace("the two types differ", "`told` is not in scope"), 1, "refused at small::double, nothing that has a name"),
    ((NAMED % "returns").replace("`returns`: the two types differ", "1 declaration that depends on `told`, which was not admitted, was not checked: returns"), 1,
     "refused at small::double, nothing that has a name"),
]


# the same of an edit of a definition
LAW = "./%s:1:1: error: `told-one`: %s\nlogic=not-proved\n"
LAWS = [
    (LAW % ("proofs/One.antt", "the two types differ"), 1, "refused at proofs/One.antt, told-one"),
    (LAW % ("proofs/double/Proof.antt", "the two types differ"), 1, "refused at proofs/double/Proof.antt, told-one"),
]
NO_LAWS = [
    ("logic=proved\n", 0, "NOT REFUSED"),
    (LAW % ("proofs/One.antt", "the two types differ"), 2, "it did not reach the prover"),
    (LAW % ("specs/Sums.antt", "the two types differ"), 1, "no law is refused"),
    (LAW % ("proofs/One.antt", "`twice-is` was not admitted"), 1, "no law is refused"),
    (LAW % ("proofs/One.antt", "record `x` has no field `kept`"), 1, "no law is refused"),
    (LAW % ("proofs/One.antt", "`kept` is not a field of record `x`"), 1, "no law is refused"),
]


def tried(plain, said, status, words=("small/thrice",), checked=0):
    """The exit status and the words of the tool on an edit, with a prover that says this of it, and ends with these statuses on the crate without it: in the copy, in the tree."""
    with tempfile.TemporaryDirectory() as root:
        there = 'grep -q "    n + n + n" src/lib.rt || grep -q "twice n = n$" specs/Sums.antt'
        place = '[ "$1" = check ] && [ "${PWD#%s}" = "$PWD" ] || exit %d' % (os.path.realpath(root), checked)
        prover = '#!/bin/sh\n%s\n%s || exit %d\ncat "%s/said"\nexit %d\n' % (place, there, plain, root, status)
        write(root, dict(SOUND, said=said, **{"bin/rt": prover}))
        os.chmod(os.path.join(root, "bin", "rt"), 0o755)
        with mock.patch.dict(os.environ, PATH=os.path.join(root, "bin") + os.pathsep + os.environ["PATH"]):
            return told("wrong", ["--root=" + root] + list(words))


@with_breaks("wrong", BREAKS, FILES)
class Wrong(unittest.TestCase):
    """The sound tree passes, each break of it is seen, and so is what a prover says of an edit."""

    def test_refused(self):
        """The edit is refused as it has to be."""
        for said, status, words in REFUSED:
            with self.subTest(words):
                ended, out = tried(0, said, status)
                self.assertIn(words, out)
                self.assertTrue(out.endswith("1 passed, 0 failed\n"), out)
                self.assertEqual(ended, 0)

    def test_not_refused(self):
        """The edit is not refused, or for something else."""
        for said, status, words in NOT_REFUSED:
            with self.subTest(words):
                ended, out = tried(0, said, status)
                self.assertIn(words, out)
                self.assertTrue(out.endswith("0 passed, 1 failed\n"), out)
                self.assertEqual(ended, 1)

    def test_definition(self):
        """An edit of a definition is refused at a law, or it is not."""
        for last, cases in (("1 passed, 0 failed\n", LAWS), ("0 passed, 1 failed\n", NO_LAWS)):
            for said, status, words in cases:
                with self.subTest(words):
                    _, out = tried(0, said, status, ["small/twice_once"])
                    self.assertIn(words, out)
                    self.assertTrue(out.endswith(last), out)

    def test_not_proved(self):
        """The crate is not proved without an edit: in the tree, or where more than one is tried over what is kept, in the copy."""
        for plain, checked, words in ((0, 1, "the crates are not proved without an edit"), (1, 0, "the crate is not proved without it")):
            with self.subTest(words):
                ended, out = tried(plain, NAMED % "returns", 1, ["small/thrice", "small/once"], checked)
                self.assertIn(words, out)
                self.assertTrue(out.endswith("0 passed, 2 failed\n"), out)
                self.assertEqual(ended, 1)

    def test_rounds(self):
        """Edits of one function are not tried at once, nor are those of two of which one calls the other; one of a definition is tried alone."""
        edits = [SimpleNamespace(function=f, changed=c) for f, c in (("x", "a"), ("", "d"), ("x", "b"), ("y", "a"), ("", "e"), ("z", "c"))]
        for calls, groups in (({}, [["a", "b", "c"], ["d"], ["a"], ["e"]]), ({"a": {"c"}}, [["a", "b"], ["d"], ["a"], ["e"], ["c"]]), ({"c": {"b"}}, [["a", "b"], ["d"], ["a", "c"], ["e"]])):
            with self.subTest(calls):
                found = loaded("wrong").rounds(edits, dict(dict.fromkeys("abcde", set()), **calls))
                self.assertEqual([[e.changed for e in group] for group in found], groups)

    def test_reached(self):
        """What a function calls, itself or on the way; a method that a trait declares alone calls nothing."""
        text = "trait Five {\n    fn five(\n        self,\n    ) -> usize;\n}\n\nfn one() {\n    two(); // three()\n}\n\nfn two() {\n    small::four(1);\n}\n\npub fn four(n: usize) {\n}\n\nfn three() {\n    one()\n}\n"
        with tempfile.TemporaryDirectory() as root:
            write(root, {LIB: text})
            calls = loaded("wrong").reached(root, "small")
        self.assertEqual({n: c - {n} for n, c in calls.items()}, {"one": {"two", "four"}, "two": {"four"}, "four": set(), "three": {"one", "two", "four"}})

    def test_other_crate(self):
        """A function is tried where it stands."""
        _, said = run("wrong", dict(SOUND, **{"crates/other/src/lib.rt": SOUND[LIB].replace("pub fn", "fn"), "tests/wrong/other/thrice.edit": SOUND[THRICE]}))
        self.assertIn("tests/wrong/other/thrice.edit: its function is of another crate", said)

    def test_leaning(self):
        """Of two edits at once, one whose function calls the other's is tried alone: its refusal may be that one's."""
        said = NAMED % "returns" + (NAMED % "returns").replace("double", "tell").replace("not proved\n", "not proved; it calls small::double, which is not proved\n", 1)
        _, out = tried(0, said, 1, ["--together", "small/thrice", "small/tell_zero"])
        self.assertIn("NOT REFUSED", out)
        self.assertTrue(out.endswith("1 passed, 1 failed\n"), out)

    def test_together(self):
        """Of two edits at once each has its own verdict."""
        pair, both = ["--together", "small/thrice", "small/tell_zero"], NAMED % "returns" + (NAMED % "returns").replace("double", "tell")
        for said, words, last in ((both, "refused at small::tell, returns", "2 passed, 0 failed\n"), (NAMED % "returns", "NOT REFUSED", "1 passed, 1 failed\n")):
            with self.subTest(words):
                _, out = tried(0, said, 1, pair)
                self.assertIn(words, out)
                self.assertTrue(out.endswith(last), out)


if __name__ == "__main__":
    unittest.main()
