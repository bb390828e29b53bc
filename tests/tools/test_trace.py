"""Does tools/trace see a file, a name, a command or code that a document speaks of and that is not there?"""

import unittest

from sound import LIB, SOUND, broken, exits, run, with_breaks

README = """# Small

A sentence on `small` and `double` of `crates/small/src/lib.rt`. It has `tell` too; `told_one` is another's, as `twice_is` in `double` is.
Run `make test`, or `tools/pack --tight < one.txt`.
All is defined: `number`, `out`, `in_order`, `'outer`, `Colour`, `Red`, `LIMIT`, `inner`, `to`, `length`, `small::double`.
And `lib::Count`, `Colour::Red`, `small_put`, `TestOne`, `KIT`, `added_one`, `rules`, `Map`.
In a file: `twice` in `small/specs/Sums.antt`; `Told` in `small/specs/Sums.antt`, `small/specs/Other.antt` and `small/specs/Last.antt`.
Words: `specs`, `proofs`, `one`, `.map`, `engine E`, `usize`, `docs`, `NOTICE`, `small/specs/*.antt`, `crates/NAME/src`, `lib.rt`, `specs/`.
Code: `n + n`, `fn double(n: ..`, `&mut [u8]`.

    make test   # all of it: make nothing
    $ tools/pack --tight < examples/maps/one.txt > made/nowhere.map && rt check small | tools/run-program small
    cd crates/small && rt ci --fast && rt must-fail small && rt lib && rt run < examples/maps/one.map > made/nowhere.sheet && rt try --seconds -- nobody && rt fmt && rt
    no command: tools/nothing
    
    make test

```
python3 tests/one/test_one.py
```

```c
small_put(2); /* no(thing) */
assert_eq(2);
```

```rust
double(2);
```
"""

LAST = "`small/specs/Sums.antt` `Told`; `small/proofs/One.antt` `told_one`, `.._one`; `small/src/lib.rt`, `small/proofs/One.antt` `twice_is`, `double`"

TREE = dict(SOUND, **{
    "README.md": README,
    "NOTICE": "none\n",
    ".gitignore": "target/\n",
    "target/README.md": "`nothing`\n",
    "oracle/.gitignore": "shims/made/\n",
    "oracle/shims/made/README.md": "`nothing`\n",
    "Makefile": "# nothing: is no target\ntest:\n\techo nothing: # not_code = 1\n",
    LIB: SOUND[LIB].replace("// A number told", """// The colours of commented_one.
pub enum Colour {
    Red,
    Mixed(usize, other_word),
}

pub const LIMIT: usize = 7;

struct Kept {
    ghost in_order: { LIMIT < 9 },
}

mod inner;

fn walk<T>(mut from: &[T], to: u8) -> &'static [u8] {
    let local_one = '"';
    'outer: while local_one < 3 {
        let text = "quoted_one fn quoted_two() n + quoted";
    }
    b"struct Quoted"
}

/* fn blocked_one() */
// A number told"""),
    "crates/small/specs/Other.antt": "-- Other. ruled\npub Told : ℕ\nTold = 1 -- other_one + 1\n\npub ruleset rules = (a, b)\n\n-- commented-two : ℕ\n",
    "crates/small/specs/Last.antt": "pub Told : ℕ\nTold = 1\n",
    "crates/small/stdout": "case first-case\nengine 1\n0\nnone\n",
    "include/small.h": "/* no_such(x) */\nint small_put(int n);\n",
    "oracle/run": "KIT=1\n# OTHER=2\necho UNSET=3\n",
    "oracle/one.patch": "+    pub fn added_one() {\n-    pub fn taken_one() {\n",
    "bindings/rust/src/map.rs": "pub struct Map {\n    size: usize,\n}\n",
    "bench/a.cpp": "assert_eq(1, Optional, xu16); // NULL\n",
    "tests/one/test_one.py": '"""def described_one():"""\nimport unittest\n\n\nclass TestOne(unittest.TestCase):\n    pass\n',
    "bench/report.py": "def bench_one():\n    pass\n",
    "crates/small/notes": "case noted-case\nrefused 1\n",
    "crates/small_two/src/lib.rt": "fn two_only() {}\n",
    "tests/tools/test_x.py": "def tool_test():\n    pass\n",
    "tools/pack": '#!/usr/bin/env python3\n"""--loose is described."""\nWORDS = ("--tight",)\n',
    "tools/run-program": "#!/bin/sh\n",
    "tools/own.py": "def own_word():\n    return own_code + 1\n",
    "tools/own.rt": "fn own_function() { own_rattle + 1; }\n",
    "examples/maps/one.txt": "map 1\n",
    "examples/maps/one.map": "",
    "examples/README.md": "# Examples\n\nBeside: `maps`, `maps/one.txt`.\n",
    "docs/TRACE.md": "# Trace\n\n`Told`\n\n| ID | Requirement | Where |\n|---|---|---|\n| A | `not looked at` | %s |\n" % LAST,
    "docs/STATEMENTS.md": "`nothing`\n",
    "docs/PORT.md": "`nothing` of `none/at/all.rt`\n",
    "PORTING-LEFT.md": "`nothing`\n",
    "docs/changes/first.md": "# First\n\n`nothing` of `small/src/lib.rt`. The file `small/src/old.rt` is gone.\n",
    "docs/BENCH.md": "# Speed\n",
    "docs/DECISIONS.md": "# Decisions\n\n| Question | Decision |\n|---|---|\n| `small/proofs/One.antt` | `double` |\n",
    "docs/DIFFERENCES.md": "# Differences\n",
    "docs/PROVING.md": "# Proving\n",
    "docs/WORDS.md": "# Words\n",
    "oracle/README.md": "# Oracle\n",
    "crates/replay/LIST.md": "# List\n",
})

# what a line of a document may say, and what the tool has to say of it
WRONG = [
    ("nobody", "nobody is defined nowhere"),
    ("..-two", "..-two is defined nowhere"),
    (".._two", ".._two is defined nowhere"),
    ("Tolled", "Tolled is defined nowhere"),
    # of no definition: comments, strings, locals, calls, tools, tests of tools, what a patch takes away
    ("commented_one", "commented_one is defined nowhere"),
    ("commented-two", "commented-two is defined nowhere"),
    ("quoted_two", "quoted_two is defined nowhere"),
    ("Quoted", "Quoted is defined nowhere"),
    ("blocked_one", "blocked_one is defined nowhere"),
    ("local_one", "local_one is defined nowhere"),
    ("ghost", "ghost is defined nowhere"),
    ("other_word", "other_word is defined nowhere"),
    ("own_word", "own_word is defined nowhere"),
    ("own_function", "own_function is defined nowhere"),
    ("tool_test", "tool_test is defined nowhere"),
    ("described_one", "described_one is defined nowhere"),
    ("bench_one", "bench_one is defined nowhere"),
    ("noted-case", "noted-case is defined nowhere"),
    ("refused N", "nowhere in the code: refused N"),
    ("crates/small` has `two_only", "two_only is defined in none of: crates/small"),
    ("no_such", "no_such is defined nowhere"),
    ("taken_one", "taken_one is defined nowhere"),
    ("OTHER", "OTHER is defined nowhere"),
    ("UNSET", "UNSET is defined nowhere"),
    ("ruled", "ruled is defined nowhere"),
    ("not-a-case", "not-a-case is defined nowhere"),
    ("one.map.txt", "no file one.map.txt"),
    # of an owner
    ("small::nobody", "small::nobody is defined nowhere"),
    ("replay::double", "replay::double is defined nowhere"),
    ("Colour::small_put", "Colour::small_put is defined nowhere"),
    ("Map::double", "Map::double is defined nowhere"),
    # words of others that the code does not use, and words that only look as if they were there
    ("NULL", "NULL is defined nowhere"),
    ("Option", "Option is defined nowhere"),
    ("u16", "u16 is defined nowhere"),
    ("BinaryHeap", "BinaryHeap is defined nowhere"),
    ("two", "two is defined nowhere"),
    ("engine", "engine is defined nowhere"),
    (".sheet", "nowhere in the code: .sheet"),
    ("spec*", "nowhere in the code: spec*"),
    ("bad map at K", "nowhere in the code: bad map at K"),
    ("E", "E is defined nowhere"),
    # code
    ("n + n + n", "nowhere in the code: n + n + n"),
    ("n + quoted", "nowhere in the code: n + quoted"),
    ("other_one + 1", "nowhere in the code: other_one + 1"),
    ("own_code + 1", "nowhere in the code: own_code + 1"),
    ("own_rattle + 1", "nowhere in the code: own_rattle + 1"),
    ("not_code = 1", "nowhere in the code: not_code = 1"),
    ("fn double( .. Count", "nowhere in the code: fn double( .. Count"),
    ("fn doubled(", "nowhere in the code: fn doubled("),
    # files
    ("small/specs/Sum.antt", "no file small/specs/Sum.antt"),
    ("src/none.rt", "no file src/none.rt"),
    ("other/lib.rt", "no file other/lib.rt"),
    ("none.rt", "no file none.rt"),
    ("Sums.h", "no file Sums.h"),
    ("crates/NAME/code", "no file crates/NAME/code"),
    ("small/must-fail/*.txt", "no file small/must-fail/*.txt"),
    ("maps/one.txt", "no file maps/one.txt"),
    # commands
    ("make nothing", "no target for make nothing"),
    ("make test nothing", "no target for make nothing"),
    ("rt check small nobody", "no crate nobody"),
    ("rt ci nobody", "no crate nobody"),
    ("rt must-fail small nobody", "no crate nobody"),
    ("rt try nobody -- small", "no crate nobody"),
    ("rt run < small/none.txt", "no file small/none.txt"),
    ("cd crates/nobody && rt check", "no file crates/nobody"),
    ("cd crates/small && rt check nobody", "no crate nobody"),
    ("rt staticlib small", "no command rt staticlib"),
    ("rt dev small", "no command rt dev"),
    ("tools/run-program nobody", "no crate nobody"),
    ("tools/nothing --tight", "no file tools/nothing"),
    ("tools/pack --loose", "tools/pack does not know --loose"),
    ("tools/pack < small/none.txt", "no file small/none.txt"),
    ("bash oracle/walk", "no file oracle/walk"),
]

BREAKS = [
    # where a name is defined: in the files named last, in those that follow "in"
    ("docs/TRACE.md", "`Told`;", "`twice_is`;", "docs/TRACE.md:7: twice_is is defined in none of: crates/small/specs/Sums.antt"),
    ("docs/TRACE.md", "`.._one`", "`.._two`", ".._two is defined in none of: crates/small/proofs/One.antt"),
    ("docs/TRACE.md", "`.._one`", "`..-one`", "..-one is defined in none of: crates/small/proofs/One.antt"),
    ("docs/TRACE.md", "`.._one`", "`Told`", "Told is defined in none of: crates/small/proofs/One.antt"),
    ("docs/TRACE.md", "`double`", "`Told`", "Told is defined in none of: crates/small/src/lib.rt, crates/small/proofs/One.antt"),
    ("docs/TRACE.md", "\n`Told`\n", "\n`Tolled`\n", "docs/TRACE.md:3: Tolled is defined nowhere"),
    ("README.md", "src/lib.rt`. It has", "src/lib.rt`; it has", "told_one is defined in none of: crates/small/src/lib.rt"),
    ("README.md", "`twice` in", "`told_one` in", "told_one is defined in none of: crates/small/specs/Sums.antt"),
    ("README.md", "`small/specs/Other.antt` and", "`small/proofs/One.antt` and", "Told is defined in none of: crates/small/proofs/One.antt"),
    ("README.md", "and `small/specs/Last.antt`", "and `small/proofs/One.antt`", "Told is defined in none of: crates/small/proofs/One.antt"),
    ("docs/DECISIONS.md", "`double` |", "`double` and `nobody` |", "docs/DECISIONS.md:5: nobody is defined nowhere"),
    # backticks, blocks
    ("README.md", "`tell` too", "`tell too", "README.md:3: a backtick without another"),
    ("README.md", "    make test   #", "    make nothing   #", "README.md:11: no target for make nothing"),
    ("README.md", "$ tools/pack", "$ tools/unpack", "no file tools/unpack"),
    ("README.md", "--tight < examples/maps/one.txt >", "--loose < examples/maps/one.txt >", "tools/pack does not know --loose"),
    ("README.md", "< examples/maps/one.txt >", "< examples/maps/two.txt >", "no file examples/maps/two.txt"),
    ("README.md", "rt check small |", "rt check none |", "no crate none"),
    ("README.md", "run-program small", "run-program none", "no crate none"),
    ("README.md", "tests/one/test_one.py", "tests/one/test_two.py", "no file tests/one/test_two.py"),
    ("README.md", "small_put(2)", "small_take(2)", "no function small_take"),
    ("README.md", "assert_eq(2)", "Some(2)", "no function Some"),
    ("README.md", "double(2);", "treble(2);", "no function treble"),
    # which documents
    ("docs/NEW.md", None, "# New\n", "docs/NEW.md is on no list of documents"),
    ("crates/small/README.md", None, "# New\n", "crates/small/README.md is on no list of documents"),
    ("docs/PORT-OTHER.md", None, "# New\n", "docs/PORT-OTHER.md is on no list of documents"),
    ("docs/changes/first.md", "`small/src/lib.rt`", "`small/src/new.rt`", "docs/changes/first.md:3: no file small/src/new.rt"),
] + [(path, None, "`nobody`\n", path + ":1: nobody is defined nowhere") for path in (
    "README.md", "docs/AUDIT.md", "docs/BENCH.md", "docs/DECISIONS.md", "docs/DIFFERENCES.md", "docs/EXCEPTIONS.md", "docs/PROVING.md", "docs/SCRATCH.md",
    "docs/SETTLED.md", "docs/TRACE.md", "docs/WORDS.md", "examples/README.md", "oracle/README.md", "crates/replay/LIST.md",
)] + [("docs/DIFFERENCES.md", "", None, "docs/DIFFERENCES.md is missing")]


@with_breaks("trace", BREAKS, TREE)
class Trace(unittest.TestCase):
    """The sound tree passes, and each break of it is seen; so is each wrong word of a document, all of them tried at once."""

    def test_exit(self):
        self.assertEqual(exits("trace", broken(TREE, *BREAKS[0][:3])), 1)

    def test_words(self):
        status, said = run("trace", broken(TREE, "docs/PROVING.md", None, "".join("`%s`\n" % thing for thing, _ in WRONG)))
        self.assertEqual(status, 1)
        for number, (thing, words) in enumerate(WRONG, 1):
            with self.subTest(thing):
                self.assertIn("docs/PROVING.md:%d: %s\n" % (number, words), said)


if __name__ == "__main__":
    unittest.main()
