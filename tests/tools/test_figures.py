"""Does tools/figures see a figure of a document that is not what is counted?"""

import tempfile
import unittest

from sound import broken, exits, told, with_breaks, write

README = """# Small

A limit (2,048 indices, 4,096 links); a map of 2,048 indices and 4,096 links, or 2,048 indices with 4,096 links. We tell of two such maps, S1 to S3.
The bound is over 2,048, the bound over 2,048, m is over 2,048; `16384` between backticks and -2^1024 are not counted.

    $ grep -v '^#' examples/maps/one.txt
    map 1
    ..
    $ tools/mapfile pack < examples/maps/one.txt | tools/run-program paths
    engine 1
    end

```
12,345 in a block
```

## Speed

| Question | Dimetumble | graphina | ratio, directed | ratio, undirected | to the fastest other, directed |
|---|---|---|---|---|---|
| dijkstra | 1,077 | 196 | 0.39 | 0.38 | 0.59 (plain C) |
| a_star | 59.4 | 104 | 0.57 | 0.58 | 0.58 (plain C) |
"""
README = README.replace("A limit", "It is a limit")

BENCH = """# Speed

11,111 is measured.

## 2,048 indices, 4,096 links

### Random, directed

| Question | Dimetumble | graphina | plain C | to graphina | to the fastest other |
|---|---|---|---|---|---|
| dijkstra | 1,077 | 196 | 130 | 0.39 | 0.59 (plain C) |
| a_star | 59.4 | 104 | 102 | 0.57 | 0.58 (plain C) |
| page check | 22.4 | - | - | - | - |

### Random, undirected

| Question | Dimetumble | graphina | plain C | to graphina | to the fastest other |
|---|---|---|---|---|---|
| dijkstra | 118 | 309 | 187 | 0.38 | 0.63 (plain C) |
| a_star | 95.3 | 163 | 155 | 0.58 | 0.61 (plain C) |

## Over all maps

### Random, directed

| Question | Maps | all |
|---|---|---|
| dijkstra | 25 | 18 |
"""

DECISIONS = """# Decisions

In random maps of 2,048 indices, at 4,096 links, p from 32 to 2,048, 0.97 to 1.05 at p = 2,048. The limits: the limits 2,049 and 4,097.
There are five of the original's answers, one cases for each question, drawn from at most 3 indices and two records.
The output has 5,000 bytes, a constant of `sheet`; 64 rows of 64 entries and their starts take 4,900.
Not a map of more than 64 indices, nor a map of more than 64 indices (64 marks) (room 512).
Buffers are of fixed length (64, 65, 1,024, 4,096 entries). It reads to the end or 4,001 bytes.
It has one unsafe block in `bindings/rust/src/native.rs`, knows the two slices that differ, and goes by blocks of columns, 16 and at the end of a row 4 or 1;
a fixed count of 16 is short.
In `Entry`, -2^41 ..= 2^41; outside -2^42..2^42; a key 2^53 or more away from 0; 2^53 less the key, times 1,024, and 1,023 less the index;
2^63 less the pattern; at most 8(m+1) + 4a entries.
Measured: another seed: 8,072,203 cases; 5 (76,426 right); in a run of 6,000 to 10,000 drawn maps.
"""

DIFFERENCES = """# Differences

They have none values: -2^63, -1.0, 4,294,967,295.

## Compared

1,600 questions and 50 puts, 700 of the questions with the original too.

| Question | Asked | With the original |
|---|---|---|
| `dijkstra` | 1,100 (10 more) | 700 |
| page check | 500 | - |
| put, all | 50 | 20 feeds |

## After
"""

SCRATCH = """# Scratch

| Question | offsets | heads | weights | others | Sum | Theorem |
|---|---|---|---|---|---|---|
| `dijkstra` | m+1 | a | a | preds, peaks: m each; queue: m+1 | 4m + 2 + 2a | `x` |
| page check | - | - | - | none | 0 | - |
"""

TREE = {
    "README.md": README,
    "docs/BENCH.md": BENCH,
    "docs/DECISIONS.md": DECISIONS,
    "docs/DIFFERENCES.md": DIFFERENCES,
    "docs/SCRATCH.md": SCRATCH,
    "docs/TRACE.md": "# Trace\n\n| ID | Requirement | Where |\n|---|---|---|\n| A | 9,999 of it | a bound over 2,048 |\n",
    "docs/AUDIT.md": "# Audit\n\n| together | 1276 |\n\nThe last rows are others; the questions alone rest on 1009 lines.\n",
    "docs/EXCEPTIONS.md": "# Exceptions\n",
    "docs/PROVING.md": "# Proving\n",
    "docs/WORDS.md": "# Words\n",
    "docs/SETTLED.md": "# Settled\n",
    "docs/changes/old.md": "# Old\n\nThe bound over 1,000 and 77,777.\n",
    "oracle/README.md": "# Oracle\n",
    "crates/replay/LIST.md": "# List\n\nA list of 7,000 bytes.\n",
    "crates/replay/src/main.rt": "const ROOM: usize = 7000;\n",
    "crates/replay/stdin": "1 0 2 1 1 1 0 1 5\n2 1 3 1 1 1 0 7\n3 0 1 1 2 0 0 4 0 0 5\n4 0 0 0 6\n5 0 0 0 6\n",
    "examples/README.md": "# Examples\n\n| Example | What |\n|---|---|\n| `one` | one |\n| `two` | two |\n",
    "examples/maps/one.txt": "# one\nmap 1\nlink 0 0 1\n",
    "examples/maps/one.sheet": "engine 1\nend\n",
    "examples/maps/two.txt": "map 2\n",
    "crates/table/src/lib.rt": "// const INDICES: usize = 1;\n    pub const INDICES: usize = 2048;\n    pub const LINKS: usize = 4096;\n",
    "crates/sheet/src/lib.rt": "pub const LIMIT: usize = 4000;\npub const OUTPUT: usize = 5000;\n",
    "crates/sheet/specs/Sheet.antt": "read_file file = loaded 16384 file (zeros 64) (zeros 512) (zeros_i 512)\n",
    "crates/answers/specs/Output.antt": "most = 4900\n",
    "crates/answers/specs/Answers.antt": "a (zeros 64) (zeros_i 65) (zeros 1024) (zeros_i 4096) (zeros 64)\n",
    "crates/promises/specs/Small.antt": "  pub s1 : A\n  pub s2_one : B\n  pub s2_two : B\n  pub s3 : C\n",
    "bindings/rust/src/native.rs": "// unsafe { }\nunsafe { call() }\n",
    "tests/c/signatures.py": "DOUBLES = {('dimetumble_a', 'dist'), ('dimetumble_b', 'dist')}\n",
    "crates/clean/src/lib.rt": "pub const NONE_I64: i64 = -9223372036854775808;\npub const NONE_U32: u32 = 4294967295;\n",
    "crates/walks/specs/Walk.antt": "Entry d = Within (2 ^ 41) d\n",
    "crates/a_star/specs/Promise.antt": "is_fair z = le_z (negsuc (2 ^ 42 - 1)) z && le_z z (pos (2 ^ 42))\n",
    "crates/bag/specs/Ints.antt": "  pub up : P k < 2 ^ 53\nword_of k v = (2 ^ 53 + N k - P k) * 1024 + (1023 - v)\n",
    "crates/bag/specs/Floats.antt": "rank_of k = 2 ^ 63 - k\n",
    "crates/floyd_warshall/src/lib.rt": "const BLOCK: usize = 16;\nconst SMALL: usize = 4;\n",
    "crates/promises/proofs/Scratch.antt": "  x ≤ 8 * (g.bound + 1) + 4 * most_arcs_of g\n  y ≤ 8 * (g.bound + 1) + 4 * most_arcs_of g\n",
}

# every figure of a phrase, each made another: the document, the words around it, with the wrong figure between braces
FIGURES = {
    "README.md": [
        "a limit ({2,048} indices", "indices, {4,096} links);", "map of {2,048} indices and", "and {4,096} links, or", "or {2,048} indices with",
        "indices with {4,096} links. We", "of {two} such maps", "S1 to S{3}", "bound is over {2,048}", "bound over {2,048}", "m is over {2,048}",
    ],
    "docs/DECISIONS.md": [
        "maps of {2,048} indices", "at {4,096} links", "32 to {2,048}", "p = {2,048}", "limits {2,049} and", "and {4,097}", "are {five} of the",
        "answers, {one} cases", "at most {3} indices", "and {two} records", "has {5,000} bytes", "{64} rows", "of {64} entries and", "take {4,900}",
        "indices, nor a map of more than {64}", "({64} marks)", "(room {512})", "length ({64},", ", {65},", "65, {1,024},", ", {4,096} entries",
        "or {4,001} bytes", "has {one} unsafe", "the {two} slices", "columns, {16} and", "row {4} or 1", "count of {16} is", "-2^{41} ..",
        "..= 2^{41}", "-2^{42}..", "..2^{42}", "key 2^{53} or", "2^{53} less", "times {1,024},", "{1,023} less", "2^{63} less", "most {8}(m",
        "+ {4}a",
    ],
    "docs/DIFFERENCES.md": [
        "-2^{63},", "-1.0, {4,294,967,295}", "{1,600} questions", "and {50} puts", "puts, {700} of",
    ],
    "docs/TRACE.md": [
        "over {2,048}",
    ],
    "crates/replay/LIST.md": [
        "of {7,000} bytes",
    ],
}

BREAKS = [
    # how it is counted
    ("crates/table/src/lib.rt", "INDICES: usize = 2048", "INDICES: usize = 2049",
     "README.md:3: a limit (2,048 indices, 4,096 links), but there are 2049, 4096"),
    ("crates/table/src/lib.rt", "    pub const LINKS", "    const INDICES: usize = 2047;\n    pub const LINKS", "but there are 0, 4096"),
    ("crates/replay/stdin", "5 0 0 0 6\n", "5 0 0 0 6\n5 0 0 0 6\n", "one cases for each question, but there are 0"),
    ("crates/answers/specs/Answers.antt", "(zeros 64)\n", "(zeros 66)\n", "but there are 0, 0, 0, 0"),
    ("crates/promises/specs/Small.antt", "s3 :", "s4 :", "S1 to S3, but there are 0"),
    ("examples/README.md", "| `two` | two |\n", "", "two such maps, but there are 0"),
    ("examples/maps/three.txt", None, "map 3\n", "two such maps, but there are 0"),
    ("docs/DIFFERENCES.md", "| 700 |", "| 701 |", "but there are 1600, 50, 701"),
    ("docs/DIFFERENCES.md", "| page check | 500 |", "| page check | 501 |", "but there are 1601, 50, 700"),
    # a phrase that nobody says, a figure that nothing counts
    ("docs/DECISIONS.md", "a fixed count of 16 is short", "short", "no document says: a fixed count of # is"),
    ("docs/PROVING.md", "# Proving", "# Proving of 1,234 or more", "docs/PROVING.md:1: nothing counts 1,234"),
    ("docs/PROVING.md", "# Proving", "# Proving\n\n| a | of 98305 bytes |", "docs/PROVING.md:3: nothing counts 98305"),
    ("docs/DECISIONS.md", "another seed: 8,072,203 cases", "another: 8,072,203 cases", "nothing counts 8,072,203"),
    ("docs/DECISIONS.md", "to 10,000 drawn maps", "to 10,000 maps", "nothing counts 10,000"),
    ("docs/AUDIT.md", "rest on 1009 lines", "rest on all 1009 lines", "docs/AUDIT.md:5: nothing counts 1009"),
    ("docs/TRACE.md", "over 2,048 |", "over 2,048 and 7,777 |", "docs/TRACE.md:5: nothing counts 7,777"),
    # tables and blocks
    ("README.md", "| a_star | 59.4 |", "| a_star | 59.5 |", "README.md: docs/BENCH.md has no such row: a_star | 59.5"),
    ("README.md", "| 0.39 | 0.38 |", "| 0.39 | 0.39 |", "has no such row: dijkstra"),
    ("README.md", "| 0.58 | 0.58 (plain C) |", "| 0.58 | 0.59 (plain C) |", "has no such row: a_star"),
    ("README.md", "| a_star | 59.4 | 104 | 0.57 | 0.58 | 0.58 (plain C) |\n", "", "README.md: no row of docs/BENCH.md: a_star"),
    ("README.md", "0.59 (plain C) |\n", "0.59 (plain C) |\n| dijkstra | 1,077 | 196 | 0.39 | 0.38 | 0.59 (plain C) |\n", "has no such row: dijkstra"),
    ("docs/SCRATCH.md", "4m + 2 + 2a", "4m + 2 + a", "`dijkstra`: the sum is not 4m + 2 + a"),
    ("docs/SCRATCH.md", "4m + 2 + 2a", "4m + 1 + 2a", "`dijkstra`: the sum is not 4m + 1 + 2a"),
    ("docs/SCRATCH.md", "preds, peaks: m", "preds, peaks, words: m", "`dijkstra`: the sum is not 4m + 2 + 2a"),
    ("docs/SCRATCH.md", "queue: m+1", "queue: m", "`dijkstra`: the sum is not 4m + 2 + 2a"),
    ("docs/SCRATCH.md", "| m+1 | a | a |", "| m+1 | a | - |", "`dijkstra`: the sum is not 4m + 2 + 2a"),
    ("docs/SCRATCH.md", "| none | 0 |", "| none | m |", "page check: the sum is not m"),
    ("README.md", "    engine 1\n", "    engine 2\n", "README.md: that is not the sheet of examples/maps/one.txt"),
    ("README.md", "    end\n", "", "README.md: that is not the sheet of examples/maps/one.txt"),
    ("README.md", "    map 1\n", "    map 2\n", "README.md: no line of examples/maps/one.txt: map 2"),
]


@with_breaks("figures", BREAKS, TREE)
class Figures(unittest.TestCase):
    """The sound tree passes, and each break of it is seen; so is each figure that is made another."""

    def test_exit(self):
        self.assertEqual(exits("figures", broken(TREE, *BREAKS[0][:3])), 1)

    def test_figures(self):
        with tempfile.TemporaryDirectory() as root:
            write(root, TREE)
            for path, words in ((path, words) for path, listed in FIGURES.items() for words in listed):
                right = words.replace("{", "").replace("}", "")
                wrong = words[:words.index("{")] + "9" + words[words.index("}") + 1:]
                with self.subTest(words):
                    write(root, {path: broken(TREE, path, right, wrong)[path]})
                    status, said = told("figures", [root])
                    self.assertEqual(status, 1)
                    self.assertRegex(said, path + r":\d+: .*, but there are")
                    write(root, {path: TREE[path]})


if __name__ == "__main__":
    unittest.main()
