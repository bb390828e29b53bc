"""A small sound tree, which the tests of each tool build on, and how a tool is run on a tree and on what is broken of it."""

import contextlib
import functools
import importlib.machinery
import importlib.util
import io
import os
import subprocess
import sys
import tempfile
from unittest import mock

TOOLS = os.path.join(os.path.dirname(os.path.dirname(os.path.dirname(os.path.abspath(__file__)))), "tools")
LIB, SUMS, ONE = "crates/small/src/lib.rt", "crates/small/specs/Sums.antt", "crates/small/proofs/One.antt"

SOUND = {
    "Makefile": "test:\n\ttrue\n",
    "crates.txt": "small:\n",
    "crates/small/src/lib.rt": """// Small functions.
#![tactic(auto)]

ghost use Rattle.std.specs.Prelude.{◌≡◌, ◌≤◌, length};
ghost use Rattle.small.specs.Sums.{twice, Told, packed};

// What a count answers.
#[derive(Drop)]
pub struct Count {
    pub number: usize,
    pub length: usize,
}

// Twice a number.
pub fn double(n: usize) -> usize
    requires { n ≤ 100 }
    ensures { result ≡ twice n }
{
    n + n
}

// A number told in a slice.
pub fn tell(out: &mut [u8], n: usize) -> usize
    ensures { Told n out.old out.new result }
{
    n
}

// Two numbers, as a record.
pub fn count(out: &mut [u8], n: usize) -> Count
    ensures { packed result.number result.length out.new ≡ packed n (twice n) out.old }
{
    Count {
        number: n,
        length: n + n,
    }
}

// A place that is left open.
pub fn somewhere(out: &mut [u8])
    ensures { length out.new ≡ length out.old }
{
    out[0] = 0;
}
""",
    "crates/small/must-fail/thrice.edit": "file: specs/Sums.antt\nold: n + n\nnew: n + n + n\n",
    "crates/small/specs/Sums.antt": """-- Small definitions.
use Rattle.std.specs.Prelude.{◌≡◌, List, ℕ, ◌+◌}

-- twice a number
abbrev pub twice : ℕ → ℕ
twice n = n + n

-- told in a slice
pub record Told (n : ℕ) (before after : List ℕ) (r : ℕ) : Type 0 where
  pub kept : after ≡ before
  pub is : r ≡ twice n

-- what a count leaves
pub record Counted : Type 0 where
  pub number : ℕ
  pub length : ℕ
  pub out : List ℕ

-- the same from its parts
abbrev pub packed : ℕ → ℕ → List ℕ → Counted
packed x n l = record { number = x; length = n; out = l }
""",
    "crates/small/proofs/One.antt": """-- One answer.
use mathlib.Core.Path.{◌≡◌, sym, ◌∙◌}
use Rattle.std.proofs.Common.{List, ℕ}
use Rattle.small.specs.Sums.{Told, twice}

-- what is told is one thing
pub told_one : {n r s : ℕ} {b x y : List ℕ} → Told n b x r → Told n b y s → (x ≡ y) × (r ≡ s)
told_one p q = (p.kept ∙ sym q.kept, p.is ∙ sym q.is)

-- twice is twice
pub twice_is : (n : ℕ) → twice n ≡ twice n
twice_is n = refl

module _ (k : ℕ) where
  pub twice_again : twice k ≡ twice k
  twice_again = refl
""",
    "crates/audit/proofs/Lean.antt": """-- What leans on the theorems.
use Rattle.std.proofs.Common.{◌≡◌, sym, ℕ}
use Rattle.small.specs.Sums.{twice}
use Rattle.small.proofs.One.{twice_is}
use Rattle.small.proofs.One as one

pub twice_turned : (n : ℕ) → twice n ≡ twice n
twice_turned n = sym (twice_is n)

pub again_turned : (k : ℕ) → twice k ≡ twice k
again_turned k = sym (one.twice_again k)
""",
    "docs/SETTLED.md": "# Settled\n\n| Function | Law |\n|---|---|\n| `small::tell` | `small/proofs/One.antt` `told_one` |\n| `small::count` | by equation |\n",
    "docs/EXCEPTIONS.md": "# Exceptions\n\n| Function | Left open | Cause |\n|---|---|---|\n| `small::somewhere` | the slice | none |\n\n## Shut out\n\n| Function | What | Cause |\n|---|---|---|\n| `small::double` | large numbers | none |\n",
    "docs/SCRATCH.md": "# Scratch\n\nNone.\n",
    "docs/TRACE.md": "# Trace\n\n| ID | Requirement | Where |\n|---|---|---|\n| A | `not looked at` | `small/specs/Sums.antt` `Told`; `small/proofs/One.antt` `told_one`, `.._one` |\n",
    "docs/AUDIT.md": """# Audit

| Question | Theorem | File | In words |
|---|---|---|---|
| twice? | `twice_is` | `small/proofs/One.antt` | it is |
| | `.._again` | `small/proofs/One.antt` | it is, again |

## What must be believed

The 4 lines of the 2 contracts: `make test`.

| File | Lines | What |
|---|---|---|
| `small/specs/Sums.antt` | 11 | all |
| together | 11 | |
""",
}


def edit(function, place, old, new, shown):
    """An edit of the sound tree with its words, and what is shown of it: the input, the right and the wrong answer."""
    lines = ["# function: small::" + function, "# a wrong answer", "file: src/lib.rt"] + ["in: " + place] * bool(place) + ["old: " + old, "new: " + new]
    return "\n".join(lines + ["%s: %s" % x for x in zip(("input", "right", "wrong"), shown)]) + "\n"


SOUND.update({
    "tests/wrong/small/thrice.edit": edit("double", "double", "    n + n", "    n + n + n", ("n = 3", "result = 6", "result = 9")),
    "tests/wrong/small/once.edit": edit("double", "double", "    n + n", "    n", ("n = 3", "result = 6", "result = 3")),
    "tests/wrong/small/tell_zero.edit": edit("tell", "tell", "    n", "    0", ("n = 3", "result = 3", "result = 0")),
    "tests/wrong/small/tell_one.edit": edit("tell", "tell", "    n", "    1", ("n = 3", "result = 3", "result = 1")),
    "tests/wrong/small/short.edit": edit("count", "count", "length: n + n", "length: n", ("n = 3", "result.length = 6", "result.length = 3")),
    "tests/wrong/small/some_one.edit": edit("somewhere", "somewhere", "= 0;", "= 1;", ("out = [5, 5]", "out = 0 5", "out = 1 5")),
    "tests/wrong/small/some_two.edit": edit("somewhere", "somewhere", "= 0;", "= 2;", ("out = [5; 9]", "out = 0 5 ..", "out = 2 5 ..")),
    "tests/wrong/small/twice_once.edit": "# definition: small::twice\n# a wrong definition\nfile: specs/Sums.antt\nold: twice n = n + n\nnew: twice n = n\n",
    "crates/small/must-fail/zero.edit": edit("count", "", "number: n,", "number: 0,", ("n = 3", "result.number = 3", "result.number = 0")),
})


def write(root, files):
    """The files, written below a folder."""
    for name, text in files.items():
        path = os.path.join(root, name)
        os.makedirs(os.path.dirname(path), exist_ok=True)
        with open(path, "w", encoding="utf-8") as f:
            f.write(text)


@functools.lru_cache(maxsize=None)
def loaded(tool):
    """A tool of tools/ as a module."""
    path = os.path.join(TOOLS, tool)
    loader = importlib.machinery.SourceFileLoader("tool_" + tool, path)
    module = importlib.util.module_from_spec(importlib.util.spec_from_loader(loader.name, loader))
    loader.exec_module(module)
    return module


def told(tool, words, **changed):
    """The exit status of a tool on words, and what it says, where some of its names stand for something else."""
    said, module = io.StringIO(), loaded(tool)
    with mock.patch.dict(vars(module), changed), mock.patch.object(sys, "argv", [tool] + words):
        with contextlib.redirect_stdout(said), contextlib.redirect_stderr(said):
            status = module.main()
    return status, said.getvalue()


@functools.lru_cache(maxsize=None)
def kept_tree():
    """A folder that is kept while the tests run, and the files in it: from one test to the next few of them differ."""
    return tempfile.TemporaryDirectory(), {}


def run(tool, files, words=()):
    """The exit status of a tool on a tree of these files, with more words, and what it says."""
    folder, there = kept_tree()
    for name in set(there) - set(files):
        path = os.path.join(folder.name, name)
        os.remove(path)
        with contextlib.suppress(OSError):
            os.removedirs(os.path.dirname(path))
    write(folder.name, {name: text for name, text in files.items() if there.get(name) != text})
    there.clear()
    there.update(files)
    return told(tool, list(words) + (["--list", "--root=" + folder.name] if tool == "wrong" else [folder.name]))


SOUND["docs/STATEMENTS.md"] = loaded("statements").OPENING + """

## twice?

### `twice_is`

`small/proofs/One.antt`; on it lean `audit/proofs/Lean.antt` `twice_turned`

```
pub twice_is : (n : ℕ) → twice n ≡ twice n
```

### `twice_again`

`small/proofs/One.antt`; on it lean `audit/proofs/Lean.antt` `again_turned`

```
module _ (k : ℕ) where
  pub twice_again : twice k ≡ twice k
```
"""


def passes_sound(tool, files=SOUND):
    """A test: a sound tree passes a tool."""

    def test(self):
        status, said = run(tool, files)
        self.assertEqual(status, 0, said)

    return test


def broken(files, name, old, new):
    """A tree with one change: the old text of a file made new; or where there is no old text, a new file; or where there is no new text, a file less."""
    out = dict(files)
    if new is None:
        del out[name]
    elif old is None:
        out[name] = new
    else:
        assert out[name].count(old) == 1, "not one place for %s in %s" % (old, name)
        out[name] = out[name].replace(old, new)
    return out


def sees(tool, name, old, new, words, files=SOUND):
    """A test: a tool sees what is broken, and says these words of it."""

    def test(self):
        status, said = run(tool, broken(files, name, old, new))
        self.assertEqual(status, 1, said)
        self.assertIn(words, said)

    return test


def exits(tool, files):
    """The exit status of a tool that is started as a program on a tree of these files."""
    with tempfile.TemporaryDirectory() as root:
        write(root, files)
        return subprocess.run([sys.executable, "-S", "-B", os.path.join(TOOLS, tool), root], stdout=subprocess.DEVNULL, check=False).returncode


def with_breaks(tool, breaks, files=SOUND):
    """A class decorator: a test for the sound tree, and one for each break (file, what stands there, what is put for it, a part of what the tool has to say)."""

    def added(cls):
        setattr(cls, "test_sound", passes_sound(tool, files))
        for k, given in enumerate(breaks):
            setattr(cls, "test_break_%02d" % k, sees(tool, *given, files))
        return cls

    return added
