"""Does tools/differ see an edit whose input or answers do not fit, one whose answers are others than the program's, and a run that does not end?"""

import os
import sys
import tempfile
import time
import unittest
from types import SimpleNamespace
from unittest import mock

import small_try
from sound import LIB, SOUND as WHOLE, edit, loaded, told, write

# the sources and the edits of the sound tree, and a script that stands for `rt`
SOUND = {name: text for name, text in WHOLE.items() if name in ("crates.txt", LIB) or name.endswith(".edit")}
ASKED = '[ "$1" = try ] && [ "$(basename "$PWD")" = shown ] && grep -q "^shown: small\\( small_edit_[0-9]\\)*$" ../../crates.txt'
GOOD = "echo %s >&2" % small_try.ENDED
TRY = '#!/bin/sh\n%s && exec "%s" -S -B "%s"\n' % (ASKED, sys.executable, small_try.__file__)

# an edit, what stands in it, what is put for it, and a part of what the tool has to say of it without a run
UNFIT = [
    ("thrice", "input: n = 3\n", "", "it has to name an input and the two answers"),
    ("some_one", "input: out = [5, 5]\n", "", "it has to name an input and the two answers"),
    ("thrice", "right: result = 6\n", "", "it has to name an input and the two answers"),
    ("thrice", "wrong: result = 9\n", "", "it has to name an input and the two answers"),
    ("thrice", "input: n = 3\n", "input: n\n", "a line `input:` has no ` = `"),
    ("thrice", "right: result = 6", "right: result", "a line `right:` has no ` = `"),
    ("thrice", "input: n = 3\n", "inputs: n = 3\n", "a line of no kind, or one more of its kind: inputs: n = 3"),
    ("thrice", "input: n = 3\n", "old: n\nnew: m\ninput: n = 3\n", "a line of no kind, or one more of its kind: new: m"),
    ("thrice", "input: n = 3\n", "input: n = 3\ninput: m = 3\n", "the function has no m"),
    ("thrice", "input: n = 3\n", "input: n = 3\ninput: n = 4\n", "an input is named twice"),
    ("tell_one", "input: n = 3\n", "input: out = [5]\n", "no input for n"),
    ("some_one", "out = [5, 5]", "out = 5", "no list in brackets: 5"),
    ("thrice", "wrong: result = 9", "wrong: result = 6", "the two answers are the same"),
    ("thrice", "wrong: result = 9", "wrong: result = 0x6", "the two answers are the same"),
    ("some_two", "wrong: out = 2 5 ..", "wrong: out = 0 5 ..", "the two answers are the same"),
    ("tell_one", "wrong: result = 1", "wrong: out = 1", "the two answers are not of the same things"),
    ("tell_one", "wrong: result = 1", "wrong: result = 1\nwrong: out = 1", "the two answers are not of the same things"),
    ("some_two", "wrong: out = 2 5 ..", "wrong: out = 2 ..", "the two answers are not of the same entries"),
    ("some_two", "wrong: out = 2 5 ..", "wrong: out = 2 5", "the two answers are not of the same entries"),
    ("short", "result.length", "result.size", "the result has no size"),
    ("thrice", "result", "result.length", "the result has no length"),
    ("short", "result.length", "result", "result is a Count: name its fields"),
    ("tell_one", "result", "n", "the function does not write n"),
    ("tell_one", "result", "m", "the function does not write m"),
    ("thrice", "old:     n + n", "old:     n - n", "its old text stands 0 times"),
    ("thrice", "small::double", "small::treble", "there is no public function small::treble"),
]

# the same, of what a run shows: other answers, a right change, and a program that stops
OTHER = [
    ("thrice", "right: result = 6", "right: result = 7", "the right answer is another: FAIL: expected 'result = 7\\n', found 'result = 6\\n'"),
    ("thrice", "wrong: result = 9", "wrong: result = 8", "the wrong answer is another: FAIL: expected 'result = 8\\n', found 'result = 9\\n'"),
    ("thrice", "new:     n + n + n", "new:     2 * n", "the wrong answer is another: FAIL: expected 'result = 9\\n', found 'result = 6\\n'"),
    ("thrice", "new:     n + n + n", "new:     n / 0", "the wrong answer is another: FAIL: stopped by ZeroDivisionError"),
    ("thrice", "input: n = 3", "input: n = m", "the right answer is another: FAIL: stopped by NameError"),
    ("some_one", "right: out = 0 5", "right: out = 0", "the right answer is another"),
    ("some_one", "wrong: out = 1 5", "wrong: out =", "the wrong answer is another: FAIL: expected 'out =\\n', found 'out = 1 5\\n'"),
    ("some_two", "5; 9", "5; 1", "the right answer is another: FAIL: expected 'out = 0 5\\n', found 'out = 0\\n'"),
]

# what a run of the program does, which has to write what stands in `stdout`, and a part of what the tool has to say of it
RUNS = [
    ("cat stdout\n%s" % GOOD.replace("runners=2", "runners=1"), "status 0: run=ended status=0 runners=1 proved=no"),
    ("cat stdout\n%s" % GOOD.replace("status=0", "status=3"), "status 0: run=ended status=3"),
    ("cat stdout", "the right answer is another: status 0: "),
    ("cat stdout\n%s\nexit 5" % GOOD, "status 5: run=ended"),
    ("cat stdout\necho more\n%s" % GOOD, "expected '', found 'more'"),
    ("head -n 1 stdout | tr 36 4\n%s" % GOOD, "expected 'result.number = 3', found 'result.number = 4'"),
    (GOOD, "expected 'result.number = 3', found ''"),
    ("printf 'result.number = 3'\n%s" % GOOD, "the right answer is another: expected '', found None"),
    ("printf 'the end of the program\\n| none\\nchecked: fault kind=overflow\\n' >&2\nexit 4", "status 4: checked: fault kind=overflow"),
]

# the text of an answer, the width of its values, and what the program has to print
VALUES = [
    ("1 -2 0x1f 1_000", "i64", ["1", "-2", "31", "1000"]),
    ('"AB" 7 ..', "u8", ["65", "66", "7"]),
    ('" " "\\n"', "u8", ["32", "10"]),
    ("none 0", "i64", ["-9223372036854775808", "0"]),
    ("none", "u32", ["4294967295"]),
    ("none", "u64", ["13830554455654793216"]),
    ("none", "u8", ["none"]),
    ("One true", "Sign", ["One", "true"]),
    ("ok 1_0 some 0x2", "Result", ["ok", "10", "some", "2"]),
    ("refused 8 2", "Result", ["refused", "8", "2"]),
    ("none", "Option", ["none"]),
    ("", "u8", []),
]

SIGN = """
// A sign.
pub enum Sign {
    Zero,
    One(u8),
    Two { far: u8, near: f64 },
}

// The sign of numbers.
pub fn sign(pair: &[i64; 2], limit: f64, some: &'a [u32], count: &mut usize, out: &mut [u16]) -> Sign
{
    Sign::Zero
}
"""
SIGN_SHOWN = """    let pair: [i64; 2] = [clean::NONE_I64, 3];
    let limit = 0.5;
    let some: [u32; 4] = [clean::NONE_U32; 4];
    let mut count: usize = 1;
    let mut out: [u16; 40] = [7; 40];
    let result = small::sign(&pair, limit, &some, &mut count, &mut out);
    print!(host; "result =")?;
    match result {
        small::Sign::Zero => {
            print!(host; " Zero")?;
        }
        small::Sign::One(x0) => {
            print!(host; " One")?;
            put_u8(host, x0)?;
        }
        small::Sign::Two { far, near } => {
            print!(host; " Two")?;
            put_u8(host, far)?;
            put_f64(host, near)?;
        }
    }
    print!(host; "\\n")?;
    print!(host; "count =")?;
    put_usize(host, count)?;
    print!(host; "\\n")?;
    print!(host; "out =")?;
    put_u16s(host, &out, 2)?;
    print!(host; "\\n")?;
"""

# crates of structs of what is lent, of one for several types, and of answers that may be none
LENT = {
    "crates.txt": "even:\nnet:\nsmall: even net\n",
    "crates/even/src/lib.rt": """pub struct Held<'a, A: Copy, B> {
    pub out: &'a mut [A],
    pub pair: even::Two<u8, even::Two<u8, B>>,
}
""",
    "crates/net/src/lib.rt": """pub struct Ints<'a> {
    pub costs: &'a [i32],
}

pub struct Floats<'a> {
    pub bits: &'a [u64],
    pub opens: &'a [u8],
}

pub struct Lent<'a, C> {
    pub count: usize,
    pub from: &'a [u16],
    pub costs: C,
}
""",
    LIB: """use even::{Held, Two};

pub enum Refusal {
    Full,
}

pub struct Bad {
    pub takes: usize,
    pub at: u16,
}

pub struct Place {
    pub at: usize,
    ghost low: { at ≤ 9 },
    pub fresh: bool,
}

// One of its fields has the name that it has as a parameter.
pub struct Rows<'a, W> {
    pub starts: &'a mut [usize],
    ghost long: { length rows ≤ 9 },
    pub rows: &'a mut [W],
}

impl<'a, E: Copy> Rows<'a, E> {
    pub fn wipe(&mut self, zero: E) -> Option<usize>
    {
        None
    }

    pub fn is_long(&self, n: usize) -> bool
    {
        false
    }
}

pub struct Pile<'a, C> {
    pub costs: C,
    pub heights: &'a mut [C::Weight],
}

impl<'a, C: Costs> Pile<'a, C> {
    pub fn rise(self)
    {
    }
}

pub fn look<C: Costs, K>(net: net::Lent<C>, held: &Held<C::Weight, K>, rows: &mut Rows<'_, K>, key: K) -> Result<Place, Refusal>
{
    Err(Refusal::Full)
}

pub fn fill<T: Into<Two<u8, T>>>(list: &mut [T], x: T) -> Result<Option<i64>, Bad>
{
    Ok(None)
}

pub fn done(n: usize) -> std::Result<(), Refusal>
{
    Ok(())
}

pub fn odd(n: usize) -> Option<[u8; 2]>
{
    None
}

// A kind of entries.
pub trait Lay: Copy {
    type Key;

    fn lay(self, list: &mut [Self], rows: &Rows<'_, Self>) -> Option<Self::Key>
        ensures { result ≡ result };

    fn least(n: usize) -> Self::Key;
}

pub enum Depth {
    Low = 1,
    High = 2,
}

pub struct Ground {
    pub depth: Depth,
    pub at: u16,
}

pub enum Sight {
    None,
    Far(Ground, u8),
    Near { ground: Ground },
}

pub struct Look {
    pub sight: Sight,
    pub at: usize,
}

pub fn see(n: usize) -> Look
{
    Look { sight: Sight::None, at: n }
}

pub fn seek(n: usize) -> Option<Depth>
{
    None
}

pub fn twice(rows: &mut Rows<'_, u8>, starts: &[u8])
{
}
""",
}
LOOK = """input: count = 1
input: from = [2]
input: costs = [4, 3]
input: out = [none]
input: pair = even::two()
input: K = u16
input: rows = [4; 2]
input: key = 5
right: result = ok 3 true
right: rows = 4 ..
right: starts = 7 7 ..
wrong: result = refused 8
wrong: rows = 5 ..
wrong: starts = 7 8 ..
"""
# a function, the inputs and answers of an edit of it, the call that is made of them, how its answers are printed, and both answers
LENT_SHOWN = [
    ("look", LOOK, """    let count = 1;
    let from: [u16; 1] = [2];
    let costs: [i32; 2] = [4, 3];
    let the_costs = net::Ints { costs: &costs };
    let the_net = net::Lent { count: count, from: &from, costs: the_costs };
    let mut out: [i64; 1] = [clean::NONE_I64];
    let pair = even::two();
    let the_held = even::Held { out: &mut out, pair: pair };
    let mut starts: [usize; 40] = [7; 40];
    let mut rows: [u16; 2] = [4; 2];
    let mut the_rows = small::Rows { starts: &mut starts, rows: &mut rows };
    let key = 5;
    let result = small::look(the_net, &the_held, &mut the_rows, key);
""", """    print!(host; "result =")?;
    match result {
        Ok(x) => {
            print!(host; " ok")?;
            put_usize(host, x.at)?;
            put_bool(host, x.fresh)?;
        }
        Err(e) => print!(host; " refused {}", e.number())?,
    }
    print!(host; "\\n")?;
    print!(host; "rows =")?;
    put_u16s(host, &rows, 1)?;
    print!(host; "\\n")?;
    print!(host; "starts =")?;
    put_usizes(host, &starts, 2)?;
    print!(host; "\\n")?;
""", "result = ok 3 true\nrows = 4\nstarts = 7 7\n", "result = refused 8\nrows = 5\nstarts = 7 8\n"),
    ("look", """input: net = net::none()
input: held = even::held()
input: C::Weight = u8
input: key = 5
right: starts = 4
wrong: starts = 5
""", """    let net = net::none();
    let held = even::held();
    let mut starts: [usize; 40] = [7; 40];
    let mut rows = [7; 40];
    let mut the_rows = small::Rows { starts: &mut starts, rows: &mut rows };
    let key = 5;
    let result = small::look(net, held, &mut the_rows, key);
""", """    print!(host; "starts =")?;
    put_usizes(host, &starts, usize::MAX)?;
    print!(host; "\\n")?;
""", "starts = 4\n", "starts = 5\n"),
    ("look", """input: count = 1
input: from = [2]
input: bits = [none]
input: opens = [1]
input: out = [none, 2]
input: pair = even::two()
input: K = u8
input: key = 5
right: rows = 3
wrong: rows = 4
""", """    let count = 1;
    let from: [u16; 1] = [2];
    let bits: [u64; 1] = [clean::NONE_F64];
    let opens: [u8; 1] = [1];
    let the_costs = net::Floats { bits: &bits, opens: &opens };
    let the_net = net::Lent { count: count, from: &from, costs: the_costs };
    let mut out: [u64; 2] = [clean::NONE_F64, 2];
    let pair = even::two();
    let the_held = even::Held { out: &mut out, pair: pair };
    let mut starts: [usize; 40] = [7; 40];
    let mut rows: [u8; 40] = [7; 40];
    let mut the_rows = small::Rows { starts: &mut starts, rows: &mut rows };
    let key = 5;
    let result = small::look(the_net, &the_held, &mut the_rows, key);
""", """    print!(host; "rows =")?;
    put_u8s(host, &rows, usize::MAX)?;
    print!(host; "\\n")?;
""", "rows = 3\n", "rows = 4\n"),
    ("Rows::wipe", """input: E = u32
input: zero = clean::NONE_U32
right: result = some 3
right: rows = none 7 ..
wrong: result = none
wrong: rows = 7 7 ..
""", """    let mut starts: [usize; 40] = [7; 40];
    let mut rows: [u32; 40] = [7; 40];
    let mut the_self = small::Rows { starts: &mut starts, rows: &mut rows };
    let zero = clean::NONE_U32;
    let result = small::Rows::wipe(&mut the_self, zero);
""", """    print!(host; "result =")?;
    match result {
        Some(x) => {
            print!(host; " some")?;
            put_usize(host, x)?;
        }
        None => print!(host; " none")?,
    }
    print!(host; "\\n")?;
    print!(host; "rows =")?;
    put_u32s(host, &rows, 2)?;
    print!(host; "\\n")?;
""", "result = some 3\nrows = 4294967295 7\n", "result = none\nrows = 7 7\n"),
    ("Rows::is_long", """input: E = i64
input: starts = [1]
input: rows = [none]
input: n = 5
right: result = true
wrong: result = false
""", """    let mut starts: [usize; 1] = [1];
    let mut rows: [i64; 1] = [clean::NONE_I64];
    let the_self = small::Rows { starts: &mut starts, rows: &mut rows };
    let n = 5;
    let result = small::Rows::is_long(&the_self, n);
""", """    print!(host; "result =")?;
    put_bool(host, result)?;
    print!(host; "\\n")?;
""", "result = true\n", "result = false\n"),
    ("Pile::rise", """input: bits = [2]
input: opens = [1]
right: heights = none ..
wrong: heights = 3 ..
""", """    let bits: [u64; 1] = [2];
    let opens: [u8; 1] = [1];
    let the_costs = net::Floats { bits: &bits, opens: &opens };
    let mut heights: [u64; 40] = [7; 40];
    let the_self = small::Pile { costs: the_costs, heights: &mut heights };
    small::Pile::rise(the_self);
""", """    print!(host; "heights =")?;
    put_u64s(host, &heights, 1)?;
    print!(host; "\\n")?;
""", "heights = 13830554455654793216\n", "heights = 3\n"),
    ("fill", """input: list = [3u8, 4]
input: x = 5
right: result = ok some 3
wrong: result = refused 2 5
""", """    let mut list = [3u8, 4];
    let x = 5;
    let result = small::fill(&mut list, x);
""", """    print!(host; "result =")?;
    match result {
        Ok(x) => {
            print!(host; " ok")?;
            match x {
                Some(x) => {
                    print!(host; " some")?;
                    put_i64(host, x)?;
                }
                None => print!(host; " none")?,
            }
        }
        Err(e) => print!(host; " refused {} {}", e.takes, e.at)?,
    }
    print!(host; "\\n")?;
""", "result = ok some 3\n", "result = refused 2 5\n"),
    ("done", """input: n = 5
right: result = ok
wrong: result = refused 2
""", """    let n = 5;
    let result = small::done(n);
""", """    print!(host; "result =")?;
    match result {
        Ok(_) => {
            print!(host; " ok")?;
        }
        Err(e) => print!(host; " refused {}", e.number())?,
    }
    print!(host; "\\n")?;
""", "result = ok\n", "result = refused 2\n"),
    ("Lay::lay", """input: Self = u32
input: Self::Key = i64
input: self = 5
input: starts = [1]
input: rows = [none]
right: result = some 3
right: list = none ..
wrong: result = none
wrong: list = 4 ..
""", """    let this = 5;
    let mut list: [u32; 40] = [7; 40];
    let mut starts: [usize; 1] = [1];
    let mut rows: [u32; 1] = [clean::NONE_U32];
    let the_rows = small::Rows { starts: &mut starts, rows: &mut rows };
    let result = <u32 as small::Lay>::lay(this, &mut list, &the_rows);
""", """    print!(host; "result =")?;
    match result {
        Some(x) => {
            print!(host; " some")?;
            put_i64(host, x)?;
        }
        None => print!(host; " none")?,
    }
    print!(host; "\\n")?;
    print!(host; "list =")?;
    put_u32s(host, &list, 1)?;
    print!(host; "\\n")?;
""", "result = some 3\nlist = 4294967295\n", "result = none\nlist = 4\n"),
    ("Lay::least", """input: Self = net::Ints
input: Self::Key = u32
input: n = 5
right: result = none
wrong: result = 5
""", """    let n = 5;
    let result = <net::Ints as small::Lay>::least(n);
""", """    print!(host; "result =")?;
    put_u32(host, result)?;
    print!(host; "\\n")?;
""", "result = 4294967295\n", "result = 5\n"),
    ("see", """input: n = 5
right: result.sight = Far Low 3 4
wrong: result.sight = Near High 3
""", """    let n = 5;
    let result = small::see(n);
""", """    print!(host; "result.sight =")?;
    match result.sight {
        small::Sight::None => {
            print!(host; " None")?;
        }
        small::Sight::Far(x0, x1) => {
            print!(host; " Far")?;
            match x0.depth {
                small::Depth::Low => {
                    print!(host; " Low")?;
                }
                small::Depth::High => {
                    print!(host; " High")?;
                }
            }
            put_u16(host, x0.at)?;
            put_u8(host, x1)?;
        }
        small::Sight::Near { ground } => {
            print!(host; " Near")?;
            match ground.depth {
                small::Depth::Low => {
                    print!(host; " Low")?;
                }
                small::Depth::High => {
                    print!(host; " High")?;
                }
            }
            put_u16(host, ground.at)?;
        }
    }
    print!(host; "\\n")?;
""", "result.sight = Far Low 3 4\n", "result.sight = Near High 3\n"),
    ("seek", """input: n = 5
right: result = some High
wrong: result = none
""", """    let n = 5;
    let result = small::seek(n);
""", """    print!(host; "result =")?;
    match result {
        Some(x) => {
            print!(host; " some")?;
            match x {
                small::Depth::Low => {
                    print!(host; " Low")?;
                }
                small::Depth::High => {
                    print!(host; " High")?;
                }
            }
        }
        None => print!(host; " none")?,
    }
    print!(host; "\\n")?;
""", "result = some High\n", "result = none\n"),
]
# what stands in the first of them, what is put for it, and what is wrong with it
LENT_UNFIT = [
    ("input: from = [2]\n", "", "no input for from"),
    ("input: from = [2]\n", "input: from = [2]\ninput: to = [2]\n", "the function has no to"),
    ("input: pair = even::two()\n", "", "no input for pair"),
    ("input: from = [2]\n", "input: from = 2\n", "no list in brackets: 2"),
    ("input: costs = [4, 3]\n", "input: costs = [4, 3]\ninput: bits = [4, 3]\ninput: opens = [1, 1]\n", "the function has no costs"),
    ("input: costs = [4, 3]\n", "input: costs = [4, 3]\ninput: opens = [1, 1]\n", "the function has no opens"),
    ("input: costs = [4, 3]\n", "", "no input for costs"),
    ("input: count = 1\n", "input: count = 1\ninput: net = [1]\n", "the function has no net"),
    ("input: count = 1\n", "input: net = net::none()\n", "the function has no from"),
    ("input: K = u16\n", "input: K = u16\ninput: T = u16\n", "the function has no T"),
    ("input: K = u16\n", "input: K = u16\ninput: T::Key = u16\n", "the function has no T::Key"),
    ("input: K = u16\n", "input: K = u16\ninput: K = u8\n", "an input is named twice"),
    (": result = ", ": result.at = ", "the result has no at"),
    (": starts = 7", ": out = 7", "the function does not write out"),
    (": starts = 7", ": held = 7", "the function does not write held"),
    (": starts = 7", ": from = 7", "the function does not write from"),
    (": starts = 7", ": list = 7", "the function does not write list"),
    ("wrong: starts = 7 8 ..", "wrong: starts = 7 8", "the two answers are not of the same entries"),
]


def lent(function, lines):
    """The crates of structs of what is lent with an edit of a function that has these inputs and answers."""
    return dict(LENT, **{file_of("lent"): edit(function, "", "pub struct Place", "pub struct Places", ()) + lines})


def file_of(name):
    """The file of an edit of the sound tree."""
    return "%s/small%s/%s.edit" % (("crates", "/must-fail", name) if name == "zero" else ("tests/wrong", "", name))


def changed(name, old, new):
    """The sound tree with one change in an edit."""
    text = SOUND[file_of(name)]
    assert old in text, "no place for " + old
    return dict(SOUND, **{file_of(name): text.replace(old, new)})


def tried(files, words=(), runner=None, **names):
    """The exit status and the words of the tool on a tree, where a script stands for `rt`, or without one a function for its run."""
    names = names if runner else {"tried": small_try.tried}
    with tempfile.TemporaryDirectory() as root:
        write(root, dict(files, **{"bin/rt": runner or ""}))
        os.chmod(os.path.join(root, "bin", "rt"), 0o755)
        with mock.patch.dict(os.environ, PATH=os.path.join(root, "bin") + os.pathsep + os.environ["PATH"]):
            return told("differ", ["--root=" + root] + list(words), **names)


def runs(pid):
    """Does a process run still?"""
    try:
        with open("/proc/%d/stat" % pid, encoding="utf-8") as f:
            return f.read().split()[2] not in "ZX"
    except FileNotFoundError:
        return False


class Differ(unittest.TestCase):
    """The sound tree passes, and each break of it is seen."""

    def seen(self, breaks):
        """Each break of an edit is seen, and said of that edit alone."""
        for name, old, new, words in breaks:
            with self.subTest(name + ": " + words):
                status, said = tried(changed(name, old, new), {"small/" + name})
                self.assertIn("differ: %s: %s" % (file_of(name), words), said)
                self.assertIn("differ: 1 wrong answers, 1 not shown", said)
                self.assertEqual(status, 1)

    def test_sound(self):
        """All answers of the sound tree are as they are said, with two benches; and those of a function with one, by a script."""
        for jobs, words, runner in (("2", [], None), ("1", ["small::count"], TRY)):
            with self.subTest(jobs), mock.patch.dict(os.environ, RT_JOBS=jobs):
                status, said = tried(SOUND, words, runner)
                self.assertEqual(status, 0, said)

    def test_at_once(self):
        """All answers of a crate are shown by one run; two functions of an edited copy that C finds by one name are not linked."""
        with mock.patch("small_try.tried", wraps=small_try.tried) as run:
            self.assertEqual(tried(SOUND)[0], 0)
        self.assertEqual(run.call_count, 1)
        door = dict(SOUND, **{LIB: SOUND[LIB].replace("pub fn double", '#[unsafe(no_mangle)]\npub extern "C" fn double')})
        kept, gone = "grep -q no_mangle ../small/src/lib.rt", "cd ../small_edit_0/src && grep -q '^pub fn double' lib.rt && ! grep no_mangle lib.rt"
        self.assertEqual(tried(door, ["small::double"], "#!/bin/sh\n%s && (%s) && cat stdout && %s\n" % (kept, gone, GOOD))[0], 0)

    def test_unfit(self):
        """Inputs and answers that do not fit, without a run."""
        with mock.patch("small_try.tried", side_effect=AssertionError("nothing is to be run")):
            self.seen(UNFIT)

    def test_other(self):
        """Answers that are others."""
        self.seen(OTHER)

    def test_one_of_many(self):
        """Of the answers of a crate that are run at once, the one that is another is named; so are those that are others together alone."""
        status, said = tried(changed("zero", "right: result.number = 3", "right: result.number = 4"), ["small::count"])
        self.assertIn("differ: crates/small/must-fail/zero.edit: the right answer is another", said)
        self.assertIn("differ: 2 wrong answers, 1 not shown", said)
        self.assertEqual((status, said.count("another")), (1, 1))
        status, said = tried(SOUND, ["small::count"], "#!/bin/sh\ngrep -q case_1 src/main.rt && exit 3\ncat stdout\n%s\n" % GOOD)
        self.assertIn("the answers together are others, and each alone is not: status 3", said)
        self.assertEqual(status, 1)

    def test_runs(self):
        """A program that ends otherwise than on both of its runs, or writes something else."""
        for script, words in RUNS:
            with self.subTest(words):
                status, said = tried(SOUND, ["small/zero"], "#!/bin/sh\n%s\n" % script)
                self.assertIn(words, said)
                self.assertIn("differ: 1 wrong answers, 1 not shown", said)
                self.assertEqual(status, 1)

    def test_refused(self):
        """Where a crate does not compile as it is, its edits are not run one by one; where a copy does not, its edit is found as ever."""
        script = "#!/bin/sh\necho >>%s\necho \"$PWD/crates/%s/src/lib.rt:1:1: error: x\" >&2\nexit 1\n"
        with tempfile.TemporaryDirectory() as place:
            for crate, runs, count in (("small", 1, 8), ("small_edit_0", 31, 8), ("other", 31, 8)):
                with self.subTest(crate), mock.patch.dict(os.environ, RT_JOBS="1"):
                    status, said = tried(SOUND, ["small"], script % (os.path.join(place, crate), crate))
                    self.assertIn("differ: 8 wrong answers, %d not shown" % count, said)
                    self.assertIn(".edit: the right answer is another: status 1: ", said)
                    with open(os.path.join(place, crate), encoding="utf-8") as f:
                        self.assertEqual((status, len(f.read())), (1, runs))

    def test_shared_out(self):
        """The edits of a crate stay together, and are shared out evenly."""
        edits = [SimpleNamespace(crate=c, name=n) for n, c in enumerate("aabbbc")]
        for count, groups in ((1, ["bbbaac"]), (2, ["bbb", "aac"]), (3, ["bbb", "aa", "c"]), (9, ["bbb", "aa", "c"])):
            with self.subTest(count):
                self.assertEqual(["".join(e.crate for e in group) for group in loaded("differ").shared_out(edits, count)], groups)

    def test_halves(self):
        """Where the answers of many are others, each half of them is run: the ones that are named are found in few runs."""
        files = changed("some_two", "right: out = 0", "right: out = 9")
        with mock.patch("small_try.tried", wraps=small_try.tried) as run, mock.patch.dict(os.environ, RT_JOBS="1"):
            status, said = tried(files)
        self.assertEqual((status, said.count("another"), run.call_count), (1, 1, 9))
        self.assertIn("some_two.edit: the right answer is another", said)

    def test_words(self):
        """Edits by their crate, their function and their name; a word that names none, and a tree without any."""
        for word, count in (("small", 8), ("small::double", 2), ("small/zero", 1)):
            with self.subTest(word):
                self.assertIn("differ: %d wrong answers, 0 not shown" % count, tried(SOUND, [word], "#!/bin/sh\ncat stdout\n%s\n" % GOOD)[1])
        for word in ("small/none", "--list"):
            self.assertEqual(tried(SOUND, ["small", word]), (2, "differ: no edit of %s\n" % word))
        status, said = tried({name: text for name, text in SOUND.items() if not name.endswith(".edit")})
        self.assertIn("differ: 0 wrong answers, 0 not shown", said)
        self.assertEqual(status, 1)

    def test_no_end(self):
        """A run that does not end is another answer, and what it started is ended."""
        with tempfile.TemporaryDirectory() as place:
            started = os.path.join(place, "started")
            status, said = tried(SOUND, ["small/zero"], "#!/bin/sh\nsleep 30 &\necho $! >>%s\nwait\n" % started, LIMIT=1)
            with open(started, encoding="utf-8") as f:
                pids = [int(x) for x in f.read().split()]
        self.assertIn("zero.edit: the right answer is another: no end within", said)
        self.assertIn("zero.edit: the wrong answer is another: no end within", said)
        self.assertIn("differ: 1 wrong answers, 1 not shown", said)
        self.assertEqual((status, len(pids)), (1, 3))
        until = time.time() + 2
        while any(map(runs, pids)) and time.time() < until:
            time.sleep(0.01)
        self.assertEqual([p for p in pids if runs(p)], [])

    def test_values(self):
        """What an answer stands for."""
        tool = loaded("differ")
        for text, width, words in VALUES:
            with self.subTest(text):
                self.assertEqual(tool.values(text, width), words)

    def test_program(self):
        """What is made of inputs and answers of every kind."""
        tool, more = loaded("differ"), "input: limit = 0.5\ninput: some = [none; 4]\ninput: count = 1\nright: count = 1\nright: out = 7 7 ..\n"
        with tempfile.TemporaryDirectory() as root:
            asked = edit("sign", "sign", "Sign::Zero", "Sign::One(2)", ("pair = [none, 3]", "result = Zero")) + more
            write(root, {"crates.txt": "small:\n", LIB: SOUND[LIB] + SIGN, file_of("sign"): asked})
            known = {f.name: f for f in tool.public_functions(root)}
            self.assertEqual(tool.case_text(root, known["small::sign"], tool.read_edits(root)[0]), SIGN_SHOWN)

    def test_lent(self):
        """What is made of structs of what is lent, of types that are named, and of answers that may be none."""
        tool = loaded("differ")
        for function, lines, call, shown, right, wrong in LENT_SHOWN:
            with self.subTest(lines), tempfile.TemporaryDirectory() as root:
                write(root, lent(function, lines))
                (asked,), known = tool.read_edits(root), {f.name: f for f in tool.public_functions(root)}["small::" + function]
                self.assertIsNone(tool.fits(root, known, asked))
                self.assertEqual(tool.case_text(root, known, asked), call + shown)
                self.assertEqual([tool.answer(root, known, asked, x) for x in (asked.right, asked.wrong)], [right, wrong])

    def test_lent_unfit(self):
        """Inputs and answers that do not fit what is lent in structs, without a run."""
        cases = [("look", LOOK.replace(old, new), words) for old, new, words in LENT_UNFIT]
        cases += [("odd", "input: n = 5\nright: result = none\nwrong: result = some 1\n", "the result holds a [u8; 2]")]
        cases += [("Lay::least", "input: n = 5\nright: result = 1\nwrong: result = 2\n", "no input for Self")]
        cases += [("twice", "input: starts = [1]\nright: rows = 1\nwrong: rows = 2\n", "two things are lent by the name starts")]
        for function, lines, words in cases:
            with self.subTest(words + lines), mock.patch("small_try.tried", side_effect=AssertionError("nothing is to be run")):
                self.assertNotEqual(lines, LOOK)
                status, said = tried(lent(function, lines))
                self.assertIn("differ: %s: %s\n" % (file_of("lent"), words), said)
                self.assertEqual(status, 1)


if __name__ == "__main__":
    unittest.main()
