//! Random maps, records and questions. A draw is a pure function of its seed, so every case can be met again.
use crate::lent::{Ask, Lent, Link, Slice};
use crate::model::{self, NONE_I64, RANGE};

/// A random source (splitmix64).
pub struct Draw(pub u64);

impl Draw {
    pub fn word(&mut self) -> u64 {
        self.0 = self.0.wrapping_add(0x9e37_79b9_7f4a_7c15);
        let mut z = self.0;
        z = (z ^ z >> 30).wrapping_mul(0xbf58_476d_1ce4_e5b9);
        z = (z ^ z >> 27).wrapping_mul(0x94d0_49bb_1331_11eb);
        z ^ z >> 31
    }

    /// A number below n.
    pub fn below(&mut self, n: usize) -> usize {
        (self.word() >> 11) as usize % n
    }

    /// Once in n times.
    pub fn once_in(&mut self, n: usize) -> bool {
        self.below(n) == 0
    }

    pub fn pick<T: Copy>(&mut self, from: &[T]) -> T {
        from[self.below(from.len())]
    }

    /// A slice of this many entries and up to two more, all rubbish.
    pub fn slice(&mut self, width: usize, need: usize) -> Slice {
        let more = if self.once_in(2) { self.below(3) } else { 0 };
        Slice::new(width, need + more, || self.word())
    }
}

/// How a map's integer costs are drawn.
#[derive(Clone, Copy)]
enum Whole {
    Zero,
    Ties,
    Small,
    Signed,
    Shifted,
    Ends,
    Any,
}

/// How a map's f64 costs are drawn.
#[derive(Clone, Copy)]
enum Float {
    Ties,
    Tenths,
    Tiny,
    Huge,
    Rounding,
    Odd,
    Any,
}

/// How the costs of one map are drawn: a class, and a height per index for costs below zero without a loop below zero.
pub struct Costs {
    whole: Whole,
    float: Float,
    heights: Vec<i64>,
    /// Once in so many, a bad f64 cost.
    bad: usize,
}

impl Costs {
    fn new(d: &mut Draw, m: usize) -> Costs {
        use Float as F;
        use Whole as W;
        Costs {
            whole: d.pick(&[
                W::Zero,
                W::Ties,
                W::Ties,
                W::Small,
                W::Small,
                W::Signed,
                W::Signed,
                W::Shifted,
                W::Shifted,
                W::Shifted,
                W::Ends,
                W::Any,
            ]),
            float: d.pick(&[F::Ties, F::Ties, F::Tenths, F::Tiny, F::Huge, F::Rounding, F::Odd, F::Any]),
            heights: (0..m.max(1)).map(|_| d.below(9) as i64 - 4).collect(),
            bad: d.pick(&[usize::MAX, usize::MAX, usize::MAX, 4, 16, 32]),
        }
    }

    fn whole(&self, d: &mut Draw, a: usize, b: usize) -> i32 {
        let height = |i: usize| self.heights.get(i).copied().unwrap_or(0);
        match self.whole {
            Whole::Zero => 0,
            Whole::Ties => d.below(3) as i32,
            Whole::Small => d.below(20) as i32,
            Whole::Signed => d.below(14) as i32 - 2,
            Whole::Shifted => (d.below(3) as i64 + height(a) - height(b)) as i32,
            Whole::Ends => d.pick(&[i32::MIN, i32::MIN + 1, i32::MAX, i32::MAX - 1, i32::MAX, i32::MAX, 0, 1, -1]),
            Whole::Any => d.word() as i32,
        }
    }

    fn float(&self, d: &mut Draw) -> u64 {
        if self.bad != usize::MAX && d.once_in(self.bad) {
            return BAD[d.below(BAD.len())];
        }
        let x: f64 = match self.float {
            Float::Ties => d.below(3) as f64,
            Float::Tenths => d.pick(&[0.1, 0.2, 0.3, 0.7, 1.1]),
            Float::Tiny => f64::from_bits(d.pick(&[0, 1, 2, 3, 0x000f_ffff_ffff_ffff, 0x0010_0000_0000_0000])),
            Float::Huge => d.pick(&[f64::MAX, f64::MAX / 2.0, f64::INFINITY, 0.0, 1.0]),
            Float::Rounding => d.pick(&[9_007_199_254_740_992.0, 1.0, 2.0, 0.5, 0.0, 4_503_599_627_370_496.5]),
            Float::Odd => d.pick(&[0.0, 0.5, 1.0, f64::INFINITY, f64::MIN_POSITIVE, 5e-324]),
            Float::Any => f64::from_bits(d.word() >> 1),
        };
        x.to_bits()
    }

    /// The cost of a record in its 64-bit form.
    fn draw(&self, d: &mut Draw, is_f64: bool, a: usize, b: usize) -> u64 {
        if is_f64 {
            self.float(d)
        } else {
            self.whole(d, a, b) as i64 as u64
        }
    }
}

/// Costs that are bad: a sign bit, or a NaN.
const BAD: [u64; 8] = [
    0x8000_0000_0000_0000,
    0x7ff8_0000_0000_0000,
    0xfff8_0000_0000_0001,
    0x7ff0_0000_0000_0001,
    0xfff0_0000_0000_0000,
    0xc014_0000_0000_0000,
    0x8000_0000_0000_0001,
    0xffff_ffff_ffff_ffff,
];

/// An empty table with this room, on drawn marks.
pub fn empty(d: &mut Draw, m: usize, is_f64: bool, room: usize) -> Lent {
    let absent = d.pick(&[usize::MAX, usize::MAX, 8, 3]);
    let mut marks = Slice::new(1, m + d.below(3), || d.word());
    for i in 0..m {
        let mark = if absent != usize::MAX && d.once_in(absent) {
            0
        } else {
            d.pick(&[1, 1, 1, 2, 255])
        };
        marks.set(i, mark);
    }
    let directed = d.pick(&[0, 0, 0, 1, 1, 1, 2, 255]);
    let mut costs = vec![d.slice(if is_f64 { 8 } else { 4 }, room)];
    if is_f64 {
        costs.push(d.slice(1, room));
    }
    Lent {
        bound: m,
        count: 0,
        directed,
        marks,
        from: d.slice(2, room),
        to: d.slice(2, room),
        costs,
    }
}

/// A present index mostly, else any number up to a little past the bound.
fn end(d: &mut Draw, nodes: &[usize], m: usize, any: bool) -> usize {
    if nodes.is_empty() || any {
        return d.below(m + 2);
    }
    d.pick(nodes)
}

/// A feed of records: new links, links sent again (turned or not), and a few that name what the map has not.
pub fn feed(d: &mut Draw, lent: &Lent, size: usize) -> Vec<Link> {
    let nodes = lent.nodes();
    let m = lent.bound;
    let costs = Costs::new(d, m);
    let again = d.pick(&[3, 8, 1000]);
    let loops = d.pick(&[1, 4, 1000]);
    let mut records: Vec<Link> = Vec::new();
    for _ in 0..size {
        let (a, b) = if !records.is_empty() && d.once_in(again) {
            let old = records[d.below(records.len())];
            if d.once_in(2) {
                (old.a, old.b)
            } else {
                (old.b, old.a)
            }
        } else {
            let any = d.once_in(24);
            let a = end(d, &nodes, m, any);
            let b = if d.once_in(loops * 8) { a } else { end(d, &nodes, m, any) };
            (a, b)
        };
        let cost = costs.draw(d, lent.is_f64(), a, b);
        let open = if lent.is_f64() { d.pick(&[0, 1, 1, 1, 2, 255]) } else { 1 };
        records.push(Link { a, b, cost, open });
    }
    records
}

/// A table written by hand, so that it may hold links twice.
pub fn doubled(d: &mut Draw, m: usize, is_f64: bool, size: usize) -> Lent {
    let room = size + d.below(3);
    let mut lent = empty(d, m, is_f64, room);
    let nodes = lent.nodes();
    if nodes.is_empty() {
        return lent;
    }
    for l in feed(d, &lent.clone(), size) {
        if lent.is_present(l.a) && lent.is_present(l.b) {
            write(&mut lent, l);
        }
    }
    lent
}

/// Writes a link at the end of a table, whatever it holds.
pub fn write(lent: &mut Lent, l: Link) {
    let i = lent.count;
    lent.from.set(i, l.a as u64);
    lent.to.set(i, l.b as u64);
    lent.costs[0].set(i, l.cost);
    if lent.is_f64() {
        lent.costs[1].set(i, l.open);
    }
    lent.count += 1;
}

/// A source or target: present mostly, else absent, past the bound, or far off.
fn index(d: &mut Draw, lent: &Lent) -> usize {
    let nodes = lent.nodes();
    if nodes.is_empty() || d.once_in(24) {
        return d.pick(&[d.0 as usize % (lent.bound + 1), lent.bound, lent.bound + 1, 65_535, 65_536, usize::MAX]);
    }
    d.pick(&nodes)
}

/// A heuristic: zero, small, right with slack, or at the ends of its range; rubbish at absent indices.
fn guess(d: &mut Draw, lent: &Lent, target: usize) -> Slice {
    let m = lent.bound;
    let mut guess = d.slice(8, m);
    let kind = d.below(6);
    let slack = d.below(3);
    // the least totals to the target: those from it, over the links turned
    let right = if kind == 3 || kind == 4 { right_guess(lent, target) } else { None };
    for i in lent.nodes() {
        let h: i64 = match (kind, &right) {
            (0, _) => 0,
            (1, _) => d.below(5) as i64,
            (2, _) => d.below(41) as i64 - 20,
            (3 | 4, Some(right)) => match right[i] {
                Some(total) => total - if i == target { 0 } else { d.below(slack + 1) as i64 },
                None => d.below(100) as i64,
            },
            (5, _) => d.pick(&[RANGE, -RANGE, RANGE - 1, 0]),
            _ => 0,
        };
        guess.set(i, h as u64);
    }
    if d.once_in(40) && m > 0 {
        let i = d.below(m);
        guess.set(i, d.pick(&[RANGE + 1, -RANGE - 1, i64::MIN, i64::MAX]) as u64);
    }
    guess
}

/// The least totals to a target where `dijkstra` over the turned links gives them.
fn right_guess(lent: &Lent, target: usize) -> Option<Vec<Option<i64>>> {
    let mut turned = lent.clone();
    std::mem::swap(&mut turned.from, &mut turned.to);
    let outcome = model::outcome(&turned, &Ask::Dijkstra { source: target }, &[usize::MAX; 8]);
    (outcome.number == 0).then(|| outcome.outputs[0].iter().map(|&x| (x != NONE_I64).then_some(x as i64)).collect())
}

/// A page: the right one mostly where there is one, with an entry moved, lost, made up or out of range half of the time.
fn page(d: &mut Draw, lent: &Lent, source: usize) -> Slice {
    let m = lent.bound;
    let mut page = d.slice(8, m);
    let outcome = model::outcome(lent, &Ask::BellmanFord { source }, &[usize::MAX; 7]);
    for i in 0..m {
        let x = if outcome.number == 0 && !d.once_in(64) {
            outcome.outputs[0][i]
        } else {
            d.pick(&[0, 0, 1, 2, u64::MAX, NONE_I64])
        };
        page.set(i, x);
    }
    if m > 0 && d.once_in(2) {
        let i = d.below(m);
        let old = page.get(i);
        let far = d.pick(&[RANGE, RANGE + 1, -RANGE, -RANGE - 1, i64::MAX, i64::MIN + 1]) as u64;
        let x = d.pick(&[old.wrapping_add(1), old.wrapping_sub(1), NONE_I64, 0, 5, far]);
        page.set(i, x);
    }
    page
}

/// A cutoff: none, at a total or just beside it, at an odd value, or any.
fn cutoff(d: &mut Draw, lent: &Lent, source: usize) -> Option<f64> {
    let whole = model::outcome(lent, &Ask::PathImpl { source, cutoff: None }, &[usize::MAX; 8]);
    let totals: Vec<f64> = if whole.number == 0 {
        whole.outputs[0].iter().map(|&x| f64::from_bits(x)).filter(|&x| x >= 0.0).collect()
    } else {
        vec![]
    };
    match d.below(8) {
        0 | 1 => None,
        2 | 3 if !totals.is_empty() => Some(d.pick(&totals)),
        4 if !totals.is_empty() => {
            let bits = d.pick(&totals).to_bits();
            Some(f64::from_bits(if d.once_in(4) { bits + 1 } else { bits.saturating_sub(1) }))
        }
        5 => Some(d.below(4) as f64),
        6 => Some(f64::from_bits(d.word())),
        _ => Some(d.pick(&[
            0.0,
            -0.0,
            -1.0,
            f64::INFINITY,
            f64::NEG_INFINITY,
            f64::NAN,
            -f64::NAN,
            f64::from_bits(0xfff0_0000_0000_0001),
            5e-324,
            -5e-324,
            f64::MAX,
        ])),
    }
}

/// Every question of the map's kind, once.
pub fn asks(d: &mut Draw, lent: &Lent) -> Vec<Ask> {
    let source = index(d, lent);
    if lent.is_f64() {
        let other = index(d, lent);
        return vec![
            Ask::PathImpl {
                source,
                cutoff: cutoff(d, lent, source),
            },
            Ask::PathF64 {
                source: other,
                cutoff: cutoff(d, lent, other),
            },
            Ask::HopsF64,
        ];
    }
    let target = index(d, lent);
    let other = index(d, lent);
    let guess = guess(d, lent, target);
    vec![
        Ask::Dijkstra { source },
        Ask::BellmanFord { source: other },
        Ask::AStar { source, target, guess },
        Ask::FloydWarshall,
        Ask::Johnson,
        Ask::Hops,
        Ask::Page {
            source: other,
            page: page(d, lent, other),
        },
    ]
}

/// The buffers of a question, long enough, full of rubbish.
pub fn buffers(d: &mut Draw, lent: &Lent, ask: &Ask) -> Vec<Slice> {
    model::needs(lent, ask).iter().map(|b| d.slice(b.width, b.need)).collect()
}

/// Cuts a slice short: to one below what is used, to nothing, or anywhere between. A cut of nothing changes nothing.
fn cut(d: &mut Draw, slice: &mut Slice, used: usize) {
    if used > 0 {
        let len = d.pick(&[used - 1, used - 1, 0, d.0 as usize % used]);
        *slice = Slice::of(slice.width, &slice.entries()[..len], || 0x6b6b_6b6b_6b6b_6b6b);
    }
}

/// Spoils a map, a question or its buffers in one way. `was` is the map before any spoiling, `needs` what its buffers need.
pub fn spoil(d: &mut Draw, was: &Lent, needs: &[usize], lent: &mut Lent, ask: &mut Ask, buffers: &mut [Slice]) {
    let m = was.bound;
    match d.below(12) {
        0 => {
            let used = m.min(lent.marks.len);
            cut(d, &mut lent.marks, used);
        }
        1 => {
            let k = d.below(2 + lent.costs.len());
            let used = was.count.min(table_slice(lent, k).len);
            cut(d, table_slice(lent, k), used);
        }
        2 if was.count > 0 => {
            let absent = (0..m).find(|&i| !was.is_present(i)).unwrap_or(m);
            let value = d.pick(&[absent, m, m + 1, 65_535]) as u64;
            let i = d.below(was.count);
            let k = d.below(2);
            let ends = table_slice(lent, k);
            if i < ends.len {
                ends.set(i, value);
            }
        }
        3 | 4 | 5 | 6 if !buffers.is_empty() => {
            let k = d.below(buffers.len());
            let used = needs[k].min(buffers[k].len);
            cut(d, &mut buffers[k], used);
        }
        7 => match ask {
            Ask::AStar { guess, .. } => cut(d, guess, m.min(guess.len)),
            Ask::Page { page, .. } => cut(d, page, m.min(page.len)),
            _ => (),
        },
        8 => {
            let far = d.pick(&[m, 65_535, usize::MAX]);
            match ask {
                Ask::Dijkstra { source }
                | Ask::BellmanFord { source }
                | Ask::AStar { source, .. }
                | Ask::Page { source, .. }
                | Ask::PathImpl { source, .. }
                | Ask::PathF64 { source, .. } => *source = far,
                _ => (),
            }
        }
        9 => {
            if let Ask::AStar { target, .. } = ask {
                *target = d.pick(&[m, 65_535, usize::MAX]);
            }
        }
        10 => {
            if let Ask::AStar { guess, .. } = ask {
                if guess.len > 0 {
                    let i = d.below(guess.len);
                    guess.set(i, d.pick(&[RANGE + 1, -RANGE - 1, i64::MIN, i64::MAX, RANGE, -RANGE]) as u64);
                }
            }
        }
        // an absurd bound or count, beside slices of the length they had
        _ if d.once_in(2) => lent.bound = d.pick(&[lent.marks.len + 1, 1025, 65_536, usize::MAX]),
        _ => lent.count = d.pick(&[model::room(lent) + 1, 8193, usize::MAX, usize::MAX / 2 + 1]),
    }
}

fn table_slice(lent: &mut Lent, k: usize) -> &mut Slice {
    match k {
        0 => &mut lent.from,
        1 => &mut lent.to,
        _ => &mut lent.costs[k - 2],
    }
}
