//! The proved functions, by way of the archive's C interface. A slice is a pointer and a length in entries.
use crate::lent::{Answer, Ask, Lent, Link, Slice};

type In = *const u8;
type Out = *mut u8;

#[rustfmt::skip]
extern "C" {
    fn dimetumble_put(bound: usize, count: *mut usize, directed: u8, marks: In, _: usize, from: Out, _: usize, to: Out, _: usize,
        costs: Out, _: usize, a: u16, b: u16, cost: i32) -> usize;
    fn dimetumble_put_f64(bound: usize, count: *mut usize, directed: u8, marks: In, _: usize, from: Out, _: usize, to: Out, _: usize,
        bits: Out, _: usize, opens: Out, _: usize, a: u16, b: u16, pattern: u64, opened: u8) -> usize;
    fn dimetumble_dijkstra(bound: usize, count: usize, directed: u8, marks: In, _: usize, from: In, _: usize, to: In, _: usize,
        costs: In, _: usize, source: usize, dist: Out, _: usize, offsets: Out, _: usize, heads: Out, _: usize, weights: Out, _: usize,
        preds: Out, _: usize, peaks: Out, _: usize, words: Out, _: usize, keys: Out, _: usize) -> usize;
    fn dimetumble_bellman_ford(bound: usize, count: usize, directed: u8, marks: In, _: usize, from: In, _: usize, to: In, _: usize,
        costs: In, _: usize, source: usize, dist: Out, _: usize, offsets: Out, _: usize, heads: Out, _: usize, weights: Out, _: usize,
        queue: Out, _: usize, queued: Out, _: usize, lengths: Out, _: usize) -> usize;
    fn dimetumble_a_star(bound: usize, count: usize, directed: u8, marks: In, _: usize, from: In, _: usize, to: In, _: usize,
        costs: In, _: usize, source: usize, target: usize, guess: In, _: usize, cost: *mut i64, length: *mut usize, path: Out, _: usize,
        offsets: Out, _: usize, heads: Out, _: usize, weights: Out, _: usize, dist: Out, _: usize, preds: Out, _: usize,
        peaks: Out, _: usize, words: Out, _: usize, keys: Out, _: usize) -> usize;
    fn dimetumble_floyd_warshall(bound: usize, count: usize, directed: u8, marks: In, _: usize, from: In, _: usize, to: In, _: usize,
        costs: In, _: usize, matrix: Out, _: usize, ranks: Out, _: usize) -> usize;
    fn dimetumble_johnson(bound: usize, count: usize, directed: u8, marks: In, _: usize, from: In, _: usize, to: In, _: usize,
        costs: In, _: usize, matrix: Out, _: usize, offsets: Out, _: usize, heads: Out, _: usize, weights: Out, _: usize,
        heights: Out, _: usize, dist: Out, _: usize, preds: Out, _: usize, peaks: Out, _: usize, words: Out, _: usize,
        keys: Out, _: usize) -> usize;
    fn dimetumble_hops(bound: usize, count: usize, directed: u8, marks: In, _: usize, from: In, _: usize, to: In, _: usize,
        costs: In, _: usize, listed: *mut usize, nodes: Out, _: usize, matrix: Out, _: usize, offsets: Out, _: usize,
        heads: Out, _: usize, labels: Out, _: usize, queue: Out, _: usize) -> usize;
    fn dimetumble_hops_f64(bound: usize, count: usize, directed: u8, marks: In, _: usize, from: In, _: usize, to: In, _: usize,
        bits: In, _: usize, opens: In, _: usize, listed: *mut usize, nodes: Out, _: usize, matrix: Out, _: usize,
        offsets: Out, _: usize, heads: Out, _: usize, labels: Out, _: usize, queue: Out, _: usize) -> usize;
    fn dimetumble_page(bound: usize, count: usize, directed: u8, marks: In, _: usize, from: In, _: usize, to: In, _: usize,
        costs: In, _: usize, source: usize, page: In, _: usize, yes: *mut u8) -> usize;
    fn dimetumble_dijkstra_path_impl(bound: usize, count: usize, directed: u8, marks: In, _: usize, from: In, _: usize, to: In, _: usize,
        bits: In, _: usize, opens: In, _: usize, source: usize, capped: u8, cutoff: f64, dist: Out, _: usize, preds: Out, _: usize,
        offsets: Out, _: usize, heads: Out, _: usize, weights: Out, _: usize, peaks: Out, _: usize, words: Out, _: usize,
        keys: Out, _: usize) -> usize;
    fn dimetumble_dijkstra_path_f64(bound: usize, count: usize, directed: u8, marks: In, _: usize, from: In, _: usize, to: In, _: usize,
        bits: In, _: usize, opens: In, _: usize, source: usize, capped: u8, cutoff: f64, dist: Out, _: usize, preds: Out, _: usize,
        offsets: Out, _: usize, heads: Out, _: usize, weights: Out, _: usize, peaks: Out, _: usize, words: Out, _: usize,
        keys: Out, _: usize) -> usize;
}

/// Calls a function on the map's parts, then on further arguments; `[b n]` stands for the pointer and the length of buffer n.
macro_rules! call {
    (@ $name:ident $l:ident $b:ident { $($done:expr),* }) => { unsafe { $name($($done),*) } };
    (@ $name:ident $l:ident $b:ident { $($done:expr),* } [b $($n:literal)*] $($rest:tt)*) => {
        call!(@ $name $l $b { $($done,)* } ; $([$n])* ; $($rest)*)
    };
    (@ $name:ident $l:ident $b:ident { $($done:expr),* $(,)? } ; [$n:literal] $([$m:literal])* ; $($rest:tt)*) => {
        call!(@ $name $l $b { $($done,)* $b[$n].at_mut(), $b[$n].len } ; $([$m])* ; $($rest)*)
    };
    (@ $name:ident $l:ident $b:ident { $($done:expr),* $(,)? } ; ; $($rest:tt)*) => {
        call!(@ $name $l $b { $($done),* } $($rest)*)
    };
    (@ $name:ident $l:ident $b:ident { $($done:expr),* } ($($x:expr),*) $($rest:tt)*) => {
        call!(@ $name $l $b { $($done,)* $($x),* } $($rest)*)
    };
    (ints $name:ident $l:ident $b:ident $($rest:tt)*) => {
        call!(@ $name $l $b { $l.bound, $l.count, $l.directed, $l.marks.at(), $l.marks.len, $l.from.at(), $l.from.len,
            $l.to.at(), $l.to.len, $l.costs[0].at(), $l.costs[0].len } $($rest)*)
    };
    (floats $name:ident $l:ident $b:ident $($rest:tt)*) => {
        call!(@ $name $l $b { $l.bound, $l.count, $l.directed, $l.marks.at(), $l.marks.len, $l.from.at(), $l.from.len,
            $l.to.at(), $l.to.len, $l.costs[0].at(), $l.costs[0].len, $l.costs[1].at(), $l.costs[1].len } $($rest)*)
    };
}

/// Asks a question with these buffers. Returned values start from rubbish, so that one left unwritten shows.
pub fn ask(lent: &Lent, ask: &Ask, before: &[Slice]) -> Answer {
    const RUBBISH: u64 = 0x5a5a_5a5a_5a5a_5a5a;
    let mut b = before.to_vec();
    let mut values = vec![];
    let number = match ask {
        Ask::Dijkstra { source } => call!(ints dimetumble_dijkstra lent b (*source) [b 0 1 2 3 4 5 6 7]),
        Ask::BellmanFord { source } => call!(ints dimetumble_bellman_ford lent b (*source) [b 0 1 2 3 4 5 6]),
        Ask::AStar { source, target, guess } => {
            let mut cost = RUBBISH as i64;
            let mut length = RUBBISH as usize;
            let number = call!(ints dimetumble_a_star lent b (*source, *target, guess.at(), guess.len, &mut cost, &mut length)
                [b 0 1 2 3 4 5 6 7 8]);
            values = vec![cost as u64, length as u64];
            number
        }
        Ask::FloydWarshall => call!(ints dimetumble_floyd_warshall lent b [b 0 1]),
        Ask::Johnson => call!(ints dimetumble_johnson lent b [b 0 1 2 3 4 5 6 7 8 9]),
        Ask::Hops => {
            let mut listed = RUBBISH as usize;
            let number = call!(ints dimetumble_hops lent b (&mut listed) [b 0 1 2 3 4 5]);
            values = vec![listed as u64];
            number
        }
        Ask::HopsF64 => {
            let mut listed = RUBBISH as usize;
            let number = call!(floats dimetumble_hops_f64 lent b (&mut listed) [b 0 1 2 3 4 5]);
            values = vec![listed as u64];
            number
        }
        Ask::Page { source, page } => {
            let mut yes = RUBBISH as u8;
            let number = call!(ints dimetumble_page lent b (*source, page.at(), page.len, &mut yes));
            values = vec![yes as u64];
            number
        }
        Ask::PathImpl { source, cutoff } => call!(floats dimetumble_dijkstra_path_impl lent b
            (*source, cutoff.is_some() as u8, cutoff.unwrap_or(0.0)) [b 0 1 2 3 4 5 6 7]),
        Ask::PathF64 { source, cutoff } => call!(floats dimetumble_dijkstra_path_f64 lent b
            (*source, cutoff.is_some() as u8, cutoff.unwrap_or(0.0)) [b 0 1 2 3 4 5 6 7]),
    };
    Answer { number, values, buffers: b }
}

/// Puts a record: the number and the map after it.
pub fn put(lent: &Lent, record: Link) -> (usize, Lent) {
    let mut after = lent.clone();
    let l = &mut after;
    let number = if lent.is_f64() {
        unsafe {
            dimetumble_put_f64(
                l.bound,
                &mut l.count,
                l.directed,
                l.marks.at(),
                l.marks.len,
                l.from.at_mut(),
                l.from.len,
                l.to.at_mut(),
                l.to.len,
                l.costs[0].at_mut(),
                l.costs[0].len,
                l.costs[1].at_mut(),
                l.costs[1].len,
                record.a as u16,
                record.b as u16,
                record.cost,
                record.open as u8,
            )
        }
    } else {
        unsafe {
            dimetumble_put(
                l.bound,
                &mut l.count,
                l.directed,
                l.marks.at(),
                l.marks.len,
                l.from.at_mut(),
                l.from.len,
                l.to.at_mut(),
                l.to.len,
                l.costs[0].at_mut(),
                l.costs[0].len,
                record.a as u16,
                record.b as u16,
                record.cost as i32,
            )
        }
    };
    (number, after)
}
