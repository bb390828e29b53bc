//! A slow plain model, written from the request's sentences and from nothing else: definitions instead of engines.
use crate::lent::{Answer, Ask, Lent, Link, Outcome, Slice};

pub const NONE_I64: u64 = 1 << 63;
pub const NONE_U32: u64 = 4_294_967_295;
pub const MINUS_ONE: u64 = 0xbff0_0000_0000_0000;

/// The heuristic's and the page's range ends.
pub const RANGE: i64 = 1 << 42;

/// An arc of an integer map.
type Arc = (usize, usize, i128);

/// One buffer of a question: its width, how much of it is used, and what blank is (outputs) or that it is scratch.
pub struct Buffer {
    pub width: usize,
    pub need: usize,
    pub none: Option<u64>,
}

fn output(width: usize, need: usize, none: u64) -> Buffer {
    Buffer {
        width,
        need,
        none: Some(none),
    }
}

fn scratch(width: usize, need: usize) -> Buffer {
    Buffer { width, need, none: None }
}

/// The buffers of a question in the order lent, after docs/SCRATCH.md: m the bound, p the present, a the arcs' room.
pub fn buffers(ask: &Ask, m: usize, p: usize, a: usize) -> Vec<Buffer> {
    match ask {
        Ask::Dijkstra { .. } => vec![
            output(8, m, NONE_I64),
            scratch(8, m + 1),
            scratch(2, a),
            scratch(8, a),
            scratch(4, m),
            scratch(8, m),
            scratch(8, m),
            scratch(8, m),
        ],
        Ask::BellmanFord { .. } => vec![
            output(8, m, NONE_I64),
            scratch(8, m + 1),
            scratch(2, a),
            scratch(8, a),
            scratch(8, m),
            scratch(8, m),
            scratch(8, m),
        ],
        Ask::AStar { .. } => vec![
            output(4, m, NONE_U32),
            scratch(8, m + 1),
            scratch(2, a),
            scratch(8, a),
            scratch(8, m),
            scratch(4, m),
            scratch(8, m),
            scratch(8, m),
            scratch(8, m),
        ],
        Ask::FloydWarshall => vec![output(8, p * p, NONE_I64), scratch(8, m)],
        Ask::Johnson => vec![
            output(8, p * p, NONE_I64),
            scratch(8, m + 1),
            scratch(2, a),
            scratch(8, a),
            scratch(8, m),
            scratch(8, m),
            scratch(4, m),
            scratch(8, m),
            scratch(8, m),
            scratch(8, m),
        ],
        Ask::Hops | Ask::HopsF64 => vec![
            output(4, p, NONE_U32),
            output(4, p * p, NONE_U32),
            scratch(8, m + 1),
            scratch(2, a),
            scratch(8, m),
            scratch(8, m + 1),
        ],
        Ask::Page { .. } => vec![],
        Ask::PathImpl { .. } | Ask::PathF64 { .. } => vec![
            output(8, m, MINUS_ONE),
            output(4, m, NONE_U32),
            scratch(8, m + 1),
            scratch(2, a),
            scratch(8, a),
            scratch(8, m),
            scratch(8, m),
            scratch(8, m),
        ],
    }
}

/// The room: the shortest lent table slice, at most 8,192.
pub fn room(lent: &Lent) -> usize {
    let costs = lent.costs.iter().map(|s| s.len).min().unwrap();
    lent.from.len.min(lent.to.len).min(costs).min(8192)
}

/// 1: m over 1,024, marks shorter than m, count over room.
fn is_limit_passed(lent: &Lent) -> bool {
    lent.bound > 1024 || lent.marks.len < lent.bound || lent.count > room(lent)
}

/// 2: a link names an index at or above m, or absent.
fn is_link_bad(lent: &Lent) -> bool {
    lent.links().iter().any(|l| !lent.is_present(l.a) || !lent.is_present(l.b))
}

/// An arc is a link in its direction, or in either direction if undirected; a self-link is one arc.
fn arcs_of(lent: &Lent, links: &[Link]) -> Vec<(usize, usize, u64)> {
    let mut arcs = Vec::new();
    for l in links {
        arcs.push((l.a, l.b, l.cost));
        if lent.directed == 0 && l.a != l.b {
            arcs.push((l.b, l.a, l.cost));
        }
    }
    arcs
}

fn whole_arcs(lent: &Lent) -> Vec<Arc> {
    arcs_of(lent, &lent.links()).iter().map(|&(u, v, c)| (u, v, c as i64 as i128)).collect()
}

/// Which indices a walk from the source reaches.
fn reached(m: usize, arcs: &[Arc], source: usize) -> Vec<bool> {
    let mut seen = vec![false; m];
    seen[source] = true;
    loop {
        let mut grew = false;
        for &(u, v, _) in arcs {
            if seen[u] && !seen[v] {
                seen[v] = true;
                grew = true;
            }
        }
        if !grew {
            return seen;
        }
    }
}

/// Is there a closed walk of a total below zero? From 0 everywhere, rounds over all arcs come to rest after p - 1 exactly without one.
fn loops_below_zero(m: usize, p: usize, arcs: &[Arc]) -> bool {
    let mut least = vec![0i128; m];
    for _ in 0..p {
        let before = least.clone();
        let mut fell = false;
        for &(u, v, c) in arcs {
            if before[u] + c < least[v] {
                least[v] = before[u] + c;
                fell = true;
            }
        }
        if !fell {
            return false;
        }
    }
    p > 0
}

/// The least walk totals from a source, where no closed walk in reach is below zero.
fn least_totals(m: usize, arcs: &[Arc], source: usize) -> Vec<Option<i128>> {
    let mut least = vec![None; m];
    least[source] = Some(0);
    loop {
        let mut fell = false;
        for &(u, v, c) in arcs {
            if let Some(d) = least[u] {
                if least[v].is_none_or(|old| d + c < old) {
                    least[v] = Some(d + c);
                    fell = true;
                }
            }
        }
        if !fell {
            return least;
        }
    }
}

fn as_i64(d: Option<i128>) -> u64 {
    d.map_or(NONE_I64, |d| i64::try_from(d).unwrap() as u64)
}

/// The pending bag of A*, pair by pair: distances and predecessors, or nothing where a cost below zero was looked at.
fn bag(m: usize, arcs: &[Arc], source: usize, target: usize, guess: &[i128]) -> Option<(Vec<Option<i128>>, Vec<usize>)> {
    let mut dist = vec![None; m];
    let mut pred = vec![usize::MAX; m];
    let mut pairs = vec![(guess[source], source)];
    dist[source] = Some(0);
    while let Some(&least) = pairs.iter().min() {
        pairs.swap_remove(pairs.iter().position(|&pair| pair == least).unwrap());
        let (key, u) = least;
        if u == target {
            break;
        }
        let d: i128 = dist[u].unwrap();
        if key - guess[u] > d {
            continue;
        }
        if arcs.iter().any(|&(a, _, c)| a == u && c < 0) {
            return None;
        }
        for &(a, v, c) in arcs {
            if a == u && dist[v].is_none_or(|old| d + c < old) {
                dist[v] = Some(d + c);
                pred[v] = u;
                pairs.push((d + c + guess[v], v));
            }
        }
    }
    Some((dist, pred))
}

/// The pending bag over f64 costs, with a cutoff; nothing where a bad cost was met.
fn bag_f64(m: usize, arcs: &[(usize, usize, u64)], source: usize, cutoff: Option<f64>) -> Option<(Vec<Option<f64>>, Vec<usize>)> {
    let mut dist: Vec<Option<f64>> = vec![None; m];
    let mut pred = vec![usize::MAX; m];
    let mut pairs = vec![(0.0f64, source)];
    dist[source] = Some(0.0);
    while !pairs.is_empty() {
        let mut least = 0;
        for i in 1..pairs.len() {
            let (key, v) = pairs[i];
            if key < pairs[least].0 || key == pairs[least].0 && v < pairs[least].1 {
                least = i;
            }
        }
        let (d, u) = pairs.swap_remove(least);
        if d > dist[u].unwrap() {
            continue;
        }
        for &(a, v, bits) in arcs {
            if a != u {
                continue;
            }
            let cost = f64::from_bits(bits);
            if bits >> 63 == 1 || cost.is_nan() {
                return None;
            }
            let next = d + cost;
            if cutoff.is_some_and(|c| next > c) {
                continue;
            }
            if dist[v].is_none_or(|old| next < old) {
                dist[v] = Some(next);
                pred[v] = u;
                pairs.push((next, v));
            }
        }
    }
    Some((dist, pred))
}

/// Is the page right? The source has 0; no arc leads from an index with a distance to one with none or with more than distance plus cost;
/// each other index with a distance has an arc into it, from an index with a distance, that meets it exactly; all in range.
fn is_page_right(m: usize, arcs: &[Arc], source: usize, page: &[Option<i128>]) -> bool {
    let range = RANGE as i128;
    page[source] == Some(0)
        && page.iter().flatten().all(|d| (-range..=range).contains(d))
        && arcs.iter().all(|&(u, v, c)| page[u].is_none_or(|d| page[v].is_some_and(|e| e <= d + c)))
        && (0..m)
            .all(|v| v == source || page[v].is_none() || arcs.iter().any(|&(u, to, c)| to == v && page[u].is_some_and(|d| Some(d + c) == page[v])))
}

/// What a question gives after its refusals 1 to 5.
fn solve(lent: &Lent, ask: &Ask) -> Outcome {
    let m = lent.bound;
    let nodes = lent.nodes();
    let p = nodes.len();
    let done = |values: Vec<u64>, outputs: Vec<Vec<u64>>| Outcome { number: 0, values, outputs };
    let refused = |number: usize, values: Vec<u64>| Outcome {
        number,
        values,
        outputs: vec![],
    };
    match ask {
        Ask::Dijkstra { source } => {
            let arcs = whole_arcs(lent);
            let seen = reached(m, &arcs, *source);
            if arcs.iter().any(|&(u, _, c)| seen[u] && c < 0) {
                return refused(6, vec![]);
            }
            done(vec![], vec![least_totals(m, &arcs, *source).into_iter().map(as_i64).collect()])
        }
        Ask::BellmanFord { source } => {
            if !lent.is_present(*source) {
                return done(vec![], vec![vec![NONE_I64; m]]);
            }
            let arcs = whole_arcs(lent);
            let seen = reached(m, &arcs, *source);
            let near: Vec<Arc> = arcs.iter().copied().filter(|&(u, _, _)| seen[u]).collect();
            if loops_below_zero(m, p, &near) {
                return refused(7, vec![]);
            }
            done(vec![], vec![least_totals(m, &near, *source).into_iter().map(as_i64).collect()])
        }
        Ask::AStar { source, target, guess } => {
            let guess: Vec<i128> = (0..m).map(|i| guess.get(i) as i64 as i128).collect();
            let Some((dist, pred)) = bag(m, &whole_arcs(lent), *source, *target, &guess) else {
                return refused(6, vec![NONE_I64, 0]);
            };
            if dist[*target].is_none() {
                return done(vec![NONE_I64, 0], vec![vec![NONE_U32; m]]);
            }
            let mut back = vec![*target];
            while *back.last().unwrap() != *source {
                back.push(pred[*back.last().unwrap()]);
            }
            let length = back.len() as u64;
            let mut path: Vec<u64> = back.iter().rev().map(|&u| u as u64).collect();
            path.resize(m, NONE_U32);
            done(vec![as_i64(dist[*target]), length], vec![path])
        }
        Ask::FloydWarshall | Ask::Johnson => {
            let arcs = whole_arcs(lent);
            if loops_below_zero(m, p, &arcs) {
                return refused(7, vec![]);
            }
            let mut matrix = Vec::new();
            for &u in &nodes {
                let row = least_totals(m, &arcs, u);
                matrix.extend(nodes.iter().map(|&v| as_i64(row[v])));
            }
            done(vec![], vec![matrix])
        }
        Ask::Hops | Ask::HopsF64 => {
            let arcs: Vec<Arc> = whole_arcs(lent).iter().map(|&(u, v, _)| (u, v, 1)).collect();
            let mut matrix = Vec::new();
            for &u in &nodes {
                let row = least_totals(m, &arcs, u);
                matrix.extend(nodes.iter().map(|&v| row[v].map_or(NONE_U32, |d| d as u64)));
            }
            done(vec![p as u64], vec![nodes.iter().map(|&u| u as u64).collect(), matrix])
        }
        Ask::Page { source, page } => {
            let page: Vec<Option<i128>> = (0..m)
                .map(|i| Some(page.get(i)).filter(|&d| d != NONE_I64).map(|d| d as i64 as i128))
                .collect();
            done(vec![is_page_right(m, &whole_arcs(lent), *source, &page) as u64], vec![])
        }
        Ask::PathImpl { source, cutoff } | Ask::PathF64 { source, cutoff } => {
            let open: Vec<Link> = lent.links().into_iter().filter(|l| l.open != 0).collect();
            match bag_f64(m, &arcs_of(lent, &open), *source, *cutoff) {
                None => refused(6, vec![]),
                Some((dist, pred)) => done(
                    vec![],
                    vec![
                        dist.iter().map(|d| d.map_or(MINUS_ONE, f64::to_bits)).collect(),
                        pred.iter().map(|&u| if u == usize::MAX { NONE_U32 } else { u as u64 }).collect(),
                    ],
                ),
            }
        }
    }
}

/// The values beside an early refusal: a cost is none, a length or count 0, a yes or no is no.
fn refused_values(ask: &Ask) -> Vec<u64> {
    match ask {
        Ask::AStar { .. } => vec![NONE_I64, 0],
        Ask::Hops | Ask::HopsF64 | Ask::Page { .. } => vec![0],
        _ => vec![],
    }
}

/// The numbers 1 to 5 in their order, or 0.
fn early(lent: &Lent, ask: &Ask, lens: &[usize]) -> usize {
    if is_limit_passed(lent) {
        return 1;
    }
    let m = lent.bound;
    let needs = needs(lent, ask);
    if needs.iter().zip(lens).any(|(b, &len)| len < b.need) {
        return 1;
    }
    let lent_beside = match ask {
        Ask::AStar { guess, .. } => guess.len,
        Ask::Page { page, .. } => page.len,
        _ => m,
    };
    if lent_beside < m {
        return 1;
    }
    if is_link_bad(lent) {
        return 2;
    }
    match ask {
        Ask::Dijkstra { source } | Ask::PathImpl { source, .. } | Ask::PathF64 { source, .. } | Ask::Page { source, .. }
            if !lent.is_present(*source) =>
        {
            3
        }
        Ask::AStar { source, .. } if !lent.is_present(*source) => 3,
        Ask::AStar { target, .. } if !lent.is_present(*target) => 4,
        Ask::AStar { guess, .. } if lent.nodes().iter().any(|&i| !(-RANGE..=RANGE).contains(&(guess.get(i) as i64))) => 5,
        _ => 0,
    }
}

/// The buffers of a question on a map whose bound, marks and count are good.
pub fn needs(lent: &Lent, ask: &Ask) -> Vec<Buffer> {
    let a = if lent.directed != 0 { lent.count } else { 2 * lent.count };
    buffers(ask, lent.bound, lent.nodes().len(), a)
}

/// The answer proper, where the map and the buffers' lengths let the question be asked.
pub fn outcome(lent: &Lent, ask: &Ask, lens: &[usize]) -> Outcome {
    match early(lent, ask, lens) {
        0 => solve(lent, ask),
        number => Outcome {
            number,
            values: refused_values(ask),
            outputs: vec![],
        },
    }
}

/// The whole answer: after an early refusal every buffer as lent; else the outputs' used parts (blank after 6 or 7), scratch zero.
pub fn answer(lent: &Lent, ask: &Ask, before: &[Slice], outcome: &Outcome) -> Answer {
    let mut buffers = before.to_vec();
    if matches!(outcome.number, 0 | 6 | 7) {
        for (k, need) in needs(lent, ask).iter().enumerate() {
            for i in 0..need.need {
                let x = match need.none {
                    None => 0,
                    Some(none) if outcome.number != 0 => none,
                    Some(_) => outcome.outputs[k][i],
                };
                buffers[k].set(i, x);
            }
        }
    }
    Answer {
        number: outcome.number,
        values: outcome.values.clone(),
        buffers,
    }
}

/// Put: the number and the map after it.
pub fn put(lent: &Lent, record: Link) -> (usize, Lent) {
    if is_limit_passed(lent) {
        return (1, lent.clone());
    }
    if is_link_bad(lent) || !lent.is_present(record.a) || !lent.is_present(record.b) {
        return (2, lent.clone());
    }
    let mut after = lent.clone();
    let is_same = |l: &Link| (l.a, l.b) == (record.a, record.b) || lent.directed == 0 && (l.b, l.a) == (record.a, record.b);
    let place = match lent.links().iter().position(is_same) {
        Some(place) => place,
        None if lent.count == room(lent) => return (8, after),
        None => {
            after.from.set(lent.count, record.a as u64);
            after.to.set(lent.count, record.b as u64);
            after.count += 1;
            lent.count
        }
    };
    after.costs[0].set(place, record.cost);
    if lent.is_f64() {
        after.costs[1].set(place, record.open);
    }
    (0, after)
}
