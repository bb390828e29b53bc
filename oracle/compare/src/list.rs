//! The list of the original's answers that the program `replay` replays. How a line is written: crates/replay/LIST.md.
use crate::draw::{self, Draw};
use crate::lent::{Ask, Lent, Link, Outcome, Slice, NAMES};
use crate::model;
use crate::original::{Original, Reply};
use std::fmt::Write;

/// Cases of each question.
const CASES: usize = 400;

/// The most indices and records of a case.
const INDICES: usize = 6;
const RECORDS: usize = 12;

/// The list's kind of each question, in the order of `NAMES`; the page check is not the original's.
const KINDS: [usize; NAMES.len()] = [1, 2, 3, 4, 5, 6, 0, 7, 8, 9];

fn signed(text: &mut String, x: u64) {
    match x {
        model::NONE_I64 => text.push_str(" x"),
        _ => write!(text, " {}", x as i64).unwrap(),
    }
}

fn index(text: &mut String, x: u64) {
    match x {
        model::NONE_U32 => text.push_str(" x"),
        _ => write!(text, " {x}").unwrap(),
    }
}

fn bits(text: &mut String, x: u64) {
    match x {
        model::MINUS_ONE => text.push_str(" x"),
        _ => write!(text, " {x:x}").unwrap(),
    }
}

/// A case's line.
fn line(lent: &Lent, taken: &[Link], ask: &Ask, answer: &Outcome) -> String {
    let mut text = format!("{} {} {}", KINDS[ask.no()], (lent.directed != 0) as u8, lent.bound);
    let out = &mut text;
    for i in 0..lent.bound {
        write!(out, " {}", lent.is_present(i) as u8).unwrap();
    }
    write!(out, " {}", taken.len()).unwrap();
    for l in taken {
        write!(out, " {} {}", l.a, l.b).unwrap();
        if lent.is_f64() {
            write!(out, " {:x} {}", l.cost, l.open).unwrap();
        } else {
            write!(out, " {}", l.cost as i64).unwrap();
        }
    }
    match ask {
        Ask::Dijkstra { source } | Ask::BellmanFord { source } => write!(out, " {source}").unwrap(),
        Ask::AStar { source, target, guess } => {
            write!(out, " {source} {target}").unwrap();
            (0..lent.bound).for_each(|i| signed(out, guess.get(i)));
        }
        Ask::PathImpl { source, cutoff } | Ask::PathF64 { source, cutoff } => match cutoff {
            None => write!(out, " {source} 0 0").unwrap(),
            Some(cutoff) => write!(out, " {source} 1 {:x}", cutoff.to_bits()).unwrap(),
        },
        _ => (),
    }
    write!(out, " {}", answer.number).unwrap();
    if answer.number == 0 {
        for (k, part) in answer.outputs.iter().enumerate() {
            match ask {
                Ask::Dijkstra { .. } | Ask::BellmanFord { .. } => part.iter().for_each(|&x| signed(out, x)),
                Ask::AStar { .. } => {
                    signed(out, answer.values[0]);
                    write!(out, " {}", answer.values[1]).unwrap();
                    part.iter().for_each(|&x| index(out, x));
                }
                Ask::FloydWarshall | Ask::Johnson => {
                    write!(out, " {}", part.len()).unwrap();
                    part.iter().for_each(|&x| signed(out, x));
                }
                Ask::Hops | Ask::HopsF64 => {
                    write!(out, " {}", part.len()).unwrap();
                    part.iter().for_each(|&x| index(out, x));
                }
                _ if k == 0 => part.iter().for_each(|&x| bits(out, x)),
                _ => part.iter().for_each(|&x| index(out, x)),
            }
        }
    }
    text.push('\n');
    text
}

/// A question in the list's form: no rubbish at absent indices, and below zero the cutoffs -0.0 and -1.0 alone.
fn plain(lent: &Lent, ask: Ask) -> Ask {
    let limit = |cutoff: Option<f64>| match cutoff {
        Some(c) if c.is_nan() => Some(f64::NAN),
        Some(c) if c < 0.0 => Some(-1.0),
        other => other,
    };
    match ask {
        Ask::AStar { source, target, guess } => {
            let entries: Vec<u64> = (0..lent.bound).map(|i| if lent.is_present(i) { guess.get(i) } else { 0 }).collect();
            Ask::AStar {
                source,
                target,
                guess: Slice::of(8, &entries, || 0),
            }
        }
        Ask::PathImpl { source, cutoff } => Ask::PathImpl {
            source,
            cutoff: limit(cutoff),
        },
        Ask::PathF64 { source, cutoff } => Ask::PathF64 {
            source,
            cutoff: limit(cutoff),
        },
        other => other,
    }
}

/// The list. A seed gives the same list each time.
pub fn list(seed: u64) -> String {
    let mut lines: Vec<Vec<String>> = vec![vec![]; NAMES.len()];
    let is_full = |lines: &Vec<Vec<String>>| lines.iter().zip(KINDS).all(|(of, kind)| kind == 0 || of.len() == CASES);
    let mut k = seed;
    while !is_full(&lines) {
        k += 1;
        let d = &mut Draw(k.wrapping_mul(0xd134_2543_de82_ef95));
        let is_f64 = d.once_in(2);
        let m = if d.once_in(16) { d.below(2) } else { 2 + d.below(INDICES - 1) };
        let mut lent = draw::empty(d, m, is_f64, RECORDS);
        let size = d.below(RECORDS + 1);
        let mut taken = Vec::new();
        for record in draw::feed(d, &lent, size) {
            let (number, after) = model::put(&lent, record);
            lent = after;
            if number == 0 {
                taken.push(record);
            }
        }
        let original = Original::new(&lent, &taken);
        for ask in draw::asks(d, &lent) {
            let ask = plain(&lent, ask);
            let number = model::outcome(&lent, &ask, &[usize::MAX; 10]).number;
            let of = &mut lines[ask.no()];
            // bad costs and loops below zero answer by their number alone: at most a quarter of the list
            let refused = of.iter().filter(|l| l.starts_with('!')).count();
            if of.len() == CASES || number == 5 || crate::is_far(&ask) || number != 0 && 4 * refused >= CASES {
                continue;
            }
            if let Reply::Gives(answer) = original.ask(&lent, &ask) {
                let mark = if number == 0 { "" } else { "!" };
                of.push(format!("{mark}{}", line(&lent, &taken, &ask, &answer)));
            }
        }
    }
    lines.iter().flatten().map(|l| l.trim_start_matches('!')).collect()
}
