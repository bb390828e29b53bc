//! Puts the same maps and questions to the proved functions, to the original and to a slow plain model, and compares every number, value and buffer.
//!
//!     compare [--maps N] [--seed S] [--threads T]   compares; the last line reads `N passed, M failed`
//!     compare --list FILE [--seed S]                writes a list of the original's answers for the program `replay`
mod draw;
mod lent;
mod list;
mod model;
mod original;
mod ours;

use draw::Draw;
use lent::{Answer, Ask, Lent, Link, Slice, NAMES};
use original::{Original, Reply};
use std::fmt::Write;

/// How a question was met: how often, with which numbers, how often with the original, and how it ended.
#[derive(Clone, Default)]
struct Row {
    asked: u64,
    by_number: [u64; 9],
    with_original: u64,
    overflows: u64,
    failed: u64,
}

/// The rows of all questions, put and put_f64 last, and the first differences in words.
#[derive(Clone)]
struct Sheet {
    rows: Vec<Row>,
    yes: u64,
    words: Vec<String>,
}

const PUT: usize = NAMES.len();
const PUT_F64: usize = PUT + 1;

/// The numbers that each question can give, in the order of the rows.
const NUMBERS: [&[usize]; 12] = [
    &[0, 1, 2, 3, 6],
    &[0, 1, 2, 7],
    &[0, 1, 2, 3, 4, 5, 6],
    &[0, 1, 2, 7],
    &[0, 1, 2, 7],
    &[0, 1, 2],
    &[0, 1, 2, 3],
    &[0, 1, 2, 3, 6],
    &[0, 1, 2, 3, 6],
    &[0, 1, 2],
    &[0, 1, 2, 8],
    &[0, 1, 2, 8],
];

fn name(row: usize) -> &'static str {
    NAMES.get(row).copied().unwrap_or(if row == PUT { "put" } else { "put_f64" })
}

impl Sheet {
    fn new() -> Sheet {
        Sheet {
            rows: vec![Row::default(); PUT_F64 + 1],
            yes: 0,
            words: vec![],
        }
    }

    fn add(&mut self, other: Sheet) {
        for (row, more) in self.rows.iter_mut().zip(other.rows) {
            row.asked += more.asked;
            row.with_original += more.with_original;
            row.overflows += more.overflows;
            row.failed += more.failed;
            for (n, m) in row.by_number.iter_mut().zip(more.by_number) {
                *n += m;
            }
        }
        self.yes += other.yes;
        self.words.extend(other.words);
    }

    fn fail(&mut self, row: usize, words: impl FnOnce() -> String) {
        self.rows[row].failed += 1;
        if self.words.len() < 5 {
            self.words.push(words());
        }
    }
}

/// A map in words, for a difference that is found.
fn describe(lent: &Lent) -> String {
    let mut text = format!(
        "bound {} count {} directed {}\n  marks {:?}\n  links",
        lent.bound,
        lent.count,
        lent.directed,
        lent.marks.entries()
    );
    for i in 0..lent.count.min(model::room(lent)).min(40) {
        let l = lent.link(i);
        if lent.is_f64() {
            write!(text, " {}-{} {:016x}/{}", l.a, l.b, l.cost, l.open).unwrap();
        } else {
            write!(text, " {}-{} {}", l.a, l.b, l.cost as i64).unwrap();
        }
    }
    text
}

fn describe_ask(ask: &Ask) -> String {
    match ask {
        Ask::Dijkstra { source } | Ask::BellmanFord { source } => format!("source {source}"),
        Ask::AStar { source, target, guess } => format!("source {source} target {target} heuristic {:?}", signed(&guess.entries())),
        Ask::Page { source, page } => format!("source {source} page {:?}", signed(&page.entries())),
        Ask::PathImpl { source, cutoff } | Ask::PathF64 { source, cutoff } => {
            format!("source {source} cutoff {:x?}", cutoff.map(f64::to_bits))
        }
        _ => String::new(),
    }
}

fn signed(entries: &[u64]) -> Vec<i64> {
    entries.iter().map(|&x| x as i64).collect()
}

fn describe_answer(answer: &Answer) -> String {
    let buffers: Vec<String> = answer.buffers.iter().map(|b| format!("{:x?}", b.entries())).collect();
    format!("number {} values {:x?} buffers {}", answer.number, answer.values, buffers.join(" "))
}

/// Has our answer the original's number, values and outputs, each output in its used part?
fn is_as_original(answer: &Answer, outcome: &lent::Outcome, ask: &Ask, lent: &Lent) -> bool {
    let needs = model::needs(lent, ask);
    let used = |k: usize| answer.buffers[k].entries()[..needs[k].need].to_vec();
    answer.number == outcome.number && answer.values == outcome.values && outcome.outputs.iter().enumerate().all(|(k, out)| *out == used(k))
}

/// Asks one question of the proved functions, the model and, where one is given, the original.
fn check(sheet: &mut Sheet, lent: &Lent, ask: &Ask, before: &[Slice], original: Option<&Original>, seed: u64) {
    let row = ask.no();
    let lens: Vec<usize> = before.iter().map(|b| b.len).collect();
    let outcome = model::outcome(lent, ask, &lens);
    let expected = model::answer(lent, ask, before, &outcome);
    let was = lent.clone();
    let ours = ours::ask(lent, ask, before);
    sheet.rows[row].asked += 1;
    sheet.rows[row].by_number[outcome.number] += 1;
    sheet.yes += (row == 6 && outcome.values == [1]) as u64;
    let told = |whose: &str, theirs: String| {
        format!(
            "{} (seed {seed}) differs from {whose}\n  {}\n  {}\n  ours: {}\n  {whose}: {theirs}",
            NAMES[row],
            describe(lent),
            describe_ask(ask),
            describe_answer(&ours)
        )
    };
    if ours != expected || was != *lent {
        sheet.fail(row, || told("the model", describe_answer(&expected)));
        return;
    }
    // the original knows no limits, no bad links and no range of the heuristic; its indices have 32 bits
    let Some(original) = original else { return };
    if matches!(ours.number, 1 | 2 | 5) || is_far(ask) {
        return;
    }
    match original.ask(lent, ask) {
        Reply::Gives(theirs) => {
            sheet.rows[row].with_original += 1;
            if !is_as_original(&ours, &theirs, ask, lent) {
                sheet.fail(row, || told("the original", format!("{theirs:x?}")));
            }
        }
        Reply::Overflows => sheet.rows[row].overflows += 1,
        Reply::HasNoSuchQuestion => (),
    }
}

/// Does the question name an index past 32 bits?
pub fn is_far(ask: &Ask) -> bool {
    match ask {
        Ask::Dijkstra { source } | Ask::BellmanFord { source } | Ask::PathImpl { source, .. } | Ask::PathF64 { source, .. } => *source > 1 << 20,
        Ask::AStar { source, target, .. } => *source.max(target) > 1 << 20,
        _ => false,
    }
}

/// Puts one record with the proved function and with the model, and gives the map after it and whether it was taken.
fn check_put(sheet: &mut Sheet, lent: &Lent, record: Link, seed: u64) -> (Lent, bool) {
    let row = if lent.is_f64() { PUT_F64 } else { PUT };
    let (number, expected) = model::put(lent, record);
    let (ours, after) = ours::put(lent, record);
    sheet.rows[row].asked += 1;
    sheet.rows[row].by_number[number] += 1;
    if ours != number || after != expected {
        sheet.fail(row, || {
            format!(
                "{} (seed {seed}) of {record:?} gave {ours}, the model {number}\n  before {}\n  after {}\n  model {}",
                name(row),
                describe(lent),
                describe(&after),
                describe(&expected)
            )
        });
    }
    (expected, number == 0)
}

/// A feed put record by record, and the original fed with the records taken; its links must stand in the same places.
fn check_feed(sheet: &mut Sheet, lent: Lent, feed: &[Link], seed: u64) -> (Lent, Original) {
    let mut lent = lent;
    let mut taken = Vec::new();
    for &record in feed {
        let (after, is_taken) = check_put(sheet, &lent, record, seed);
        lent = after;
        if is_taken {
            taken.push(record);
        }
    }
    let original = Original::new(&lent, &taken);
    let row = if lent.is_f64() { PUT_F64 } else { PUT };
    sheet.rows[row].with_original += 1;
    if original.links() != lent.links() {
        sheet.fail(row, || {
            format!(
                "feed (seed {seed}) left other links than the original's\n  {}\n  {:?}",
                describe(&lent),
                original.links()
            )
        });
    }
    (lent, original)
}

/// How large a map is: small mostly.
fn size(d: &mut Draw) -> (usize, usize) {
    let m = match d.below(40) {
        0 => 9 + d.below(12),
        1 => 0,
        2 => 1,
        _ => 1 + d.below(7),
    };
    let most = m * d.pick(&[1, 2, 3, 4]) + 2;
    let links = d.below(most);
    (m, links)
}

/// The map that a seed draws, with all its questions: a quarter with doubled links, an eighth bad, the rest fed by puts.
fn check_seed(sheet: &mut Sheet, seed: u64) {
    let d = &mut Draw(seed.wrapping_mul(0xd134_2543_de82_ef95));
    let is_f64 = d.once_in(3);
    let (m, links) = size(d);
    match d.below(8) {
        // tables written by hand, with links twice: the definitions alone decide
        0 | 1 => {
            let lent = draw::doubled(d, m, is_f64, links);
            for ask in draw::asks(d, &lent) {
                let before = draw::buffers(d, &lent, &ask);
                check(sheet, &lent, &ask, &before, None, seed);
            }
            for record in draw::feed(d, &lent, 2) {
                check_put(sheet, &lent, record, seed);
            }
        }
        // bad input of one or two kinds
        2 => {
            let lent = draw::doubled(d, m, is_f64, links);
            for ask in draw::asks(d, &lent) {
                let needs: Vec<usize> = model::needs(&lent, &ask).iter().map(|b| b.need).collect();
                let mut before = draw::buffers(d, &lent, &ask);
                let (mut bad, mut bad_ask) = (lent.clone(), ask);
                for _ in 0..1 + d.below(2) {
                    draw::spoil(d, &lent, &needs, &mut bad, &mut bad_ask, &mut before);
                }
                check(sheet, &bad, &bad_ask, &before, None, seed);
                for record in draw::feed(d, &lent, 1) {
                    check_put(sheet, &bad, record, seed);
                }
            }
        }
        // a feed of records, then every question
        _ => {
            let room = if d.once_in(8) { d.below(links + 1) } else { links };
            let lent = draw::empty(d, m, is_f64, room);
            let feed = draw::feed(d, &lent, links);
            let (lent, original) = check_feed(sheet, lent, &feed, seed);
            for ask in draw::asks(d, &lent) {
                let before = draw::buffers(d, &lent, &ask);
                check(sheet, &lent, &ask, &before, Some(&original), seed);
            }
        }
    }
}

/// All maps of m indices whose every possible link is missing or has one of these costs; cut into `parts`, of which this is `part`.
fn check_all(sheet: &mut Sheet, m: usize, directed: bool, is_f64: bool, loops: bool, costs: &[(u64, u64)], part: u64, parts: u64) {
    let pairs: Vec<(usize, usize)> = (0..m)
        .flat_map(|a| (0..m).map(move |b| (a, b)))
        .filter(|&(a, b)| (loops || a != b) && (directed || a <= b))
        .collect();
    let choices = costs.len() as u64 + 1;
    for code in (0..choices.pow(pairs.len() as u32)).filter(|code| code % parts == part) {
        let d = &mut Draw(code);
        let width = if is_f64 { 8 } else { 4 };
        let room = pairs.len();
        let mut slices = vec![Slice::new(width, room, || d.word())];
        if is_f64 {
            slices.push(Slice::new(1, room, || d.word()));
        }
        let mut lent = Lent {
            bound: m,
            count: 0,
            directed: directed as u8,
            marks: Slice::of(1, &vec![1; m], || 0),
            from: Slice::new(2, room, || d.word()),
            to: Slice::new(2, room, || d.word()),
            costs: slices,
        };
        let mut rest = code;
        for &(a, b) in &pairs {
            let choice = (rest % choices) as usize;
            rest /= choices;
            if choice > 0 {
                let (cost, open) = costs[choice - 1];
                draw::write(&mut lent, Link { a, b, cost, open });
            }
        }
        let original = Original::new(&lent, &lent.links());
        let zero = Slice::of(8, &vec![0; m], || 0);
        let asks = if is_f64 {
            vec![
                Ask::PathImpl { source: 0, cutoff: None },
                Ask::PathF64 {
                    source: 0,
                    cutoff: Some(1.0),
                },
                Ask::HopsF64,
            ]
        } else {
            vec![
                Ask::Dijkstra { source: 0 },
                Ask::BellmanFord { source: 0 },
                Ask::AStar {
                    source: 0,
                    target: m - 1,
                    guess: zero,
                },
                Ask::FloydWarshall,
                Ask::Johnson,
                Ask::Hops,
            ]
        };
        for ask in asks {
            let before = draw::buffers(d, &lent, &ask);
            check(sheet, &lent, &ask, &before, Some(&original), code);
        }
    }
}

/// The maps at the limits: 1,024 indices with 8,192 links are answered, one more of either is refused.
fn check_limits(sheet: &mut Sheet, part: u64, parts: u64) {
    for (k, (m, count, is_f64, directed)) in [
        (1024, 8192, false, 1),
        (1024, 8192, false, 0),
        (1024, 8192, true, 1),
        (1024, 8192, true, 0),
        (1025, 8192, false, 1),
        (1025, 8192, true, 0),
        (1024, 8193, false, 1),
        (1024, 8193, true, 0),
    ]
    .into_iter()
    .enumerate()
    {
        if k as u64 % parts != part {
            continue;
        }
        let d = &mut Draw(k as u64);
        let mut lent = draw::empty(d, m, is_f64, count);
        lent.directed = directed;
        let heights: Vec<i64> = (0..m).map(|_| d.below(1000) as i64 * if directed != 0 { 1 } else { 0 }).collect();
        for i in 0..m {
            lent.marks.set(i, (!d.once_in(50)) as u64);
        }
        let nodes = lent.nodes();
        let mut seen = std::collections::HashSet::new();
        while lent.count < count {
            let (a, b) = (d.pick(&nodes), d.pick(&nodes));
            let is_new = seen.insert(if directed != 0 { (a, b) } else { (a.min(b), a.max(b)) });
            if is_new {
                let cost = d.below(1000) as i64;
                let cost = if is_f64 {
                    (cost as f64 / 10.0).to_bits()
                } else {
                    (cost + heights[a] - heights[b]) as u64
                };
                draw::write(&mut lent, Link { a, b, cost, open: 1 });
            }
        }
        let is_whole = m <= 1024 && count <= 8192;
        let original = is_whole.then(|| Original::new(&lent, &lent.links()));
        for ask in draw::asks(d, &lent) {
            let before = draw::buffers(d, &lent, &ask);
            check(sheet, &lent, &ask, &before, original.as_ref(), k as u64);
        }
        // the next record is refused by 8 in a full table, and one sent again is taken
        let sent = lent.link(0);
        check_put(sheet, &lent, sent, k as u64);
        let new = (0..nodes.len())
            .map(|j| (nodes[0], nodes[j]))
            .find(|&(a, b)| !seen.contains(&(a, b)))
            .unwrap();
        check_put(sheet, &lent, Link { a: new.0, b: new.1, ..sent }, k as u64);
    }
}

/// Complete maps of the lowest cost: from 13 indices on the original's `floyd_warshall` overflows, and the definition alone decides.
fn check_overflow(sheet: &mut Sheet, part: u64, parts: u64) {
    for m in (10..18).filter(|m| m % parts as usize == part as usize) {
        let d = &mut Draw(m as u64);
        let mut lent = draw::empty(d, m, false, m * m);
        lent.directed = 1;
        for i in 0..m {
            lent.marks.set(i, 1);
        }
        for (a, b) in (0..m).flat_map(|a| (0..m).map(move |b| (a, b))) {
            draw::write(
                &mut lent,
                Link {
                    a,
                    b,
                    cost: i32::MIN as i64 as u64,
                    open: 1,
                },
            );
        }
        let original = Original::new(&lent, &lent.links());
        for ask in draw::asks(d, &lent) {
            let before = draw::buffers(d, &lent, &ask);
            check(sheet, &lent, &ask, &before, Some(&original), m as u64);
        }
    }
}

fn run(maps: u64, seed: u64, part: u64, parts: u64) -> Sheet {
    let mut sheet = Sheet::new();
    let whole = |costs: &[i64]| costs.iter().map(|&c| (c as u64, 1)).collect::<Vec<_>>();
    let s = &mut sheet;
    check_limits(s, part, parts);
    check_overflow(s, part, parts);
    check_all(s, 1, true, false, true, &whole(&[-1, 0, 1]), part, parts);
    check_all(
        s,
        2,
        true,
        false,
        true,
        &whole(&[-2, -1, 0, 1, 2, i32::MIN as i64, i32::MAX as i64]),
        part,
        parts,
    );
    check_all(
        s,
        2,
        false,
        false,
        true,
        &whole(&[-2, -1, 0, 1, 2, i32::MIN as i64, i32::MAX as i64]),
        part,
        parts,
    );
    check_all(s, 3, true, false, false, &whole(&[-2, -1, 0, 1, 2]), part, parts);
    check_all(s, 3, true, false, true, &whole(&[-1, 0]), part, parts);
    check_all(s, 3, false, false, true, &whole(&[-1, 0, 1, 2]), part, parts);
    check_all(s, 4, false, false, false, &whole(&[0, 1, 2, 3]), part, parts);
    let floats: Vec<(u64, u64)> = [(0.0f64, 1), (1.0, 1), (0.5, 1), (f64::INFINITY, 1), (-0.0, 1), (f64::NAN, 0)]
        .iter()
        .map(|&(x, o)| (x.to_bits(), o))
        .collect();
    check_all(s, 3, true, true, false, &floats[..5], part, parts);
    check_all(s, 3, false, true, true, &floats[..4], part, parts);
    check_all(s, 2, true, true, true, &floats, part, parts);
    for k in (0..maps).filter(|k| k % parts == part) {
        check_seed(s, seed.wrapping_add(k));
    }
    sheet
}

/// The value that follows an option, or a default.
fn option(args: &[String], name: &str, default: u64) -> u64 {
    args.iter()
        .position(|a| a == name)
        .map_or(default, |i| args[i + 1].parse().expect("a number"))
}

fn main() {
    // where the original's sums overflow it panics; that is expected and counted, so only other panics are told
    std::panic::set_hook(Box::new(|told| {
        if told.payload().downcast_ref::<&str>() != Some(&original::OVERFLOW) {
            eprintln!("{told}");
        }
    }));
    let args: Vec<String> = std::env::args().collect();
    let seed = option(&args, "--seed", 1);
    if let Some(i) = args.iter().position(|a| a == "--list") {
        std::fs::write(&args[i + 1], list::list(seed)).expect("the list is written");
        return;
    }
    let maps = option(&args, "--maps", 300_000);
    let threads = option(&args, "--threads", std::thread::available_parallelism().map_or(1, |n| n.get() as u64));
    let mut sheet = Sheet::new();
    let parts: Vec<_> = (0..threads)
        .map(|part| std::thread::spawn(move || run(maps, seed, part, threads)))
        .collect();
    for part in parts {
        match part.join() {
            Ok(more) => sheet.add(more),
            Err(_) => sheet.fail(PUT, || "the comparison itself stopped".into()),
        }
    }
    report(&sheet);
}

/// A line for each question, the first differences, and the sum.
fn report(sheet: &Sheet) {
    for words in &sheet.words {
        println!("DIFFERENCE {words}");
    }
    let (mut passed, mut failed) = (0, 0);
    for (k, row) in sheet.rows.iter().enumerate() {
        let mut numbers = String::new();
        for &n in NUMBERS[k] {
            write!(numbers, " {n}: {}", row.by_number[n]).unwrap();
            // a number that never came up was not compared: that counts as a failure
            failed += (row.by_number[n] == 0) as u64;
        }
        print!(
            "{}: {} asked, numbers{numbers}; with the original {}",
            name(k),
            row.asked,
            row.with_original
        );
        if row.overflows > 0 {
            print!(", {} more where its sums overflow", row.overflows);
        }
        if k == 6 {
            print!(", {} pages right", sheet.yes);
        }
        println!("; {} failed", row.failed);
        passed += row.asked - row.failed.min(row.asked);
        failed += row.failed;
    }
    println!("{passed} passed, {failed} failed");
    std::process::exit((failed > 0) as i32);
}
