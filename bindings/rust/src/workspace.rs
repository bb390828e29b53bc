//! Memory for answers and scratch.

/// Memory for the answers of questions and for their scratch, used again from one question to the next.
///
/// It grows to what the largest question asked of it needs, and is good for maps of every size and of both kinds. What is in it before a
/// question does not matter. An answer is a view of it, so the next question waits until the answer is dropped.
///
/// ```compile_fail,E0499
/// # use dimetumble::{Map, Refusal, Workspace};
/// # let map = Map::new(2, true)?;
/// let mut work = Workspace::new();
/// let first = map.dijkstra(0, &mut work)?;
/// let second = map.dijkstra(1, &mut work)?; // `first` still looks at the workspace
/// assert_eq!(first.get(0), Some(0));
/// # Ok::<(), Refusal>(())
/// ```
#[derive(Clone, Debug, Default)]
pub struct Workspace {
    pub(crate) offsets: Vec<usize>,
    pub(crate) heads: Vec<u16>,
    pub(crate) weights: Vec<i64>,
    pub(crate) patterns: Vec<u64>,
    pub(crate) dist: Vec<i64>,
    pub(crate) dist64: Vec<f64>,
    pub(crate) preds: Vec<u32>,
    pub(crate) peaks: Vec<usize>,
    pub(crate) words: Vec<usize>,
    pub(crate) keys: Vec<i64>,
    pub(crate) keys64: Vec<u64>,
    pub(crate) queue: Vec<usize>,
    pub(crate) queued: Vec<usize>,
    pub(crate) lengths: Vec<usize>,
    pub(crate) labels: Vec<usize>,
    pub(crate) ranks: Vec<usize>,
    pub(crate) heights: Vec<i64>,
    pub(crate) given: Vec<i64>,
    pub(crate) path: Vec<u32>,
    pub(crate) nodes: Vec<u32>,
    pub(crate) matrix: Vec<i64>,
    pub(crate) hops: Vec<u32>,
}

/// At least so many entries.
fn grow<T: Clone + Default>(entries: &mut Vec<T>, least: usize) {
    if entries.len() < least {
        entries.resize(least, T::default());
    }
}

impl Workspace {
    /// Empty memory.
    pub fn new() -> Workspace {
        Workspace::default()
    }

    /// What every search over a neighbour list needs, for a map with this bound and so many arcs.
    pub(crate) fn fit_rows(&mut self, bound: usize, arcs: usize) {
        grow(&mut self.offsets, bound + 1);
        grow(&mut self.heads, arcs);
    }

    /// What a search with a bag over whole numbers needs.
    pub(crate) fn fit_bag(&mut self, bound: usize, arcs: usize) {
        self.fit_rows(bound, arcs);
        grow(&mut self.weights, arcs);
        grow(&mut self.dist, bound);
        grow(&mut self.preds, bound);
        grow(&mut self.peaks, bound);
        grow(&mut self.words, bound);
        grow(&mut self.keys, bound);
    }

    /// What a search with a bag over `f64` needs.
    pub(crate) fn fit_bag64(&mut self, bound: usize, arcs: usize) {
        self.fit_rows(bound, arcs);
        grow(&mut self.patterns, arcs);
        grow(&mut self.dist64, bound);
        grow(&mut self.preds, bound);
        grow(&mut self.peaks, bound);
        grow(&mut self.words, bound);
        grow(&mut self.keys64, bound);
    }

    /// What the search with a queue needs.
    pub(crate) fn fit_queue(&mut self, bound: usize, arcs: usize) {
        self.fit_rows(bound, arcs);
        grow(&mut self.weights, arcs);
        grow(&mut self.dist, bound);
        grow(&mut self.queue, bound);
        grow(&mut self.queued, bound);
        grow(&mut self.lengths, bound);
    }

    /// What counting hops needs, of a map with so many present indices.
    pub(crate) fn fit_hops(&mut self, bound: usize, arcs: usize, present: usize) {
        self.fit_rows(bound, arcs);
        grow(&mut self.labels, bound);
        grow(&mut self.queue, bound + 1);
        grow(&mut self.nodes, present);
        grow(&mut self.hops, present * present);
    }

    /// A matrix of totals, and the list of its nodes.
    pub(crate) fn fit_matrix(&mut self, bound: usize, present: usize) {
        grow(&mut self.ranks, bound);
        grow(&mut self.heights, bound);
        grow(&mut self.matrix, present * present);
    }

    /// The path, and what a caller gives for each index.
    pub(crate) fn fit_given(&mut self, bound: usize) {
        grow(&mut self.given, bound);
        grow(&mut self.path, bound);
    }
}
