//! What is lent to a question: slices of any width, and tables made of them.

/// Words before and behind a slice's entries. They are compared too, so a write outside the slice is seen.
const MARGIN: usize = 2;

/// A slice of `len` entries of `width` bytes each, inside a margin.
#[derive(Clone, PartialEq, Eq)]
pub struct Slice {
    pub width: usize,
    pub len: usize,
    words: Vec<u64>,
}

impl Slice {
    /// A slice that holds what `rubbish` gives, margin included.
    pub fn new(width: usize, len: usize, mut rubbish: impl FnMut() -> u64) -> Slice {
        let words = (0..2 * MARGIN + (len * width).div_ceil(8)).map(|_| rubbish()).collect();
        Slice { width, len, words }
    }

    /// A slice with these entries.
    pub fn of(width: usize, entries: &[u64], rubbish: impl FnMut() -> u64) -> Slice {
        let mut slice = Slice::new(width, entries.len(), rubbish);
        for (i, &x) in entries.iter().enumerate() {
            slice.set(i, x);
        }
        slice
    }

    /// Its address; null where it is empty.
    pub fn at(&self) -> *const u8 {
        if self.len == 0 {
            std::ptr::null()
        } else {
            self.words[MARGIN..].as_ptr().cast()
        }
    }

    /// Its address for writing; null where it is empty.
    pub fn at_mut(&mut self) -> *mut u8 {
        if self.len == 0 {
            std::ptr::null_mut()
        } else {
            self.words[MARGIN..].as_mut_ptr().cast()
        }
    }

    pub fn get(&self, i: usize) -> u64 {
        assert!(i < self.len);
        let (bit, mask) = self.place(i);
        self.words[MARGIN + bit / 64] >> (bit % 64) & mask
    }

    pub fn set(&mut self, i: usize, x: u64) {
        assert!(i < self.len);
        let (bit, mask) = self.place(i);
        let word = &mut self.words[MARGIN + bit / 64];
        *word = *word & !(mask << (bit % 64)) | (x & mask) << (bit % 64);
    }

    fn place(&self, i: usize) -> (usize, u64) {
        (i * self.width * 8, u64::MAX >> (64 - self.width * 8))
    }

    pub fn entries(&self) -> Vec<u64> {
        (0..self.len).map(|i| self.get(i)).collect()
    }
}

/// A link as it stands in a table. `open` is 1 in integer maps.
#[derive(Clone, Copy, PartialEq, Eq, Debug)]
pub struct Link {
    pub a: usize,
    pub b: usize,
    pub cost: u64,
    pub open: u64,
}

/// A lent map. `costs` is the slice of 32-bit costs, or those of the bits and of the open marks.
#[derive(Clone, PartialEq, Eq)]
pub struct Lent {
    pub bound: usize,
    pub count: usize,
    pub directed: u8,
    pub marks: Slice,
    pub from: Slice,
    pub to: Slice,
    pub costs: Vec<Slice>,
}

impl Lent {
    pub fn is_f64(&self) -> bool {
        self.costs.len() == 2
    }

    pub fn is_present(&self, i: usize) -> bool {
        i < self.bound && self.marks.get(i) != 0
    }

    /// The present indices in rising order.
    pub fn nodes(&self) -> Vec<usize> {
        (0..self.bound).filter(|&i| self.is_present(i)).collect()
    }

    pub fn link(&self, i: usize) -> Link {
        Link {
            a: self.from.get(i) as usize,
            b: self.to.get(i) as usize,
            cost: if self.is_f64() {
                self.costs[0].get(i)
            } else {
                self.costs[0].get(i) as i32 as i64 as u64
            },
            open: if self.is_f64() { self.costs[1].get(i) } else { 1 },
        }
    }

    pub fn links(&self) -> Vec<Link> {
        (0..self.count).map(|i| self.link(i)).collect()
    }
}

/// A question and what belongs to it.
#[derive(Clone)]
pub enum Ask {
    Dijkstra { source: usize },
    BellmanFord { source: usize },
    AStar { source: usize, target: usize, guess: Slice },
    FloydWarshall,
    Johnson,
    Hops,
    Page { source: usize, page: Slice },
    PathImpl { source: usize, cutoff: Option<f64> },
    PathF64 { source: usize, cutoff: Option<f64> },
    HopsF64,
}

/// The questions' names, in the order of `Ask::no`.
pub const NAMES: [&str; 10] = [
    "dijkstra",
    "bellman_ford",
    "a_star",
    "floyd_warshall",
    "johnson",
    "hops",
    "page",
    "dijkstra_path_impl",
    "dijkstra_path_f64",
    "hops_f64",
];

impl Ask {
    pub fn no(&self) -> usize {
        match self {
            Ask::Dijkstra { .. } => 0,
            Ask::BellmanFord { .. } => 1,
            Ask::AStar { .. } => 2,
            Ask::FloydWarshall => 3,
            Ask::Johnson => 4,
            Ask::Hops => 5,
            Ask::Page { .. } => 6,
            Ask::PathImpl { .. } => 7,
            Ask::PathF64 { .. } => 8,
            Ask::HopsF64 => 9,
        }
    }
}

/// What came back: the number, the values beside it (cost and length, count, yes), and every buffer, outputs first.
#[derive(Clone, PartialEq, Eq)]
pub struct Answer {
    pub number: usize,
    pub values: Vec<u64>,
    pub buffers: Vec<Slice>,
}

/// The answer proper: the number, the values, and the used part of each output.
#[derive(Clone, PartialEq, Eq, Debug)]
pub struct Outcome {
    pub number: usize,
    pub values: Vec<u64>,
    pub outputs: Vec<Vec<u64>>,
}
