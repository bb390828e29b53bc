//! graphina and petgraph as contenders: the interface of ../contender.h in Rust, once for both.
mod graphina;
mod petgraph;

use std::ffi::c_void;

/// The questions that a Rust library here can have, in contender.h's order.
#[repr(C)]
#[derive(Clone, Copy, PartialEq)]
#[allow(dead_code)] // the driver, not this crate, makes them
pub enum Question {
    Dijkstra,
    AStar,
    F64,
    F64Cutoff,
    BellmanFord,
    FloydWarshall,
    Johnson,
    Hops,
    Page,
    PutAgain,
    PutNew,
}

/// How a call ended; a refusal shows here as a panic.
#[repr(C)]
pub enum Outcome {
    Lacked,
    Answered,
}

#[repr(C)]
pub struct Map {
    bound: usize,
    count: usize,
    directed: i32,
    from: *const u16,
    to: *const u16,
    costs: *const i32,
    lengths: *const f64,
}

#[repr(C)]
pub struct Query {
    question: Question,
    source: usize,
    target: usize,
    link: usize,
    guess: *const i64,
    cutoff: f64,
    page: *const i64,
}

#[repr(C)]
pub struct Answer {
    cost: i64,
    whole: *mut i64,
    real: *mut f64,
    nodes: *mut u32,
    length: usize,
}

#[repr(C)]
pub struct Contender {
    build: extern "C" fn(&Map) -> *mut c_void,
    ask: extern "C" fn(*mut c_void, &Query) -> Outcome,
    tell: extern "C" fn(*mut c_void, &Query, &mut Answer),
    drop: extern "C" fn(*mut c_void),
}

/// A library's graph of one map, with the last answer in the library's own form.
pub trait Rival {
    /// Answers and keeps the answer; false if the library has no such question.
    fn ask(&mut self, query: &Query) -> bool;
    /// Hands the answer over and frees it.
    fn tell(&mut self, query: &Query, answer: &mut Answer);
}

impl Map {
    /// Each link as (from, to, whole cost, f64 cost).
    pub fn links(&self) -> impl Iterator<Item = (usize, usize, i64, f64)> + '_ {
        // SAFETY: the driver lends four arrays of `count` entries for the time of the call.
        (0..self.count).map(|i| unsafe {
            (
                *self.from.add(i) as usize,
                *self.to.add(i) as usize,
                *self.costs.add(i) as i64,
                *self.lengths.add(i),
            )
        })
    }
}

impl Query {
    /// A*'s heuristic at an index.
    pub fn guess(&self, index: usize) -> i64 {
        // SAFETY: the driver lends one entry per index of the map.
        unsafe { *self.guess.add(index) }
    }
}

impl Answer {
    /// Room for n whole numbers (distances, or a matrix), blanked.
    pub fn whole(&mut self, n: usize) -> &mut [i64] {
        // SAFETY: the driver lends room for a matrix.
        let all = unsafe { std::slice::from_raw_parts_mut(self.whole, n) };
        all.fill(i64::MIN);
        all
    }

    /// Room for n f64 distances and n nodes, blanked.
    pub fn real(&mut self, n: usize) -> (&mut [f64], &mut [u32]) {
        // SAFETY: the driver lends room for one entry per index.
        let all = unsafe {
            (
                std::slice::from_raw_parts_mut(self.real, n),
                std::slice::from_raw_parts_mut(self.nodes, n),
            )
        };
        all.0.fill(-1.0);
        all.1.fill(u32::MAX);
        all
    }

    /// A path and its cost, or none.
    pub fn path(&mut self, path: Option<(i64, Vec<usize>)>) {
        let (cost, nodes) = path.unwrap_or((i64::MIN, vec![]));
        self.cost = cost;
        self.length = nodes.len();
        for (i, node) in nodes.iter().enumerate() {
            // SAFETY: a path has at most one node per index, and there is room for that.
            unsafe { *self.nodes.add(i) = *node as u32 };
        }
    }
}

/// What the driver holds a pointer to.
type Boxed = Box<dyn Rival>;

/// Hands a graph to the driver.
fn boxed(rival: Boxed) -> *mut c_void {
    Box::into_raw(Box::new(rival)) as *mut c_void
}

/// The graph behind the driver's pointer.
fn rival<'a>(graph: *mut c_void) -> &'a mut Boxed {
    // SAFETY: the driver passes what `build` gave, to one call at a time, before `drop`.
    unsafe { &mut *(graph as *mut Boxed) }
}

/// `ask` of contender.h, for both libraries.
extern "C" fn ask(graph: *mut c_void, query: &Query) -> Outcome {
    if rival(graph).ask(query) {
        Outcome::Answered
    } else {
        Outcome::Lacked
    }
}

/// `tell` of contender.h, for both libraries.
extern "C" fn tell(graph: *mut c_void, query: &Query, answer: &mut Answer) {
    rival(graph).tell(query, answer)
}

/// `drop` of contender.h, for both libraries.
extern "C" fn drop_rival(graph: *mut c_void) {
    // SAFETY: as above; the driver calls this once.
    drop(unsafe { Box::from_raw(graph as *mut Boxed) })
}

/// `build` of contender.h, for graphina.
extern "C" fn build_graphina(map: &Map) -> *mut c_void {
    boxed(graphina::build(map))
}

/// `build` of contender.h, for petgraph.
extern "C" fn build_petgraph(map: &Map) -> *mut c_void {
    boxed(petgraph::build(map))
}

#[no_mangle]
#[allow(non_upper_case_globals)]
pub static graphina_contender: Contender = Contender {
    build: build_graphina,
    ask,
    tell,
    drop: drop_rival,
};

#[no_mangle]
#[allow(non_upper_case_globals)]
pub static petgraph_contender: Contender = Contender {
    build: build_petgraph,
    ask,
    tell,
    drop: drop_rival,
};
