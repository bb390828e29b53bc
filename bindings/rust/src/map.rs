//! The two kinds of map, and their questions.

use crate::answers::{Distances, Entry, Matrix, Path, Reached};
use crate::native;
use crate::refusal::{NotRemoved, Refusal};
use crate::workspace::Workspace;

/// What the two kinds of map share: their indices, and the ends of their links. The first `count` entries of `from` and `to` are links, the
/// others room.
#[derive(Clone, Debug)]
struct Table {
    bound: usize,
    directed: bool,
    marks: Vec<u8>,
    present: usize,
    count: usize,
    from: Vec<u16>,
    to: Vec<u16>,
}

impl Table {
    /// All indices below the bound are present, and there are no links.
    fn new(bound: usize, directed: bool) -> Result<Table, Refusal> {
        if bound > Map::INDICES {
            return Err(Refusal::TooLarge);
        }
        Ok(Table {
            bound,
            directed,
            marks: vec![1; bound],
            present: bound,
            count: 0,
            from: Vec::new(),
            to: Vec::new(),
        })
    }

    fn is_present(&self, index: usize) -> bool {
        self.marks.get(index).is_some_and(|mark| *mark != 0)
    }

    fn remove(&mut self, index: usize) -> Result<(), NotRemoved> {
        if index >= self.bound {
            return Err(NotRemoved::OutOfBound);
        }
        let mut ends = self.from[..self.count].iter().chain(&self.to[..self.count]);
        if ends.any(|end| usize::from(*end) == index) {
            return Err(NotRemoved::HasLinks);
        }
        self.present -= usize::from(self.is_present(index));
        self.marks[index] = 0;
        Ok(())
    }

    /// How long the slices of the table should be, so that one more link has room where the limit allows it.
    fn room(&self) -> usize {
        if self.count < self.from.len() {
            self.from.len()
        } else {
            (2 * self.count).clamp(16, Map::LINKS)
        }
    }

    /// How many arcs the neighbour list has at most.
    fn arcs(&self) -> usize {
        if self.directed {
            self.count
        } else {
            2 * self.count
        }
    }

    /// The present indices in rising order.
    fn present(&self) -> impl Iterator<Item = usize> + '_ {
        (0..self.bound).filter(|v| self.marks[*v] != 0)
    }

    /// Makes the slices of the table longer where another link would not fit.
    fn make_room(&mut self) -> usize {
        let room = self.room();
        self.from.resize(room, 0);
        self.to.resize(room, 0);
        room
    }
}

/// The ends of a record. An index past 16 bits is past every bound.
fn ends(from: usize, to: usize) -> Result<(u16, u16), Refusal> {
    let a = u16::try_from(from).map_err(|_| Refusal::BadLink)?;
    let b = u16::try_from(to).map_err(|_| Refusal::BadLink)?;
    Ok((a, b))
}

/// The methods that both kinds of map have.
macro_rules! indices {
    () => {
        /// The bound: indices are below it.
        pub fn bound(&self) -> usize {
            self.table.bound
        }

        /// Is a link an arc in its own direction only?
        pub fn is_directed(&self) -> bool {
            self.table.directed
        }

        /// How many links the table has.
        pub fn len(&self) -> usize {
            self.table.count
        }

        /// Has the table no links?
        pub fn is_empty(&self) -> bool {
            self.table.count == 0
        }

        /// Has the map this index?
        pub fn is_present(&self, index: usize) -> bool {
            self.table.is_present(index)
        }

        /// The indices that the map has, in rising order.
        pub fn present(&self) -> impl Iterator<Item = usize> + '_ {
            self.table.present()
        }

        /// Makes an index absent. One that is absent already stays so. An index that a link names cannot be removed, since every question
        /// about the map would then be refused.
        pub fn remove(&mut self, index: usize) -> Result<(), NotRemoved> {
            self.table.remove(index)
        }
    };
}

/// A map whose links cost a whole number of 32 bits, below zero too.
///
/// ```
/// use dimetumble::{Map, Refusal, Workspace};
///
/// let mut map = Map::new(3, true)?;
/// map.put(0, 1, 5)?;
/// map.put(1, 2, -2)?;
/// map.put(0, 2, 4)?;
/// let mut work = Workspace::new();
/// assert!(map.bellman_ford(0, &mut work)?.iter().eq([Some(0), Some(5), Some(3)]));
/// # Ok::<(), Refusal>(())
/// ```
#[derive(Clone, Debug)]
pub struct Map {
    table: Table,
    costs: Vec<i32>,
}

impl Map {
    /// The most indices of a map of either kind.
    pub const INDICES: usize = 1024;

    /// The most links of a map of either kind.
    pub const LINKS: usize = 8192;

    /// A map without links whose indices are those below the bound. [`Refusal::TooLarge`] past [`Map::INDICES`].
    pub fn new(bound: usize, directed: bool) -> Result<Map, Refusal> {
        Ok(Map {
            table: Table::new(bound, directed)?,
            costs: Vec::new(),
        })
    }

    indices!();

    /// Puts a record: the link gets the cost if the table has it, and keeps its place; else it goes at the end. A link is an ordered pair in a
    /// directed map and an unordered pair in an undirected one.
    ///
    /// [`Refusal::BadLink`] where the map has not both ends, [`Refusal::Full`] for a new link past [`Map::LINKS`]; the table is then as it was.
    ///
    /// ```
    /// # use dimetumble::{Map, Refusal};
    /// let mut map = Map::new(2, false)?;
    /// map.put(1, 0, 7)?;
    /// map.put(0, 1, 4)?; // the same link: it is undirected
    /// assert!(map.links().eq([(1, 0, 4)]));
    /// # Ok::<(), Refusal>(())
    /// ```
    pub fn put(&mut self, from: usize, to: usize, cost: i32) -> Result<(), Refusal> {
        let (a, b) = ends(from, to)?;
        let room = self.table.make_room();
        self.costs.resize(room, 0);
        let t = &mut self.table;
        Refusal::of(native::put(
            t.bound,
            &mut t.count,
            t.directed.into(),
            &t.marks,
            &mut t.from,
            &mut t.to,
            &mut self.costs,
            a,
            b,
            cost,
        ))
    }

    /// The links in the order of the table: ends and cost.
    pub fn links(&self) -> impl ExactSizeIterator<Item = (usize, usize, i32)> + '_ {
        let t = &self.table;
        (0..t.count).map(move |k| (t.from[k].into(), t.to[k].into(), self.costs[k]))
    }

    /// The least totals from a source, of costs that are not below zero.
    ///
    /// [`Refusal::NoSource`], or [`Refusal::BadCost`] exactly when an arc below zero leaves an index in reach of the source.
    pub fn dijkstra<'w>(&self, source: usize, work: &'w mut Workspace) -> Result<Distances<'w>, Refusal> {
        let t = &self.table;
        work.fit_bag(t.bound, t.arcs());
        Refusal::of(native::dijkstra(
            t.bound,
            t.count,
            t.directed.into(),
            &t.marks,
            &t.from,
            &t.to,
            &self.costs,
            source,
            &mut work.dist,
            &mut work.offsets,
            &mut work.heads,
            &mut work.weights,
            &mut work.preds,
            &mut work.peaks,
            &mut work.words,
            &mut work.keys,
        ))?;
        Ok(Distances {
            entries: &work.dist[..t.bound],
        })
    }

    /// The least totals from a source, of signed costs. From a source that the map has not every distance is none.
    ///
    /// [`Refusal::NegativeLoop`] exactly when a closed walk below zero is in reach of the source.
    pub fn bellman_ford<'w>(&self, source: usize, work: &'w mut Workspace) -> Result<Distances<'w>, Refusal> {
        let t = &self.table;
        work.fit_queue(t.bound, t.arcs());
        Refusal::of(native::bellman_ford(
            t.bound,
            t.count,
            t.directed.into(),
            &t.marks,
            &t.from,
            &t.to,
            &self.costs,
            source,
            &mut work.dist,
            &mut work.offsets,
            &mut work.heads,
            &mut work.weights,
            &mut work.queue,
            &mut work.queued,
            &mut work.lengths,
        ))?;
        Ok(Distances {
            entries: &work.dist[..t.bound],
        })
    }

    /// A way from a source to a target by a heuristic, or none where the target is out of reach.
    ///
    /// The cost is the least total where the heuristic is 0 at the target and at no index more than the total of a walk from there to the
    /// target; a heuristic of 0 everywhere is such a one if no cost is below zero. With others a dearer way can come back:
    ///
    /// ```
    /// # use dimetumble::{Map, Refusal, Workspace};
    /// let mut map = Map::new(3, true)?;
    /// map.put(0, 2, 10)?;
    /// map.put(0, 1, 1)?;
    /// map.put(1, 2, 1)?;
    /// let mut work = Workspace::new();
    /// let fair = map.a_star(0, 2, |v| [0, 1, 0][v], &mut work)?.unwrap();
    /// assert_eq!(fair.cost(), 2);
    /// let unfair = map.a_star(0, 2, |v| [0, 1, -100][v], &mut work)?.unwrap();
    /// assert_eq!(unfair.cost(), 10);
    /// # Ok::<(), Refusal>(())
    /// ```
    ///
    /// Whatever the heuristic is, the search follows the pending bag: an index whose distance falls after it was taken is taken again. With a
    /// consistent heuristic (at no index more than the cost of an arc plus the heuristic at its head) that is known not to happen, though it
    /// is not proved here; with another one the takes can double with each index: 31 indices and 435 links took about 20 s, here
    /// (built by an older Rattle kit) and in graphina. Who takes heuristics from others should check them first, or limit the time around
    /// the call.
    ///
    /// [`Refusal::NoSource`], [`Refusal::NoTarget`], [`Refusal::BadHeuristic`], or [`Refusal::BadCost`] when an arc below zero is looked at. The
    /// heuristic is asked once for each present index.
    pub fn a_star<'w>(
        &self,
        source: usize,
        target: usize,
        heuristic: impl FnMut(usize) -> i64,
        work: &'w mut Workspace,
    ) -> Result<Option<Path<'w>>, Refusal> {
        let t = &self.table;
        work.fit_bag(t.bound, t.arcs());
        work.fit_given(t.bound);
        self.give(heuristic, work);
        let mut cost = i64::NONE;
        let mut length = 0;
        Refusal::of(native::a_star(
            t.bound,
            t.count,
            t.directed.into(),
            &t.marks,
            &t.from,
            &t.to,
            &self.costs,
            source,
            target,
            &work.given,
            &mut cost,
            &mut length,
            &mut work.path,
            &mut work.offsets,
            &mut work.heads,
            &mut work.weights,
            &mut work.dist,
            &mut work.preds,
            &mut work.peaks,
            &mut work.words,
            &mut work.keys,
        ))?;
        Ok(cost.shown().map(|cost| Path {
            cost,
            nodes: &work.path[..length],
        }))
    }

    /// The least totals between all pairs of present indices.
    ///
    /// [`Refusal::NegativeLoop`] exactly when a closed walk below zero is anywhere in the map, so for every undirected map with a cost below
    /// zero.
    pub fn floyd_warshall<'w>(&self, work: &'w mut Workspace) -> Result<Matrix<'w, i64>, Refusal> {
        let t = &self.table;
        work.fit_matrix(t.bound, t.present);
        Refusal::of(native::floyd_warshall(
            t.bound,
            t.count,
            t.directed.into(),
            &t.marks,
            &t.from,
            &t.to,
            &self.costs,
            &mut work.matrix,
            &mut work.ranks,
        ))?;
        Ok(self.matrix(work))
    }

    /// The same answer as [`floyd_warshall`](Map::floyd_warshall), by one search from each index: faster where links are few.
    pub fn johnson<'w>(&self, work: &'w mut Workspace) -> Result<Matrix<'w, i64>, Refusal> {
        let t = &self.table;
        work.fit_bag(t.bound, t.arcs());
        work.fit_matrix(t.bound, t.present);
        Refusal::of(native::johnson(
            t.bound,
            t.count,
            t.directed.into(),
            &t.marks,
            &t.from,
            &t.to,
            &self.costs,
            &mut work.matrix,
            &mut work.offsets,
            &mut work.heads,
            &mut work.weights,
            &mut work.heights,
            &mut work.dist,
            &mut work.preds,
            &mut work.peaks,
            &mut work.words,
            &mut work.keys,
        ))?;
        Ok(self.matrix(work))
    }

    /// The least numbers of arcs between all pairs of present indices, whatever the costs. A map that puts made is never refused.
    #[doc(alias = "all_pairs_shortest_path_length")]
    pub fn hops<'w>(&self, work: &'w mut Workspace) -> Result<Matrix<'w, u32>, Refusal> {
        let t = &self.table;
        work.fit_hops(t.bound, t.arcs(), t.present);
        let mut listed = 0;
        Refusal::of(native::hops(
            t.bound,
            t.count,
            t.directed.into(),
            &t.marks,
            &t.from,
            &t.to,
            &self.costs,
            &mut listed,
            &mut work.nodes,
            &mut work.hops,
            &mut work.offsets,
            &mut work.heads,
            &mut work.labels,
            &mut work.queue,
        ))?;
        Ok(counted(listed, work))
    }

    /// Are these the distances that the arcs allow? Yes exactly when the source has 0, no arc leads from an index with a distance to one with
    /// none or with more than distance plus cost, each other index with a distance has an arc into it, from an index with a distance, that
    /// meets it exactly, and every distance is within -2^42 ..= 2^42. What [`bellman_ford`](Map::bellman_ford) gives from a source that the map
    /// has gets a yes.
    ///
    /// The rule is local, and a yes does not say that the distances are the least totals: around a loop that totals 0 they can meet each
    /// other without a walk from the source.
    ///
    /// [`Refusal::NoSource`]. The page is asked once for each index below the bound; an absent index must have none.
    ///
    /// ```
    /// # use dimetumble::{Map, Refusal, Workspace};
    /// let mut map = Map::new(3, true)?;
    /// map.put(0, 1, 5)?;
    /// let mut work = Workspace::new();
    /// assert!(map.page(0, |v| [Some(0), Some(5), None][v], &mut work)?);
    /// assert!(!map.page(0, |v| [Some(0), Some(4), None][v], &mut work)?);
    ///
    /// let mut looped = Map::new(3, true)?;
    /// looped.put(1, 2, 0)?;
    /// looped.put(2, 1, 0)?;
    /// assert!(looped.page(0, |v| [Some(0), Some(7), Some(7)][v], &mut work)?);
    /// # Ok::<(), Refusal>(())
    /// ```
    pub fn page(&self, source: usize, mut page: impl FnMut(usize) -> Option<i64>, work: &mut Workspace) -> Result<bool, Refusal> {
        let t = &self.table;
        work.fit_given(t.bound);
        for v in 0..t.bound {
            // a distance of -2^63 is far out of range, and so is its neighbour, which does not stand for none
            work.given[v] = page(v).map_or(i64::NONE, |d| d.max(-i64::MAX));
        }
        let mut yes = 0;
        Refusal::of(native::page(
            t.bound,
            t.count,
            t.directed.into(),
            &t.marks,
            &t.from,
            &t.to,
            &self.costs,
            source,
            &work.given,
            &mut yes,
        ))?;
        Ok(yes != 0)
    }

    /// The heuristic of each present index. Those of absent ones are not looked at.
    fn give(&self, mut heuristic: impl FnMut(usize) -> i64, work: &mut Workspace) {
        for v in self.present() {
            work.given[v] = heuristic(v);
        }
    }

    /// The matrix that a question left.
    fn matrix<'w>(&self, work: &'w mut Workspace) -> Matrix<'w, i64> {
        let p = self.table.present;
        work.nodes.clear();
        work.nodes.extend(self.present().map(|v| v as u32));
        Matrix {
            nodes: &work.nodes,
            entries: &work.matrix[..p * p],
        }
    }
}

/// The hops that a question left.
fn counted(listed: usize, work: &Workspace) -> Matrix<'_, u32> {
    Matrix {
        nodes: &work.nodes[..listed],
        entries: &work.hops[..listed * listed],
    }
}

/// A map whose links cost an `f64`, and are open or closed.
///
/// ```
/// use dimetumble::{MapF64, Refusal, Workspace};
///
/// let mut map = MapF64::new(3, true)?;
/// map.put(0, 1, 0.5, true)?;
/// map.put(1, 2, 1.5, true)?;
/// map.put(0, 2, 1.0, false)?; // closed: passed over
/// let mut work = Workspace::new();
/// let all = map.dijkstra_path_f64(0, None, &mut work)?;
/// assert_eq!(all.distance(2), Some(2.0));
/// assert_eq!(all.predecessor(2), Some(1));
///
/// // a total equal to the cutoff is kept
/// assert_eq!(map.dijkstra_path_f64(0, Some(2.0), &mut work)?.distance(2), Some(2.0));
/// assert_eq!(map.dijkstra_path_f64(0, Some(1.9), &mut work)?.distance(2), None);
/// # Ok::<(), Refusal>(())
/// ```
#[derive(Clone, Debug)]
pub struct MapF64 {
    table: Table,
    bits: Vec<u64>,
    opens: Vec<u8>,
}

/// One of the two C functions of the `f64` search, which have the same parameters.
macro_rules! search_f64 {
    ($(#[$said:meta])* $name:ident) => {
        $(#[$said])*
        pub fn $name<'w>(&self, source: usize, cutoff: Option<f64>, work: &'w mut Workspace) -> Result<Reached<'w>, Refusal> {
            let t = &self.table;
            work.fit_bag64(t.bound, t.arcs());
            Refusal::of(native::$name(
                t.bound,
                t.count,
                t.directed.into(),
                &t.marks,
                &t.from,
                &t.to,
                &self.bits,
                &self.opens,
                source,
                cutoff.is_some().into(),
                cutoff.unwrap_or(0.0),
                &mut work.dist64,
                &mut work.preds,
                &mut work.offsets,
                &mut work.heads,
                &mut work.patterns,
                &mut work.peaks,
                &mut work.words,
                &mut work.keys64,
            ))?;
            Ok(Reached {
                dist: &work.dist64[..t.bound],
                preds: &work.preds[..t.bound],
            })
        }
    };
}

impl MapF64 {
    /// A map without links whose indices are those below the bound. [`Refusal::TooLarge`] past [`Map::INDICES`].
    pub fn new(bound: usize, directed: bool) -> Result<MapF64, Refusal> {
        Ok(MapF64 {
            table: Table::new(bound, directed)?,
            bits: Vec::new(),
            opens: Vec::new(),
        })
    }

    indices!();

    /// Puts a record: the link gets the cost and is opened or closed if the table has it, and keeps its place; else it goes at the end. Every
    /// cost is taken; a bad one is refused by the search that meets it, and only while its link is open.
    ///
    /// [`Refusal::BadLink`] where the map has not both ends, [`Refusal::Full`] for a new link past [`Map::LINKS`]; the table is then as it was.
    pub fn put(&mut self, from: usize, to: usize, cost: f64, open: bool) -> Result<(), Refusal> {
        let (a, b) = ends(from, to)?;
        let room = self.table.make_room();
        self.bits.resize(room, 0);
        self.opens.resize(room, 0);
        let t = &mut self.table;
        Refusal::of(native::put_f64(
            t.bound,
            &mut t.count,
            t.directed.into(),
            &t.marks,
            &mut t.from,
            &mut t.to,
            &mut self.bits,
            &mut self.opens,
            a,
            b,
            cost.to_bits(),
            open.into(),
        ))
    }

    /// The links in the order of the table: ends, cost, and whether it is open.
    pub fn links(&self) -> impl ExactSizeIterator<Item = (usize, usize, f64, bool)> + '_ {
        let t = &self.table;
        (0..t.count).map(move |k| (t.from[k].into(), t.to[k].into(), f64::from_bits(self.bits[k]), self.opens[k] != 0))
    }

    search_f64! {
        /// Distances and predecessors from a source over the open arcs, up to a cutoff: totals above it are not stored. A NaN never cuts, and
        /// one below zero keeps the source alone. Of equal totals the first that the search stores keeps its predecessor.
        ///
        /// [`Refusal::NoSource`], or [`Refusal::BadCost`] when an open arc that is looked at has its sign bit set (-0.0 too) or is a NaN.
        dijkstra_path_f64
    }

    search_f64! {
        /// The same as [`dijkstra_path_f64`](MapF64::dijkstra_path_f64): the Rust that it was carried over from has both, and the open marks
        /// stand for the closure that this one was given.
        dijkstra_path_impl
    }

    /// The least numbers of arcs between all pairs of present indices. Closed links count, and costs do not matter. A map
    /// that puts made is never refused.
    #[doc(alias = "all_pairs_shortest_path_length")]
    pub fn hops<'w>(&self, work: &'w mut Workspace) -> Result<Matrix<'w, u32>, Refusal> {
        let t = &self.table;
        work.fit_hops(t.bound, t.arcs(), t.present);
        let mut listed = 0;
        Refusal::of(native::hops_f64(
            t.bound,
            t.count,
            t.directed.into(),
            &t.marks,
            &t.from,
            &t.to,
            &self.bits,
            &self.opens,
            &mut listed,
            &mut work.nodes,
            &mut work.hops,
            &mut work.offsets,
            &mut work.heads,
            &mut work.labels,
            &mut work.queue,
        ))?;
        Ok(counted(listed, work))
    }
}
