//! What questions give: views of a workspace.

use std::fmt::Debug;

mod sealed {
    pub trait Sealed {}
    impl Sealed for i64 {}
    impl Sealed for u32 {}
}

/// What an entry of an answer can be: a total (`i64`) or a number of arcs (`u32`).
pub trait Entry: Copy + Debug + sealed::Sealed {
    /// The entry that stands for no walk.
    #[doc(hidden)]
    const NONE: Self;

    /// The same, as an option.
    #[doc(hidden)]
    fn shown(self) -> Option<Self>;
}

impl Entry for i64 {
    const NONE: i64 = i64::MIN;

    fn shown(self) -> Option<i64> {
        (self != Self::NONE).then_some(self)
    }
}

impl Entry for u32 {
    const NONE: u32 = u32::MAX;

    fn shown(self) -> Option<u32> {
        (self != Self::NONE).then_some(self)
    }
}

/// The least totals from a source.
#[derive(Clone, Copy, Debug)]
pub struct Distances<'a> {
    pub(crate) entries: &'a [i64],
}

impl<'a> Distances<'a> {
    /// The least total of a walk to an index, or none without a walk. An index that the map has not has none.
    pub fn get(&self, index: usize) -> Option<i64> {
        self.entries.get(index)?.shown()
    }

    /// That of each index below the bound, in rising order.
    pub fn iter(&self) -> impl ExactSizeIterator<Item = Option<i64>> + 'a {
        self.entries.iter().map(|d| d.shown())
    }
}

/// Distances and predecessors of an `f64` map.
#[derive(Clone, Copy, Debug)]
pub struct Reached<'a> {
    pub(crate) dist: &'a [f64],
    pub(crate) preds: &'a [u32],
}

impl<'a> Reached<'a> {
    /// The distance of an index: at least 0, perhaps infinite, never a NaN and never -0.0. None where the search did not come.
    pub fn distance(&self, index: usize) -> Option<f64> {
        self.dist.get(index).copied().filter(|d| *d >= 0.0)
    }

    /// The index before it on the way from the source. The source has none.
    pub fn predecessor(&self, index: usize) -> Option<usize> {
        self.preds.get(index)?.shown().map(|u| u as usize)
    }

    /// Distance and predecessor of each index below the bound, in rising order.
    pub fn iter(&self) -> impl ExactSizeIterator<Item = (Option<f64>, Option<usize>)> + 'a {
        let all = *self;
        (0..all.dist.len()).map(move |v| (all.distance(v), all.predecessor(v)))
    }
}

/// A way from a source to a target.
#[derive(Clone, Copy, Debug)]
pub struct Path<'a> {
    pub(crate) cost: i64,
    pub(crate) nodes: &'a [u32],
}

impl<'a> Path<'a> {
    /// What it costs.
    pub fn cost(&self) -> i64 {
        self.cost
    }

    /// The indices on it, source first and target last.
    pub fn nodes(&self) -> impl ExactSizeIterator<Item = usize> + DoubleEndedIterator + 'a {
        self.nodes.iter().map(|v| *v as usize)
    }
}

/// What holds between all pairs of present indices.
#[derive(Clone, Copy, Debug)]
pub struct Matrix<'a, T: Entry> {
    pub(crate) nodes: &'a [u32],
    pub(crate) entries: &'a [T],
}

impl<'a, T: Entry> Matrix<'a, T> {
    /// The present indices in rising order: those of the rows, and of the columns.
    pub fn nodes(&self) -> impl ExactSizeIterator<Item = usize> + DoubleEndedIterator + 'a {
        self.nodes.iter().map(|v| *v as usize)
    }

    /// The row of an index that the map has.
    fn place(&self, index: usize) -> Option<usize> {
        let index = u32::try_from(index).ok()?;
        self.nodes.binary_search(&index).ok()
    }

    /// The entry from one index to another, or none without a walk. An index that the map has not has no walks.
    pub fn get(&self, from: usize, to: usize) -> Option<T> {
        let i = self.place(from)?;
        let j = self.place(to)?;
        self.entries[i * self.nodes.len() + j].shown()
    }

    /// The entries from one index to each of [`nodes`](Matrix::nodes), if the map has that index.
    pub fn row(&self, from: usize) -> Option<impl ExactSizeIterator<Item = Option<T>> + 'a> {
        let i = self.place(from)?;
        let p = self.nodes.len();
        Some(self.entries[i * p..(i + 1) * p].iter().map(|e| e.shown()))
    }
}
