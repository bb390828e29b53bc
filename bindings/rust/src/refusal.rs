//! Why there is no answer.

use std::error::Error;
use std::fmt;

/// Why a put or a question gave no answer.
///
/// ```
/// use dimetumble::{Map, Refusal};
///
/// let mut map = Map::new(2, true)?;
/// let refusal = map.put(0, 2, 5).unwrap_err();
/// assert_eq!(refusal, Refusal::BadLink);
/// assert_eq!(refusal.number(), 2);
/// # Ok::<(), Refusal>(())
/// ```
#[derive(Clone, Copy, Debug, PartialEq, Eq, Hash)]
pub enum Refusal {
    /// 1: more than [`Map::INDICES`](crate::Map::INDICES) indices. Only the constructors give it: the slices that a question is lent are always
    /// long enough here.
    TooLarge,
    /// 2: a record names an index that the map has not.
    BadLink,
    /// 3: the source is an index that the map has not.
    NoSource,
    /// 4: the target is an index that the map has not.
    NoTarget,
    /// 5: a present index has a heuristic outside -2^42 ..= 2^42.
    BadHeuristic,
    /// 6: a bad cost was met: one below zero, or for `f64` costs one with its sign bit set (-0.0 too) or a NaN.
    BadCost,
    /// 7: a closed walk totals below zero.
    NegativeLoop,
    /// 8: the table has [`Map::LINKS`](crate::Map::LINKS) links, and the record names a new one.
    Full,
}

impl Refusal {
    /// The number that the contracts use.
    pub fn number(self) -> usize {
        match self {
            Refusal::TooLarge => 1,
            Refusal::BadLink => 2,
            Refusal::NoSource => 3,
            Refusal::NoTarget => 4,
            Refusal::BadHeuristic => 5,
            Refusal::BadCost => 6,
            Refusal::NegativeLoop => 7,
            Refusal::Full => 8,
        }
    }

    /// The refusal of a number that came back; 0 is none.
    pub(crate) fn of(number: usize) -> Result<(), Refusal> {
        Err(match number {
            0 => return Ok(()),
            1 => Refusal::TooLarge,
            2 => Refusal::BadLink,
            3 => Refusal::NoSource,
            4 => Refusal::NoTarget,
            5 => Refusal::BadHeuristic,
            6 => Refusal::BadCost,
            7 => Refusal::NegativeLoop,
            8 => Refusal::Full,
            _ => unreachable!("the contracts name no other number"),
        })
    }
}

impl fmt::Display for Refusal {
    fn fmt(&self, f: &mut fmt::Formatter<'_>) -> fmt::Result {
        f.write_str(match self {
            Refusal::TooLarge => "a limit of the map is passed",
            Refusal::BadLink => "a link names an index that the map has not",
            Refusal::NoSource => "the map has no such source",
            Refusal::NoTarget => "the map has no such target",
            Refusal::BadHeuristic => "a heuristic is out of range",
            Refusal::BadCost => "a bad cost was met",
            Refusal::NegativeLoop => "costs loop below zero",
            Refusal::Full => "the table has no room for a new link",
        })
    }
}

impl Error for Refusal {}

/// Why an index was not removed.
#[derive(Clone, Copy, Debug, PartialEq, Eq, Hash)]
pub enum NotRemoved {
    /// The index is at or above the bound.
    OutOfBound,
    /// A link names it. Without the index no question about the map would have an answer, and links do not leave a table.
    HasLinks,
}

impl fmt::Display for NotRemoved {
    fn fmt(&self, f: &mut fmt::Formatter<'_>) -> fmt::Result {
        f.write_str(match self {
            NotRemoved::OutOfBound => "the index is at or above the bound",
            NotRemoved::HasLinks => "a link names the index",
        })
    }
}

impl Error for NotRemoved {}
