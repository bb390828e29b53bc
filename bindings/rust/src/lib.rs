//! Cheapest paths over a table of carrier links, with every function proved to meet its contract.
//!
//! A [`Map`] owns a table of links with whole-number costs, a [`MapF64`] one with `f64` costs that can be open or closed. Each question is a
//! method. It gives an answer, or a [`Refusal`] with the number that the contract names.
//!
//! ```
//! use dimetumble::{Map, Refusal, Workspace};
//!
//! // a provider (0), three carriers (1, 2, 3) and a customer (4)
//! let mut map = Map::new(5, true)?;
//! map.put(0, 1, 4)?;
//! map.put(0, 2, 7)?;
//! map.put(0, 3, 9)?;
//! map.put(1, 4, 6)?;
//! map.put(2, 4, 1)?;
//! map.put(3, 4, 3)?;
//!
//! let mut work = Workspace::new();
//! assert_eq!(map.dijkstra(0, &mut work)?.get(4), Some(8));
//!
//! // a link that is sent again replaces its cost
//! map.put(0, 1, 1)?;
//! assert_eq!(map.len(), 6);
//! let path = map.a_star(0, 4, |_| 0, &mut work)?.expect("there is a way");
//! assert_eq!(path.cost(), 7);
//! assert!(path.nodes().eq([0, 1, 4]));
//!
//! // a peering credit: a cost below zero is a question for bellman_ford
//! map.put(3, 4, -5)?;
//! assert_eq!(map.dijkstra(0, &mut work).err(), Some(Refusal::BadCost));
//! assert_eq!(map.bellman_ford(0, &mut work)?.get(4), Some(4));
//!
//! // and where credits loop below zero, that is said
//! map.put(4, 3, 2)?;
//! assert_eq!(map.bellman_ford(0, &mut work).err(), Some(Refusal::NegativeLoop));
//! # Ok::<(), Refusal>(())
//! ```
//!
//! # What is proved, and what is not
//!
//! The functions that answer are proved: what they give, for every input, and that they end and stay inside the memory they are lent. This
//! crate hands them its tables and reads their answers. It is ordinary Rust, tested and not proved, and all that is unsafe in it is one block in
//! one module.
//!
//! # Where the memory is
//!
//! A question takes a [`Workspace`] for its answer and its scratch, and the answer is a view of it. So nothing is allocated once the workspace
//! has grown to the largest map asked about, a map is only read by its questions, and threads can ask about one map with a workspace each.
#![deny(unsafe_code, missing_docs)]

mod answers;
mod map;
mod native;
mod refusal;
mod workspace;

pub use answers::{Distances, Entry, Matrix, Path, Reached};
pub use map::{Map, MapF64};
pub use refusal::{NotRemoved, Refusal};
pub use workspace::Workspace;
