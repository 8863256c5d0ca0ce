//! Trial moves and merge warnings over script chunks.
//!
//! Two graphs, both worked out by a library whose every function is proved:
//!
//! - [`MoveGraph`] holds atoms (groups of modules), each in a set of entry bits. Atoms with equal sets form a chunk. A
//!   move of an atom to another set is accepted exactly when the chunk graph then has no cycle.
//! - [`MergeGraph`] holds chunks with modules and dependencies. It warns of a merge exactly when the source depends
//!   directly on the target, or the two fused lie on a cycle with another chunk; chunks merged away are not followed,
//!   unless they stand for their target ([`Mode`]), where a direct dependency alone doesn't warn. It merges, and runs the
//!   pass that decides about each chunk that needs creation.
//!
//! [`Entries`] chooses the chunk that such a chunk may be merged into.
//!
//! No call on a graph panics on odd numbers: it answers, or gives a [`Refusal`] ([`RankError`] where two
//! graphs are ranked) and has changed nothing. Both types own
//! their work area, and borrow or own ([`MoveGraph::owning`], [`MergeGraph::owning`]) what is lent to every call; [`lent`] has
//! the same calls on areas that you lend, and [`raw`] the C interface.
//!
//! ```
//! use nidskalm::{EntrySet, Load, MoveGraph, NONE};
//!
//! // Atoms 1 and 2 depend on atom 0; no entry bit has a host.
//! let load = Load { starts: &[0, 0, 1, 2], dependencies: &[0, 0], hosts: &[NONE, NONE], fixed: &[0, 0, 0] };
//! let sets = [EntrySet::from(3), EntrySet::from(1), EntrySet::from(2)];
//! let mut graph = MoveGraph::new(load, 8, &sets)?;
//! assert!(graph.try_move(0, EntrySet::from(1))?.accepted);
//! assert_eq!(graph.atom_set(0)?, EntrySet::from(1));
//! assert_eq!(graph.edges()?.len(), 1);
//! assert_eq!(graph.try_move(3, EntrySet::from(1)).unwrap_err().row(), 10);
//! # Ok::<(), nidskalm::Refusal>(())
//! ```
#![warn(missing_docs)]

mod dot;
mod entries;
mod entry_set;
pub mod lent;
mod load;
mod merge_graph;
mod move_graph;
pub mod raw;
mod refusal;

pub use entries::Entries;
pub use entry_set::{Bits, EntrySet};
pub use load::{Load, OwnedLoad};
pub use merge_graph::{Assignment, ChunkIdx, InitialChunks, MergeGraph, Mode, ModuleIdx, Size};
pub use move_graph::{Chunk, Edge, Edges, Freedom, MoveGraph, Moved};
pub use refusal::{RankError, Refusal};

/// No host for an entry bit.
pub const NONE: u32 = u32::MAX;
