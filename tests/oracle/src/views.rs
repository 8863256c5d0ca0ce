//! What is compared of the original's graphs, in its own terms.
use std::collections::BTreeMap;

use crate::sets::Set;
use crate::stand_ins::rolldown_utils::BitSet;

/// What is compared of a move graph, by sets: the original forgets none, so its nodes aren't the library's.
#[derive(Clone, Debug, PartialEq, Eq)]
pub struct MoveView {
    /// Every set that was ever registered, in that order.
    pub registered: Vec<Set>,
    pub place: Vec<Set>,
    /// The atoms of each occupied set.
    pub counts: BTreeMap<Set, u32>,
    /// (from, to, multiplicity), rising.
    pub edges: Vec<(Set, Set, u32)>,
    pub acyclic: bool,
    /// Rising; empty while acyclic: the original keeps an old component there.
    pub component: Vec<Set>,
}

/// The borrowed lists of an original move graph, as it wants them.
pub struct MoveLists {
    pub bits: Vec<BitSet>,
    pub dependencies: Vec<Vec<usize>>,
    pub hosts: Vec<Option<usize>>,
}

/// What is compared of a merge graph.
#[derive(Clone, Debug, PartialEq, Eq)]
pub struct MergeView {
    /// By chunk, rising.
    pub dependencies: Vec<Vec<u32>>,
    pub side_effects: Vec<bool>,
    pub needs_creation: Vec<bool>,
    /// By chunk, in the order of appending.
    pub modules: Vec<Vec<u32>>,
    /// Rising by set.
    pub sets: Vec<(Set, u32)>,
    pub module_chunk: Vec<Option<u32>>,
    /// By key below C.
    pub registered: Vec<Option<u32>>,
}
