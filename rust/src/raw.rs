//! The C interface as it stands: lent areas, pointers and lengths. `include/nidskalm.h` says the same for C.
//!
//! Every list is a pointer and the count of its numbers, and a call writes only into its `*mut` lists: areas, the
//! pass's answers and the start order's list. Each pointer must be valid for that many numbers during the call (any pointer for 0), and a `*mut`
//! list must not overlap any other list. Any numbers whatsoever get an answer or a refusal, and a refusal writes
//! nothing.

/// A refusal's row (0: not refused) and a value (0 where refused).
#[repr(C)]
#[derive(Clone, Copy, Debug, Default, PartialEq, Eq)]
pub struct Reply {
    /// 0, or the number of the row that refused the call.
    pub refusal: u64,
    /// The answer; each call says what it means.
    pub value: u64,
}

/// A refusal's row and what a move came to; zeros where it is refused.
#[repr(C)]
#[derive(Clone, Copy, Debug, Default, PartialEq, Eq)]
pub struct MoveReply {
    /// 0, or the number of the row that refused the call.
    pub refusal: u64,
    /// 1 accepted, 0 rejected.
    pub accepted: u64,
    /// How many distinct edges an accepted move has made that weren't there before; 0 where it is rejected.
    pub appeared: u64,
    /// How many distinct edges an accepted move has taken off; 0 where it is rejected.
    pub vanished: u64,
    /// How many other chunks the atom's chunk reaches after an accepted move; 0 where it is rejected.
    pub reached: u64,
}

/// A refusal's row and the three counts of a plan's freedom; zeros where it is refused.
#[repr(C)]
#[derive(Clone, Copy, Debug, Default, PartialEq, Eq)]
pub struct FreedomReply {
    /// 0, or the number of the row that refused the call.
    pub refusal: u64,
    /// Pairs of an atom and an occupied set other than its own whose move would be accepted.
    pub accepted: u64,
    /// Pairs whose move would be rejected.
    pub rejected: u64,
    /// Pairs of a fixed atom.
    pub fixed: u64,
}

/// A refusal's row and a set, bit 0 lowest in `set0`.
#[repr(C)]
#[derive(Clone, Copy, Debug, Default, PartialEq, Eq)]
pub struct SetReply {
    /// 0, or the number of the row that refused the call.
    pub refusal: u64,
    /// Bits 0 to 63 of the set.
    pub set0: u64,
    /// Bits 64 to 127 of the set.
    pub set1: u64,
    /// Bits 128 to 191 of the set.
    pub set2: u64,
    /// Bits 192 to 255 of the set.
    pub set3: u64,
}

/// A refusal's row and an edge; `found` is 0 past the last edge.
#[repr(C)]
#[derive(Clone, Copy, Debug, Default, PartialEq, Eq)]
pub struct EdgeReply {
    /// 0, or the number of the row that refused the call.
    pub refusal: u64,
    /// 1, or 0 past the last edge.
    pub found: u64,
    /// Bits 0 to 63 of the source set.
    pub from0: u64,
    /// Bits 64 to 127 of the source set.
    pub from1: u64,
    /// Bits 128 to 191 of the source set.
    pub from2: u64,
    /// Bits 192 to 255 of the source set.
    pub from3: u64,
    /// Bits 0 to 63 of the target set.
    pub to0: u64,
    /// Bits 64 to 127 of the target set.
    pub to1: u64,
    /// Bits 128 to 191 of the target set.
    pub to2: u64,
    /// Bits 192 to 255 of the target set.
    pub to3: u64,
    /// Dependencies and facade edges behind the edge.
    pub multiplicity: u64,
}

#[rustfmt::skip]
unsafe extern "C" {
    /// Loads a move graph; value 0 acyclic, 1 cyclic.
    pub fn nidskalm_reduced_chunk_graph_new(a: u64, d: u64, e: u64, n: u64, starts: *const u32, starts_length: usize, dependencies: *const u32, dependencies_length: usize, hosts: *const u32, hosts_length: usize, fixed: *const u32, fixed_length: usize, sets: *const u64, sets_length: usize, area: *mut u32, area_length: usize) -> Reply;
    /// Tries a move.
    pub fn nidskalm_reduced_chunk_graph_try_move(a: u64, d: u64, e: u64, n: u64, starts: *const u32, starts_length: usize, dependencies: *const u32, dependencies_length: usize, hosts: *const u32, hosts_length: usize, fixed: *const u32, fixed_length: usize, area: *mut u32, area_length: usize, atom: u32, bits: *const u64, bits_length: usize) -> MoveReply;
    /// An atom's set.
    pub fn nidskalm_reduced_chunk_graph_atom_set(a: u64, d: u64, e: u64, n: u64, starts: *const u32, starts_length: usize, dependencies: *const u32, dependencies_length: usize, hosts: *const u32, hosts_length: usize, fixed: *const u32, fixed_length: usize, area: *const u32, area_length: usize, atom: u32) -> SetReply;
    /// The number of atoms in a set.
    pub fn nidskalm_reduced_chunk_graph_atom_count(a: u64, d: u64, e: u64, n: u64, starts: *const u32, starts_length: usize, dependencies: *const u32, dependencies_length: usize, hosts: *const u32, hosts_length: usize, fixed: *const u32, fixed_length: usize, area: *const u32, area_length: usize, bits: *const u64, bits_length: usize) -> Reply;
    /// An edge's multiplicity.
    pub fn nidskalm_reduced_chunk_graph_multiplicity(a: u64, d: u64, e: u64, n: u64, starts: *const u32, starts_length: usize, dependencies: *const u32, dependencies_length: usize, hosts: *const u32, hosts_length: usize, fixed: *const u32, fixed_length: usize, area: *const u32, area_length: usize, from: *const u64, from_length: usize, to: *const u64, to_length: usize) -> Reply;
    /// The number of distinct edges.
    pub fn nidskalm_reduced_chunk_graph_edge_count(a: u64, d: u64, e: u64, n: u64, starts: *const u32, starts_length: usize, dependencies: *const u32, dependencies_length: usize, hosts: *const u32, hosts_length: usize, fixed: *const u32, fixed_length: usize, area: *const u32, area_length: usize) -> Reply;
    /// The number of chunks: sets that have an atom.
    pub fn nidskalm_reduced_chunk_graph_chunk_count(a: u64, d: u64, e: u64, n: u64, starts: *const u32, starts_length: usize, dependencies: *const u32, dependencies_length: usize, hosts: *const u32, hosts_length: usize, fixed: *const u32, fixed_length: usize, area: *const u32, area_length: usize) -> Reply;
    /// How free the plan is.
    pub fn nidskalm_reduced_chunk_graph_freedom(a: u64, d: u64, e: u64, n: u64, starts: *const u32, starts_length: usize, dependencies: *const u32, dependencies_length: usize, hosts: *const u32, hosts_length: usize, fixed: *const u32, fixed_length: usize, area: *const u32, area_length: usize) -> FreedomReply;
    /// The k-th edge, from 0, by rising source set, then target set.
    pub fn nidskalm_reduced_chunk_graph_edge_at(a: u64, d: u64, e: u64, n: u64, starts: *const u32, starts_length: usize, dependencies: *const u32, dependencies_length: usize, hosts: *const u32, hosts_length: usize, fixed: *const u32, fixed_length: usize, area: *const u32, area_length: usize, k: u64) -> EdgeReply;
    /// Ranks two areas of one load; value 0 before, 1 equal, 2 after.
    pub fn nidskalm_reduced_chunk_graph_rank(a: u64, d: u64, e: u64, n: u64, starts: *const u32, starts_length: usize, dependencies: *const u32, dependencies_length: usize, hosts: *const u32, hosts_length: usize, fixed: *const u32, fixed_length: usize, first: *const u32, first_length: usize, second: *const u32, second_length: usize) -> Reply;
    /// Whether there is a cycle, by the book's search; value 0 acyclic, 1 cyclic.
    pub fn nidskalm_reduced_chunk_graph_has_cycle(a: u64, d: u64, e: u64, n: u64, starts: *const u32, starts_length: usize, dependencies: *const u32, dependencies_length: usize, hosts: *const u32, hosts_length: usize, fixed: *const u32, fixed_length: usize, area: *const u32, area_length: usize) -> Reply;
    /// The chunks to fetch for an entry bit, in their order.
    pub fn nidskalm_reduced_chunk_graph_start_order(a: u64, d: u64, e: u64, n: u64, starts: *const u32, starts_length: usize, dependencies: *const u32, dependencies_length: usize, hosts: *const u32, hosts_length: usize, fixed: *const u32, fixed_length: usize, area: *const u32, area_length: usize, bit: u64, chunks: *mut u32, chunks_length: usize) -> Reply;

    /// Loads a merge graph.
    pub fn nidskalm_chunk_optimization_graph_new(c: u64, m: u64, l: u64, e: u64, initial: u64, mode: u32, module_starts: *const u32, module_starts_length: usize, modules: *const u32, modules_length: usize, sets: *const u64, sets_length: usize, set_chunks: *const u32, set_chunks_length: usize, side_effects: *const u32, side_effects_length: usize, area: *mut u32, area_length: usize) -> Reply;
    /// Appends a module to the chunk of a set, or to a new chunk that needs creation.
    pub fn nidskalm_chunk_optimization_graph_init_module_assignment(c: u64, m: u64, l: u64, e: u64, area: *mut u32, area_length: usize, module: u32, bits: *const u64, bits_length: usize, side_effects: *const u32, side_effects_length: usize) -> Reply;
    /// Appends a module to a chunk.
    pub fn nidskalm_chunk_optimization_graph_add_module_to_chunk(c: u64, m: u64, l: u64, e: u64, area: *mut u32, area_length: usize, module: u32, chunk: u32, side_effects: *const u32, side_effects_length: usize) -> Reply;
    /// Registers a chunk under a key.
    pub fn nidskalm_chunk_optimization_graph_register_chunk_graph_index(c: u64, m: u64, l: u64, e: u64, area: *mut u32, area_length: usize, key: u32, chunk: u32) -> Reply;
    /// The chunk registered under a key, or 4294967295.
    pub fn nidskalm_chunk_optimization_graph_to_temp_idx(c: u64, m: u64, l: u64, e: u64, area: *const u32, area_length: usize, key: u32) -> Reply;
    /// Adds the chunk dependencies that module dependencies give.
    pub fn nidskalm_chunk_optimization_graph_calc_chunk_dependencies(c: u64, m: u64, l: u64, e: u64, area: *mut u32, area_length: usize, starts: *const u32, starts_length: usize, dependencies: *const u32, dependencies_length: usize) -> Reply;
    /// Value 1: merging source into target is warned of.
    pub fn nidskalm_chunk_optimization_graph_would_create_circular_dependency(c: u64, m: u64, l: u64, e: u64, area: *const u32, area_length: usize, source: u32, target: u32) -> Reply;
    /// Value 1: `from` reaches `to` in one step or more.
    pub fn nidskalm_chunk_optimization_graph_is_reachable(c: u64, m: u64, l: u64, e: u64, area: *const u32, area_length: usize, from: u32, to: u32) -> Reply;
    /// Merges the dependencies of source into target.
    pub fn nidskalm_chunk_optimization_graph_merge_chunk_dependencies(c: u64, m: u64, l: u64, e: u64, area: *mut u32, area_length: usize, target: u32, source: u32) -> Reply;
    /// The pass; value is the number of candidates, one entry each in the four lists.
    pub fn nidskalm_chunk_optimization_graph_pass(c: u64, m: u64, l: u64, e: u64, area: *mut u32, area_length: usize, proposals: *const u32, proposals_length: usize, bars: *const u32, bars_length: usize, kinds: *mut u32, kinds_length: usize, numbers: *mut u32, numbers_length: usize) -> Reply;

    /// The chunk that a candidate may be merged into, or 4294967295.
    pub fn nidskalm_chunk_optimization_graph_merge_target(k: u64, m: u64, kinds: *const u32, kinds_length: usize, entry_modules: *const u32, entry_modules_length: usize, module_starts: *const u32, module_starts_length: usize, modules: *const u32, modules_length: usize, importer_starts: *const u32, importer_starts_length: usize, importers: *const u32, importers_length: usize, dynamic_importer_starts: *const u32, dynamic_importer_starts_length: usize, dynamic_importers: *const u32, dynamic_importers_length: usize, reached_starts: *const u32, reached_starts_length: usize, reached: *const u32, reached_length: usize, side_effects: *const u32, side_effects_length: usize, observable_exports: *const u32, observable_exports_length: usize, candidate: *const u32, candidate_length: usize, set0: u64, set1: u64, set2: u64, set3: u64) -> Reply;
    /// The same by eight lent classes of the entry kinds.
    pub fn nidskalm_chunk_optimization_graph_merge_target_by_classes(k: u64, m: u64, kinds: *const u32, kinds_length: usize, entry_modules: *const u32, entry_modules_length: usize, module_starts: *const u32, module_starts_length: usize, modules: *const u32, modules_length: usize, importer_starts: *const u32, importer_starts_length: usize, importers: *const u32, importers_length: usize, dynamic_importer_starts: *const u32, dynamic_importer_starts_length: usize, dynamic_importers: *const u32, dynamic_importers_length: usize, reached_starts: *const u32, reached_starts_length: usize, reached: *const u32, reached_length: usize, side_effects: *const u32, side_effects_length: usize, observable_exports: *const u32, observable_exports_length: usize, candidate: *const u32, candidate_length: usize, set0: u64, set1: u64, set2: u64, set3: u64, classes: *const u32, classes_length: usize) -> Reply;
}
