//! The calls on areas that the caller lends: safe, with the replies of [`raw`].
//!
//! An area is any slice of numbers; [`move_area_length`] and [`merge_area_length`] say how long it must be at least.
//! What lies beyond is not touched. A load's numbers of atoms, dependencies and entry bits, the number of initial
//! chunks, and those of chunks and modules of [`Entries`], are taken from the lengths of the lists in [`Load`],
//! [`InitialChunks`] and [`Entries`]. Every row of refusals can still occur.
use crate::raw::{self, EdgeReply, FreedomReply, MoveReply, Reply, SetReply};
use crate::{Entries, InitialChunks, Load, Mode, Size};

/// Numbers that a move graph's area must have, or none where the sizes are over the limits.
pub fn move_area_length(load: &Load, sets: u64) -> Option<usize> {
    let (a, d, e) = (load.atoms(), load.dependencies.len(), load.hosts.len());
    let within = a <= 512 && d <= 8192 && e <= 256 && sets <= 1024;
    let n = if within {
        usize::try_from(sets).ok()?
    } else {
        return None;
    };
    Some(n * n + 24 * (a + n + d + e + 1))
}

/// Numbers that a merge graph's area must have, or none where chunks, modules or entries are over the limits.
pub fn merge_area_length(size: Size) -> Option<usize> {
    if size.chunks > 1024 || size.modules > 4096 || size.entries > 8192 {
        return None;
    }
    let (c, m, l) = (size.chunks as usize, size.modules as usize, size.entries as usize);
    Some(c * c + 32 * (c + m + l + 1))
}

/// Calls with the load's numbers and lists first. Each pointer is a slice's, with its length.
macro_rules! with_load {
    ($call:ident, $load:expr, $sets:expr $(, $more:expr)*) => {{
        let (load, sets): (&Load, u64) = ($load, $sets);
        // SAFETY: every pointer comes from a slice and is followed by its length; a call writes only to `*mut` lists,
        // which come from `&mut` slices and so overlap no other.
        unsafe {
            raw::$call(
                load.atoms() as u64, load.dependencies.len() as u64, load.hosts.len() as u64, sets,
                load.starts.as_ptr(), load.starts.len(),
                load.dependencies.as_ptr(), load.dependencies.len(),
                load.hosts.as_ptr(), load.hosts.len(),
                load.fixed.as_ptr(), load.fixed.len()
                $(, $more)*
            )
        }
    }};
}

/// Calls with the sizes first.
macro_rules! with_size {
    ($call:ident, $size:expr $(, $more:expr)*) => {{
        let size: Size = $size;
        // SAFETY: as for `with_load`.
        unsafe { raw::$call(size.chunks, size.modules, size.entries, size.entry_bits $(, $more)*) }
    }};
}

/// Loads a move graph with room for `n` sets; value 0 acyclic, 1 cyclic.
pub fn reduced_chunk_graph_new(load: &Load, n: u64, sets: &[u64], area: &mut [u32]) -> Reply {
    with_load!(nidskalm_reduced_chunk_graph_new, load, n, sets.as_ptr(), sets.len(), area.as_mut_ptr(), area.len())
}

/// Tries a move.
pub fn reduced_chunk_graph_try_move(load: &Load, n: u64, area: &mut [u32], atom: u32, bits: &[u64]) -> MoveReply {
    let (lent, length) = (area.as_mut_ptr(), area.len());
    with_load!(nidskalm_reduced_chunk_graph_try_move, load, n, lent, length, atom, bits.as_ptr(), bits.len())
}

/// An atom's set.
pub fn reduced_chunk_graph_atom_set(load: &Load, n: u64, area: &[u32], atom: u32) -> SetReply {
    with_load!(nidskalm_reduced_chunk_graph_atom_set, load, n, area.as_ptr(), area.len(), atom)
}

/// The number of atoms in a set.
pub fn reduced_chunk_graph_atom_count(load: &Load, n: u64, area: &[u32], bits: &[u64]) -> Reply {
    with_load!(nidskalm_reduced_chunk_graph_atom_count, load, n, area.as_ptr(), area.len(), bits.as_ptr(), bits.len())
}

/// An edge's multiplicity.
pub fn reduced_chunk_graph_multiplicity(load: &Load, n: u64, area: &[u32], from: &[u64], to: &[u64]) -> Reply {
    let (lent, length, from, from_length) = (area.as_ptr(), area.len(), from.as_ptr(), from.len());
    with_load!(
        nidskalm_reduced_chunk_graph_multiplicity,
        load,
        n,
        lent,
        length,
        from,
        from_length,
        to.as_ptr(),
        to.len()
    )
}

/// The number of distinct edges.
pub fn reduced_chunk_graph_edge_count(load: &Load, n: u64, area: &[u32]) -> Reply {
    with_load!(nidskalm_reduced_chunk_graph_edge_count, load, n, area.as_ptr(), area.len())
}

/// The number of chunks: sets that have an atom.
pub fn reduced_chunk_graph_chunk_count(load: &Load, n: u64, area: &[u32]) -> Reply {
    with_load!(nidskalm_reduced_chunk_graph_chunk_count, load, n, area.as_ptr(), area.len())
}

/// How free the plan is.
pub fn reduced_chunk_graph_freedom(load: &Load, n: u64, area: &[u32]) -> FreedomReply {
    with_load!(nidskalm_reduced_chunk_graph_freedom, load, n, area.as_ptr(), area.len())
}

/// The k-th edge, from 0, by rising source set, then target set.
pub fn reduced_chunk_graph_edge_at(load: &Load, n: u64, area: &[u32], k: u64) -> EdgeReply {
    with_load!(nidskalm_reduced_chunk_graph_edge_at, load, n, area.as_ptr(), area.len(), k)
}

/// Ranks two areas of one load: value 0 where the first comes before the second, 1 where they are equal, 2 after.
pub fn reduced_chunk_graph_rank(load: &Load, n: u64, first: &[u32], second: &[u32]) -> Reply {
    let (lent, length) = (first.as_ptr(), first.len());
    with_load!(nidskalm_reduced_chunk_graph_rank, load, n, lent, length, second.as_ptr(), second.len())
}

/// Whether there is a cycle, by the book's search: value 0 acyclic, 1 cyclic.
pub fn reduced_chunk_graph_has_cycle(load: &Load, n: u64, area: &[u32]) -> Reply {
    with_load!(nidskalm_reduced_chunk_graph_has_cycle, load, n, area.as_ptr(), area.len())
}

/// The chunks to fetch for an entry bit, by their lowest atoms, into `chunks`; value: how many.
pub fn reduced_chunk_graph_start_order(load: &Load, n: u64, area: &[u32], bit: u64, chunks: &mut [u32]) -> Reply {
    let (lent, length) = (area.as_ptr(), area.len());
    with_load!(nidskalm_reduced_chunk_graph_start_order, load, n, lent, length, bit, chunks.as_mut_ptr(), chunks.len())
}

/// Loads a merge graph. `sets` holds the named sets' numbers, as many for each as the entry bits need.
pub fn chunk_optimization_graph_new(
    size: Size,
    initial: &InitialChunks,
    mode: Mode,
    sets: &[u64],
    side_effects: &[u32],
    area: &mut [u32],
) -> Reply {
    with_size!(
        nidskalm_chunk_optimization_graph_new,
        size,
        initial.module_starts.len().saturating_sub(1) as u64,
        mode as u32,
        initial.module_starts.as_ptr(),
        initial.module_starts.len(),
        initial.modules.as_ptr(),
        initial.modules.len(),
        sets.as_ptr(),
        sets.len(),
        initial.set_chunks.as_ptr(),
        initial.set_chunks.len(),
        side_effects.as_ptr(),
        side_effects.len(),
        area.as_mut_ptr(),
        area.len()
    )
}

/// Appends a module to the chunk of a set, or to a new chunk that needs creation.
pub fn chunk_optimization_graph_init_module_assignment(
    size: Size,
    area: &mut [u32],
    module: u32,
    bits: &[u64],
    side_effects: &[u32],
) -> Reply {
    let (lent, length, bits, bits_length) = (area.as_mut_ptr(), area.len(), bits.as_ptr(), bits.len());
    let (effects, count) = (side_effects.as_ptr(), side_effects.len());
    with_size!(
        nidskalm_chunk_optimization_graph_init_module_assignment,
        size,
        lent,
        length,
        module,
        bits,
        bits_length,
        effects,
        count
    )
}

/// Appends a module to a chunk.
pub fn chunk_optimization_graph_add_module_to_chunk(
    size: Size,
    area: &mut [u32],
    module: u32,
    chunk: u32,
    side_effects: &[u32],
) -> Reply {
    let (lent, length) = (area.as_mut_ptr(), area.len());
    let (effects, count) = (side_effects.as_ptr(), side_effects.len());
    with_size!(nidskalm_chunk_optimization_graph_add_module_to_chunk, size, lent, length, module, chunk, effects, count)
}

/// Registers a chunk under a key.
pub fn chunk_optimization_graph_register_chunk_graph_index(
    size: Size,
    area: &mut [u32],
    key: u32,
    chunk: u32,
) -> Reply {
    let (lent, length) = (area.as_mut_ptr(), area.len());
    with_size!(nidskalm_chunk_optimization_graph_register_chunk_graph_index, size, lent, length, key, chunk)
}

/// The chunk registered under a key, or 4,294,967,295.
pub fn chunk_optimization_graph_to_temp_idx(size: Size, area: &[u32], key: u32) -> Reply {
    with_size!(nidskalm_chunk_optimization_graph_to_temp_idx, size, area.as_ptr(), area.len(), key)
}

/// Adds the chunk dependencies that module dependencies give.
pub fn chunk_optimization_graph_calc_chunk_dependencies(
    size: Size,
    area: &mut [u32],
    starts: &[u32],
    dependencies: &[u32],
) -> Reply {
    let (lent, length, starts, starts_length) = (area.as_mut_ptr(), area.len(), starts.as_ptr(), starts.len());
    let (list, count) = (dependencies.as_ptr(), dependencies.len());
    with_size!(
        nidskalm_chunk_optimization_graph_calc_chunk_dependencies,
        size,
        lent,
        length,
        starts,
        starts_length,
        list,
        count
    )
}

/// Value 1: merging source into target is warned of.
pub fn chunk_optimization_graph_would_create_circular_dependency(
    size: Size,
    area: &[u32],
    source: u32,
    target: u32,
) -> Reply {
    let (lent, length) = (area.as_ptr(), area.len());
    with_size!(nidskalm_chunk_optimization_graph_would_create_circular_dependency, size, lent, length, source, target)
}

/// Value 1: `from` reaches `to` in one step or more.
pub fn chunk_optimization_graph_is_reachable(size: Size, area: &[u32], from: u32, to: u32) -> Reply {
    with_size!(nidskalm_chunk_optimization_graph_is_reachable, size, area.as_ptr(), area.len(), from, to)
}

/// Merges the dependencies of source into target.
pub fn chunk_optimization_graph_merge_chunk_dependencies(
    size: Size,
    area: &mut [u32],
    target: u32,
    source: u32,
) -> Reply {
    let (lent, length) = (area.as_mut_ptr(), area.len());
    with_size!(nidskalm_chunk_optimization_graph_merge_chunk_dependencies, size, lent, length, target, source)
}

/// The pass; value is the number of candidates, one entry each in the four lists.
pub fn chunk_optimization_graph_pass(
    size: Size,
    area: &mut [u32],
    proposals: &[u32],
    bars: &[u32],
    kinds: &mut [u32],
    numbers: &mut [u32],
) -> Reply {
    with_size!(
        nidskalm_chunk_optimization_graph_pass,
        size,
        area.as_mut_ptr(),
        area.len(),
        proposals.as_ptr(),
        proposals.len(),
        bars.as_ptr(),
        bars.len(),
        kinds.as_mut_ptr(),
        kinds.len(),
        numbers.as_mut_ptr(),
        numbers.len()
    )
}

/// Calls with the numbers and lists of the entries first, the candidate's modules and its set's four numbers behind them.
macro_rules! with_entries {
    ($call:ident, $entries:expr, $candidate:expr, $set:expr $(, $more:expr)*) => {{
        let (entries, candidate, set): (&Entries, &[u32], [u64; 4]) = ($entries, $candidate, $set);
        // SAFETY: as for `with_load`.
        unsafe {
            raw::$call(
                entries.kinds.len() as u64, entries.observable_exports.len() as u64,
                entries.kinds.as_ptr(), entries.kinds.len(),
                entries.entry_modules.as_ptr(), entries.entry_modules.len(),
                entries.module_starts.as_ptr(), entries.module_starts.len(),
                entries.modules.as_ptr(), entries.modules.len(),
                entries.importer_starts.as_ptr(), entries.importer_starts.len(),
                entries.importers.as_ptr(), entries.importers.len(),
                entries.dynamic_importer_starts.as_ptr(), entries.dynamic_importer_starts.len(),
                entries.dynamic_importers.as_ptr(), entries.dynamic_importers.len(),
                entries.reached_starts.as_ptr(), entries.reached_starts.len(),
                entries.reached.as_ptr(), entries.reached.len(),
                entries.side_effects.as_ptr(), entries.side_effects.len(),
                entries.observable_exports.as_ptr(), entries.observable_exports.len(),
                candidate.as_ptr(), candidate.len(),
                set[0], set[1], set[2], set[3]
                $(, $more)*
            )
        }
    }};
}

/// The chunk that a candidate of these modules and this set may be merged into, or 4,294,967,295.
pub fn chunk_optimization_graph_merge_target(entries: &Entries, candidate: &[u32], set: [u64; 4]) -> Reply {
    with_entries!(nidskalm_chunk_optimization_graph_merge_target, entries, candidate, set)
}

/// The same by eight classes of the entry kinds.
pub fn chunk_optimization_graph_merge_target_by_classes(
    entries: &Entries,
    candidate: &[u32],
    set: [u64; 4],
    classes: &[u32],
) -> Reply {
    let (list, count) = (classes.as_ptr(), classes.len());
    with_entries!(nidskalm_chunk_optimization_graph_merge_target_by_classes, entries, candidate, set, list, count)
}
