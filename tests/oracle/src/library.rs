//! The library under test as a safe trait, and the proved one behind its C interface.
use crate::merges_model::Size;
use crate::moves_model::Load;
use crate::sets::Set;

pub use crate::raw::{EdgeReply, MoveReply, Reply, SetReply};

impl Reply {
    pub fn refused(refusal: u64) -> Self {
        Self { refusal, value: 0 }
    }

    pub fn value(value: u64) -> Self {
        Self { refusal: 0, value }
    }
}

impl MoveReply {
    pub fn refused(refusal: u64) -> Self {
        Self { refusal, ..Self::default() }
    }

    /// "Rejected moves report zeros"; "a rejected one 0".
    pub fn rejected() -> Self {
        Self::default()
    }

    pub fn accepted(appeared: u64, vanished: u64, reached: u64) -> Self {
        Self { refusal: 0, accepted: 1, appeared, vanished, reached }
    }
}

impl SetReply {
    pub fn refused(refusal: u64) -> Self {
        Self { refusal, ..Self::default() }
    }

    pub fn set(Set([set0, set1, set2, set3]): Set) -> Self {
        Self { refusal: 0, set0, set1, set2, set3 }
    }
}

impl EdgeReply {
    pub fn refused(refusal: u64) -> Self {
        Self { refusal, ..Self::default() }
    }

    pub fn none() -> Self {
        Self::default()
    }

    pub fn edge(Set([from0, from1, from2, from3]): Set, Set([to0, to1, to2, to3]): Set, multiplicity: u64) -> Self {
        Self { refusal: 0, found: 1, from0, from1, from2, from3, to0, to1, to2, to3, multiplicity }
    }
}

/// Lists of `nidskalm_chunk_optimization_graph_new`.
#[derive(Clone, Debug, Default, PartialEq, Eq)]
pub struct MergeLoad {
    pub initial: u64,
    /// Not 0: merged chunks stand for their target.
    pub mode: u32,
    pub module_starts: Vec<u32>,
    pub modules: Vec<u32>,
    pub sets: Vec<u64>,
    pub set_chunks: Vec<u32>,
    pub side_effects: Vec<u32>,
}

/// One name for every call of the C interface.
pub trait Library {
    fn move_new(&self, load: &Load, sets: &[u64], area: &mut [u32]) -> Reply;
    fn try_move(&self, load: &Load, area: &mut [u32], atom: u32, bits: &[u64]) -> MoveReply;
    fn atom_set(&self, load: &Load, area: &[u32], atom: u32) -> SetReply;
    fn atom_count(&self, load: &Load, area: &[u32], bits: &[u64]) -> Reply;
    fn multiplicity(&self, load: &Load, area: &[u32], from: &[u64], to: &[u64]) -> Reply;
    fn edge_count(&self, load: &Load, area: &[u32]) -> Reply;
    fn chunk_count(&self, load: &Load, area: &[u32]) -> Reply;
    fn edge_at(&self, load: &Load, area: &[u32], k: u64) -> EdgeReply;
    fn rank(&self, load: &Load, first: &[u32], second: &[u32]) -> Reply;
    fn has_cycle(&self, load: &Load, area: &[u32]) -> Reply;
    fn start_order(&self, load: &Load, area: &[u32], bit: u64, chunks: &mut [u32]) -> Reply;

    fn merge_new(&self, size: Size, load: &MergeLoad, area: &mut [u32]) -> Reply;
    fn init_module(&self, size: Size, area: &mut [u32], module: u32, bits: &[u64], side_effects: &[u32]) -> Reply;
    fn add_module(&self, size: Size, area: &mut [u32], module: u32, chunk: u32, side_effects: &[u32]) -> Reply;
    fn register(&self, size: Size, area: &mut [u32], key: u32, chunk: u32) -> Reply;
    fn to_temp_idx(&self, size: Size, area: &[u32], key: u32) -> Reply;
    fn calc(&self, size: Size, area: &mut [u32], starts: &[u32], dependencies: &[u32]) -> Reply;
    fn warning(&self, size: Size, area: &[u32], source: u32, target: u32) -> Reply;
    fn is_reachable(&self, size: Size, area: &[u32], from: u32, to: u32) -> Reply;
    fn merge(&self, size: Size, area: &mut [u32], target: u32, source: u32) -> Reply;
    #[allow(clippy::too_many_arguments)]
    fn pass(
        &self,
        size: Size,
        area: &mut [u32],
        proposals: &[u32],
        bars: &[u32],
        kinds: &mut [u32],
        numbers: &mut [u32],
    ) -> Reply;
}

/// The proved library, linked from target/staticlib/libnidskalm.a.
#[cfg(feature = "ours")]
pub struct Ours;

#[cfg(feature = "ours")]
mod ours {
    use super::{EdgeReply, Library, MergeLoad, MoveReply, Ours, Reply, SetReply};
    use crate::merges_model::Size;
    use crate::moves_model::Load;
    use crate::raw;

    /// Calls with the load's numbers and pointers first.
    macro_rules! with_load {
        ($call:ident, $load:expr $(, $more:expr)*) => {
            unsafe {
                raw::$call(
                    $load.a, $load.d, $load.e, $load.n,
                    $load.starts.as_ptr(), $load.starts.len(),
                    $load.dependencies.as_ptr(), $load.dependencies.len(),
                    $load.hosts.as_ptr(), $load.hosts.len(),
                    $load.fixed.as_ptr(), $load.fixed.len()
                    $(, $more)*
                )
            }
        };
    }

    /// Calls with the four sizes first.
    macro_rules! with_size {
        ($call:ident, $size:expr $(, $more:expr)*) => {
            unsafe { raw::$call($size.c, $size.m, $size.l, $size.e $(, $more)*) }
        };
    }

    impl Library for Ours {
        fn move_new(&self, load: &Load, sets: &[u64], area: &mut [u32]) -> Reply {
            with_load!(nidskalm_reduced_chunk_graph_new, load, sets.as_ptr(), sets.len(), area.as_mut_ptr(), area.len())
        }

        fn try_move(&self, load: &Load, area: &mut [u32], atom: u32, bits: &[u64]) -> MoveReply {
            let (lent, length) = (area.as_mut_ptr(), area.len());
            with_load!(nidskalm_reduced_chunk_graph_try_move, load, lent, length, atom, bits.as_ptr(), bits.len())
        }

        fn atom_set(&self, load: &Load, area: &[u32], atom: u32) -> SetReply {
            with_load!(nidskalm_reduced_chunk_graph_atom_set, load, area.as_ptr(), area.len(), atom)
        }

        fn atom_count(&self, load: &Load, area: &[u32], bits: &[u64]) -> Reply {
            with_load!(
                nidskalm_reduced_chunk_graph_atom_count,
                load,
                area.as_ptr(),
                area.len(),
                bits.as_ptr(),
                bits.len()
            )
        }

        fn multiplicity(&self, load: &Load, area: &[u32], from: &[u64], to: &[u64]) -> Reply {
            let (lent, length) = (area.as_ptr(), area.len());
            let (from, from_length) = (from.as_ptr(), from.len());
            let call = (to.as_ptr(), to.len());
            with_load!(nidskalm_reduced_chunk_graph_multiplicity, load, lent, length, from, from_length, call.0, call.1)
        }

        fn edge_count(&self, load: &Load, area: &[u32]) -> Reply {
            with_load!(nidskalm_reduced_chunk_graph_edge_count, load, area.as_ptr(), area.len())
        }

        fn chunk_count(&self, load: &Load, area: &[u32]) -> Reply {
            with_load!(nidskalm_reduced_chunk_graph_chunk_count, load, area.as_ptr(), area.len())
        }

        fn edge_at(&self, load: &Load, area: &[u32], k: u64) -> EdgeReply {
            with_load!(nidskalm_reduced_chunk_graph_edge_at, load, area.as_ptr(), area.len(), k)
        }

        fn rank(&self, load: &Load, first: &[u32], second: &[u32]) -> Reply {
            let (lent, length) = (first.as_ptr(), first.len());
            with_load!(nidskalm_reduced_chunk_graph_rank, load, lent, length, second.as_ptr(), second.len())
        }

        fn has_cycle(&self, load: &Load, area: &[u32]) -> Reply {
            with_load!(nidskalm_reduced_chunk_graph_has_cycle, load, area.as_ptr(), area.len())
        }

        fn start_order(&self, load: &Load, area: &[u32], bit: u64, chunks: &mut [u32]) -> Reply {
            let (lent, length) = (area.as_ptr(), area.len());
            let (list, room) = (chunks.as_mut_ptr(), chunks.len());
            with_load!(nidskalm_reduced_chunk_graph_start_order, load, lent, length, bit, list, room)
        }

        fn merge_new(&self, size: Size, load: &MergeLoad, area: &mut [u32]) -> Reply {
            with_size!(
                nidskalm_chunk_optimization_graph_new,
                size,
                load.initial,
                load.mode,
                load.module_starts.as_ptr(),
                load.module_starts.len(),
                load.modules.as_ptr(),
                load.modules.len(),
                load.sets.as_ptr(),
                load.sets.len(),
                load.set_chunks.as_ptr(),
                load.set_chunks.len(),
                load.side_effects.as_ptr(),
                load.side_effects.len(),
                area.as_mut_ptr(),
                area.len()
            )
        }

        fn init_module(&self, size: Size, area: &mut [u32], module: u32, bits: &[u64], side_effects: &[u32]) -> Reply {
            let (lent, length) = (area.as_mut_ptr(), area.len());
            let (effects, count) = (side_effects.as_ptr(), side_effects.len());
            with_size!(
                nidskalm_chunk_optimization_graph_init_module_assignment,
                size,
                lent,
                length,
                module,
                bits.as_ptr(),
                bits.len(),
                effects,
                count
            )
        }

        fn add_module(&self, size: Size, area: &mut [u32], module: u32, chunk: u32, side_effects: &[u32]) -> Reply {
            let (lent, length) = (area.as_mut_ptr(), area.len());
            let (effects, count) = (side_effects.as_ptr(), side_effects.len());
            with_size!(
                nidskalm_chunk_optimization_graph_add_module_to_chunk,
                size,
                lent,
                length,
                module,
                chunk,
                effects,
                count
            )
        }

        fn register(&self, size: Size, area: &mut [u32], key: u32, chunk: u32) -> Reply {
            let (lent, length) = (area.as_mut_ptr(), area.len());
            with_size!(nidskalm_chunk_optimization_graph_register_chunk_graph_index, size, lent, length, key, chunk)
        }

        fn to_temp_idx(&self, size: Size, area: &[u32], key: u32) -> Reply {
            with_size!(nidskalm_chunk_optimization_graph_to_temp_idx, size, area.as_ptr(), area.len(), key)
        }

        fn calc(&self, size: Size, area: &mut [u32], starts: &[u32], dependencies: &[u32]) -> Reply {
            let (lent, length) = (area.as_mut_ptr(), area.len());
            let (list, count) = (dependencies.as_ptr(), dependencies.len());
            with_size!(
                nidskalm_chunk_optimization_graph_calc_chunk_dependencies,
                size,
                lent,
                length,
                starts.as_ptr(),
                starts.len(),
                list,
                count
            )
        }

        fn warning(&self, size: Size, area: &[u32], source: u32, target: u32) -> Reply {
            let (lent, length) = (area.as_ptr(), area.len());
            with_size!(
                nidskalm_chunk_optimization_graph_would_create_circular_dependency,
                size,
                lent,
                length,
                source,
                target
            )
        }

        fn is_reachable(&self, size: Size, area: &[u32], from: u32, to: u32) -> Reply {
            with_size!(nidskalm_chunk_optimization_graph_is_reachable, size, area.as_ptr(), area.len(), from, to)
        }

        fn merge(&self, size: Size, area: &mut [u32], target: u32, source: u32) -> Reply {
            let (lent, length) = (area.as_mut_ptr(), area.len());
            with_size!(nidskalm_chunk_optimization_graph_merge_chunk_dependencies, size, lent, length, target, source)
        }

        fn pass(
            &self,
            size: Size,
            area: &mut [u32],
            proposals: &[u32],
            bars: &[u32],
            kinds: &mut [u32],
            numbers: &mut [u32],
        ) -> Reply {
            with_size!(
                nidskalm_chunk_optimization_graph_pass,
                size,
                area.as_mut_ptr(),
                area.len(),
                proposals.as_ptr(),
                proposals.len(),
                bars.as_ptr(),
                bars.len(),
                kinds.as_mut_ptr(),
                kinds.len(),
                numbers.as_mut_ptr(),
                numbers.len()
            )
        }
    }
}
