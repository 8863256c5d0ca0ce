//! The merge graph with an area of its own.
use crate::entry_set::flat;
use crate::{lent, EntrySet, Refusal, NONE};
use std::borrow::Cow;

/// A chunk's number.
#[derive(Clone, Copy, Debug, PartialEq, Eq, Hash, PartialOrd, Ord)]
pub struct ChunkIdx(pub u32);

/// A module's number.
#[derive(Clone, Copy, Debug, PartialEq, Eq, Hash, PartialOrd, Ord)]
pub struct ModuleIdx(pub u32);

/// Sizes of a merge graph.
#[derive(Clone, Copy, Debug, PartialEq, Eq)]
pub struct Size {
    /// Room for chunks, 1 to 1,024.
    pub chunks: u64,
    /// Modules, at most 4,096.
    pub modules: u64,
    /// Room for modules listed in chunks, at most 8,192.
    pub entries: u64,
    /// Entry bits, at most 256.
    pub entry_bits: u64,
}

/// The chunks that exist at loading.
#[derive(Clone, Copy, Debug)]
pub struct InitialChunks<'a> {
    /// One more than there are chunks: chunk i holds `modules[module_starts[i]..module_starts[i + 1]]`.
    pub module_starts: &'a [u32],
    /// Module numbers.
    pub modules: &'a [u32],
    /// Sets that name a chunk, no two equal.
    pub sets: &'a [EntrySet],
    /// The chunk of each of these sets.
    pub set_chunks: &'a [u32],
}

/// What a dependency on a merged chunk, or of one, means.
#[derive(Clone, Copy, Debug, PartialEq, Eq)]
pub enum Mode {
    /// It stays with the merged chunk, as in the original: the warning doesn't see through chunks that were merged away.
    Original = 0,
    /// It counts as on or of the chunk at the end of its merges. Choose this where the script writer resolves an import
    /// of a merged chunk to its target: the warning, and so the [`pass`](MergeGraph::pass), then sees through it.
    StandForTarget = 1,
}

/// What the pass did with a chunk that needed creation.
#[derive(Clone, Copy, Debug, PartialEq, Eq)]
pub enum Assignment {
    /// Its dependencies were merged into an initial chunk.
    Merged(ChunkIdx),
    /// It was created and registered under this number.
    Created(ChunkIdx),
}

/// Chunks with modules and dependencies.
///
/// [`merge_chunk_dependencies`](Self::merge_chunk_dependencies) merges whatever the warning,
/// [`would_create_circular_dependency`](Self::would_create_circular_dependency), would say; only the
/// [`pass`](Self::pass) asks it first.
///
/// The [`Mode`] decides what becomes of a merged chunk. The smallest loop that [`Mode::Original`] lets through: 0 depends
/// on 1, and 3 on 2. Merge 2 into 0, then 3 into 1; then 0 depends on 1, and 1 on 2, which is 0.
///
/// ```
/// use nidskalm::{ChunkIdx, InitialChunks, MergeGraph, Mode, Size};
///
/// let size = Size { chunks: 4, modules: 4, entries: 4, entry_bits: 1 };
/// let initial = InitialChunks { module_starts: &[0, 1, 2, 3, 4], modules: &[0, 1, 2, 3], sets: &[], set_chunks: &[] };
/// for (mode, warned) in [(Mode::Original, false), (Mode::StandForTarget, true)] {
///     let mut graph = MergeGraph::new(size, initial, mode, &[0; 4])?;
///     graph.calc_chunk_dependencies(&[0, 1, 1, 1, 2], &[1, 2])?;
///     assert!(!graph.would_create_circular_dependency(ChunkIdx(2), ChunkIdx(0))?);
///     graph.merge_chunk_dependencies(ChunkIdx(0), ChunkIdx(2))?;
///     assert_eq!(graph.would_create_circular_dependency(ChunkIdx(3), ChunkIdx(1))?, warned);
/// }
/// # Ok::<(), nidskalm::Refusal>(())
/// ```
///
/// ```
/// use nidskalm::{Assignment, ChunkIdx, EntrySet, InitialChunks, MergeGraph, Mode, ModuleIdx, Size};
///
/// let size = Size { chunks: 4, modules: 3, entries: 8, entry_bits: 2 };
/// let initial = InitialChunks { module_starts: &[0, 1, 2], modules: &[0, 1], sets: &[], set_chunks: &[] };
/// let mut graph = MergeGraph::new(size, initial, Mode::StandForTarget, &[0, 0, 1])?;
/// // Module 2 belongs to entries 0 and 1: a chunk that needs creation. Module 0 depends on it.
/// graph.init_module_assignment(ModuleIdx(2), EntrySet::from(3))?;
/// graph.calc_chunk_dependencies(&[0, 1, 1, 1], &[2])?;
/// assert!(graph.is_reachable(ChunkIdx(0), ChunkIdx(2))?);
/// assert!(!graph.would_create_circular_dependency(ChunkIdx(2), ChunkIdx(0))?);
/// assert_eq!(graph.pass(&[Some(ChunkIdx(0))], &[false])?, [Assignment::Merged(ChunkIdx(0))]);
/// # Ok::<(), nidskalm::Refusal>(())
/// ```
#[derive(Clone, Debug)]
pub struct MergeGraph<'a> {
    size: Size,
    side_effects: Cow<'a, [u32]>,
    area: Vec<u32>,
}

impl MergeGraph<'static> {
    /// Loads as [`new`](MergeGraph::new) does, and keeps the side effects: for a graph in a struct.
    ///
    /// ```
    /// use nidskalm::{ChunkIdx, InitialChunks, MergeGraph, Mode, ModuleIdx, Refusal, Size};
    ///
    /// struct Service {
    ///     chunks: MergeGraph<'static>,
    /// }
    ///
    /// fn start(effects: Vec<u32>) -> Result<Service, Refusal> {
    ///     let size = Size { chunks: 2, modules: 1, entries: 2, entry_bits: 1 };
    ///     let initial = InitialChunks { module_starts: &[0, 1], modules: &[0], sets: &[], set_chunks: &[] };
    ///     Ok(Service { chunks: MergeGraph::owning(size, initial, Mode::StandForTarget, effects)? })
    /// }
    ///
    /// let mut service = start(vec![1])?;
    /// service.chunks.add_module_to_chunk(ModuleIdx(0), ChunkIdx(0))?;
    /// assert_eq!(start(vec![]).map(drop).unwrap_err().row(), 15);
    /// # Ok::<(), Refusal>(())
    /// ```
    pub fn owning(size: Size, initial: InitialChunks, mode: Mode, side_effects: Vec<u32>) -> Result<Self, Refusal> {
        Self::loaded(size, initial, mode, side_effects.into())
    }
}

impl<'a> MergeGraph<'a> {
    /// Loads the initial chunks. `side_effects` has a number for each module, nonzero means yes.
    pub fn new(size: Size, initial: InitialChunks, mode: Mode, side_effects: &'a [u32]) -> Result<Self, Refusal> {
        Self::loaded(size, initial, mode, side_effects.into())
    }

    fn loaded(size: Size, initial: InitialChunks, mode: Mode, side_effects: Cow<'a, [u32]>) -> Result<Self, Refusal> {
        let (list, whole) = flat(initial.sets, size.entry_bits.div_ceil(64).min(4) as usize);
        let mut area = vec![0; lent::merge_area_length(size).unwrap_or(0)];
        let reply = lent::chunk_optimization_graph_new(size, &initial, mode, &list, &side_effects, &mut area);
        // Without entry bits the list is empty for any number of sets; and a bit may have been cut off.
        let row = Refusal::first(reply.refusal, initial.sets.len() != initial.set_chunks.len(), 15);
        let row = Refusal::first(row, !whole, 16);
        Refusal::check(row, Self { size, side_effects, area })
    }

    /// Appends a module to the chunk of a set, or to a new chunk of that set, which then needs creation.
    pub fn init_module_assignment(&mut self, module: ModuleIdx, set: EntrySet) -> Result<(), Refusal> {
        let bits = set.lent(self.size.entry_bits.min(256) as usize);
        let reply = lent::chunk_optimization_graph_init_module_assignment(
            self.size,
            &mut self.area,
            module.0,
            bits,
            &self.side_effects,
        );
        Refusal::check(reply.refusal, ())
    }

    /// Appends a module to a chunk.
    pub fn add_module_to_chunk(&mut self, module: ModuleIdx, chunk: ChunkIdx) -> Result<(), Refusal> {
        let (size, area, effects) = (self.size, &mut self.area, &self.side_effects);
        let reply = lent::chunk_optimization_graph_add_module_to_chunk(size, area, module.0, chunk.0, effects);
        Refusal::check(reply.refusal, ())
    }

    /// Registers a chunk under a key, in the place of an older one.
    pub fn register_chunk_graph_index(&mut self, key: ChunkIdx, chunk: ChunkIdx) -> Result<(), Refusal> {
        let (size, area) = (self.size, &mut self.area);
        let reply = lent::chunk_optimization_graph_register_chunk_graph_index(size, area, key.0, chunk.0);
        Refusal::check(reply.refusal, ())
    }

    /// The chunk registered under a key.
    pub fn to_temp_idx(&self, key: ChunkIdx) -> Result<Option<ChunkIdx>, Refusal> {
        let reply = lent::chunk_optimization_graph_to_temp_idx(self.size, &self.area, key.0);
        let chunk = u32::try_from(reply.value).ok().filter(|&chunk| chunk != NONE).map(ChunkIdx);
        Refusal::check(reply.refusal, chunk)
    }

    /// Adds to each chunk the chunks that its modules' dependencies are in: module i depends on
    /// `dependencies[starts[i]..starts[i + 1]]`.
    pub fn calc_chunk_dependencies(&mut self, starts: &[u32], dependencies: &[u32]) -> Result<(), Refusal> {
        let (size, area) = (self.size, &mut self.area);
        let reply = lent::chunk_optimization_graph_calc_chunk_dependencies(size, area, starts, dependencies);
        Refusal::check(reply.refusal, ())
    }

    /// The warning before source is merged into target: true exactly when source depends directly on target, or the two
    /// fused lie on a cycle with another chunk.
    ///
    /// It follows the dependencies that chunks have now. A merge takes those of its source away, so no cycle through a
    /// chunk that was merged away is seen. In [`Mode::StandForTarget`]: true exactly when the two fused lie on a cycle
    /// with another chunk, by the dependencies that count then.
    pub fn would_create_circular_dependency(&self, source: ChunkIdx, target: ChunkIdx) -> Result<bool, Refusal> {
        let (size, area) = (self.size, &self.area);
        let reply = lent::chunk_optimization_graph_would_create_circular_dependency(size, area, source.0, target.0);
        Refusal::check(reply.refusal, reply.value == 1)
    }

    /// Whether one chunk reaches another in one step or more; in [`Mode::StandForTarget`] each of them stands for the end
    /// of its merges, and the dependencies that count are followed.
    pub fn is_reachable(&self, from: ChunkIdx, to: ChunkIdx) -> Result<bool, Refusal> {
        let reply = lent::chunk_optimization_graph_is_reachable(self.size, &self.area, from.0, to.0);
        Refusal::check(reply.refusal, reply.value == 1)
    }

    /// Gives target the dependencies of source, which loses them, whatever the warning would say: ask
    /// [`would_create_circular_dependency`](Self::would_create_circular_dependency) first.
    ///
    /// Choose [`Mode::StandForTarget`] where imports of a merged chunk are resolved to its target: there the merge is recorded,
    /// later warnings see through it, and neither chunk may have been merged away (28). In [`Mode::Original`] two merges that
    /// nobody was warned of can leave chunks that import each other ([`MergeGraph`] has the smallest such pair).
    pub fn merge_chunk_dependencies(&mut self, target: ChunkIdx, source: ChunkIdx) -> Result<(), Refusal> {
        let (size, area) = (self.size, &mut self.area);
        let reply = lent::chunk_optimization_graph_merge_chunk_dependencies(size, area, target.0, source.0);
        Refusal::check(reply.refusal, ())
    }

    /// Decides about each chunk that needs creation, in rising order: one proposal and one bar for each. A chunk is
    /// merged into the proposed one if there is no bar and no warning, and else created.
    ///
    /// Choose [`Mode::StandForTarget`] where imports of a merged chunk are resolved to its target: there a chunk that was merged
    /// away is no candidate, and none that was may be proposed (28). In [`Mode::Original`] a pass can leave chunks that import
    /// each other although no merge was warned of:
    ///
    /// ```
    /// use nidskalm::{Assignment::*, ChunkIdx, EntrySet, InitialChunks, MergeGraph, Mode, ModuleIdx, Size};
    ///
    /// // Chunk 0 depends on 1, and 3 on 2; 2 and 3 need creation. Proposed: 2 into 0, 3 into 1.
    /// let pass = |mode| {
    ///     let size = Size { chunks: 4, modules: 4, entries: 4, entry_bits: 2 };
    ///     let initial = InitialChunks { module_starts: &[0, 1, 2], modules: &[0, 1], sets: &[], set_chunks: &[] };
    ///     let mut graph = MergeGraph::new(size, initial, mode, &[0; 4])?;
    ///     graph.init_module_assignment(ModuleIdx(2), EntrySet::from(3))?;
    ///     graph.init_module_assignment(ModuleIdx(3), EntrySet::from(2))?;
    ///     graph.calc_chunk_dependencies(&[0, 1, 1, 1, 2], &[1, 2])?;
    ///     graph.pass(&[Some(ChunkIdx(0)), Some(ChunkIdx(1))], &[false, false])
    /// };
    /// // Both are merged: 0 depends on 1, and 1 on 2, which is 0.
    /// assert_eq!(pass(Mode::Original)?, [Merged(ChunkIdx(0)), Merged(ChunkIdx(1))]);
    /// assert_eq!(pass(Mode::StandForTarget)?, [Merged(ChunkIdx(0)), Created(ChunkIdx(2))]);
    /// # Ok::<(), nidskalm::Refusal>(())
    /// ```
    pub fn pass(&mut self, proposals: &[Option<ChunkIdx>], bars: &[bool]) -> Result<Vec<Assignment>, Refusal> {
        // A proposed chunk with the number of none isn't none: it becomes another that is never initial.
        let number = |chunk: &Option<ChunkIdx>| chunk.map_or(NONE, |chunk| chunk.0.min(NONE - 1));
        let proposals: Vec<u32> = proposals.iter().map(number).collect();
        let bars: Vec<u32> = bars.iter().map(|&bar| bar.into()).collect();
        let (mut kinds, mut numbers) = (vec![0; proposals.len()], vec![0; proposals.len()]);
        let (size, area) = (self.size, &mut self.area);
        let reply = lent::chunk_optimization_graph_pass(size, area, &proposals, &bars, &mut kinds, &mut numbers);
        let assignment = |(kind, number)| match kind {
            0 => Assignment::Merged(ChunkIdx(number)),
            _ => Assignment::Created(ChunkIdx(number)),
        };
        Refusal::check(reply.refusal, kinds.into_iter().zip(numbers).map(assignment).collect())
    }

    /// Whether one chunk depends directly on another; false where there is no such chunk.
    pub fn depends(&self, from: ChunkIdx, to: ChunkIdx) -> bool {
        let (chunks, from, to) = (self.size.chunks as usize, from.0 as usize, to.0 as usize);
        from < chunks && to < chunks && self.area[from * chunks + to] != 0
    }
}
