//! The choice of a merge target.
use crate::{lent, ChunkIdx, EntrySet, Refusal, NONE};

/// What the choice of a merge target reads: chunks, as many as there are kinds, and modules, as many as there are
/// numbers in `observable_exports`. List i of a list of lists is `items[starts[i]..starts[i + 1]]`.
///
/// ```
/// use nidskalm::{ChunkIdx, Entries, EntrySet};
///
/// // Two user-defined entries, chunks 0 and 1; the entry module of chunk 1 imports that of chunk 0.
/// let entries = Entries {
///     kinds: &[1, 1],
///     entry_modules: &[0, 1],
///     module_starts: &[0, 1, 2],
///     modules: &[0, 1],
///     importer_starts: &[0, 1, 1, 1],
///     importers: &[1],
///     dynamic_importer_starts: &[0, 0, 0, 0],
///     dynamic_importers: &[],
///     reached_starts: &[0, 0, 0],
///     reached: &[],
///     side_effects: &[0, 0],
///     observable_exports: &[0, 0, 0],
/// };
/// // Module 2 is wanted by both entries: it may be merged into chunk 0, which whoever loads chunk 1 has loaded.
/// assert_eq!(entries.merge_target(&[2], EntrySet::from(3))?, Some(ChunkIdx(0)));
/// assert_eq!(entries.merge_target(&[3], EntrySet::from(3)).unwrap_err().row(), 23);
/// # Ok::<(), nidskalm::Refusal>(())
/// ```
#[derive(Clone, Copy, Debug)]
pub struct Entries<'a> {
    /// Of each chunk: 8 for a common one, else 1 for a user-defined entry, plus 2 for one imported dynamically, plus 4
    /// for an emitted one.
    pub kinds: &'a [u32],
    /// The entry module of each chunk; a common chunk's isn't read.
    pub entry_modules: &'a [u32],
    /// One more than there are chunks.
    pub module_starts: &'a [u32],
    /// The modules of each chunk.
    pub modules: &'a [u32],
    /// One more than there are modules.
    pub importer_starts: &'a [u32],
    /// The modules that import each module statically.
    pub importers: &'a [u32],
    /// One more than there are modules.
    pub dynamic_importer_starts: &'a [u32],
    /// The modules that import each module dynamically.
    pub dynamic_importers: &'a [u32],
    /// One more than there are chunks.
    pub reached_starts: &'a [u32],
    /// The dynamic entries, by their chunks, that each chunk reaches.
    pub reached: &'a [u32],
    /// Of each chunk, nonzero means yes.
    pub side_effects: &'a [u32],
    /// Of each module, nonzero means yes.
    pub observable_exports: &'a [u32],
}

impl Entries<'_> {
    /// The chunk that a candidate of these modules may be merged into, where bit b of its set says that entry chunk b
    /// wants it. Bits past the chunks are passed over.
    ///
    /// It is the first of the user-defined and emitted entries, or of the others where none of these is named, whose
    /// entry module all others of them import. It is none where a common chunk is named or the target is barred: by a
    /// dynamic entry that it doesn't reach, by its side effects where another chunk reaches one, by a dynamic importer of
    /// the candidate's modules elsewhere, or, where no user entry is named, by another entry's exports. With the kinds
    /// of a [`MergeGraph`](crate::MergeGraph)'s initial chunks, its pass can take the answer as proposal.
    pub fn merge_target(&self, candidate: &[u32], set: EntrySet) -> Result<Option<ChunkIdx>, Refusal> {
        let reply = lent::chunk_optimization_graph_merge_target(self, candidate, set.words());
        let chunk = u32::try_from(reply.value).ok().filter(|&chunk| chunk != NONE).map(ChunkIdx);
        Refusal::check(reply.refusal, chunk)
    }

    /// The same by a bank's own classes of the entry kinds 0 to 7, 0 for dynamic and 1 for user entries. Without them they are
    /// 0, 1, 0, 1, 1, 1, 1, 1; odd kinds, user-defined entries, can't be dynamic.
    ///
    /// ```
    /// # use nidskalm::{ChunkIdx, Entries, EntrySet};
    /// # let entries = Entries {
    /// #     kinds: &[4, 2], entry_modules: &[0, 1], module_starts: &[0, 1, 2], modules: &[0, 1],
    /// #     importer_starts: &[0, 1, 1, 1], importers: &[1], dynamic_importer_starts: &[0, 0, 0, 0],
    /// #     dynamic_importers: &[], reached_starts: &[0, 0, 0], reached: &[], side_effects: &[0, 0],
    /// #     observable_exports: &[0, 0, 0],
    /// # };
    /// // An emitted entry that doesn't reach the dynamic one: no target. As a dynamic entry it is one.
    /// assert_eq!(entries.merge_target(&[2], EntrySet::from(3))?, None);
    /// let emitted_dynamic = [0, 1, 0, 1, 0, 1, 0, 1];
    /// let target = entries.merge_target_by_classes(&[2], EntrySet::from(3), &emitted_dynamic)?;
    /// assert_eq!(target, Some(ChunkIdx(0)));
    /// # Ok::<(), nidskalm::Refusal>(())
    /// ```
    pub fn merge_target_by_classes(
        &self,
        candidate: &[u32],
        set: EntrySet,
        classes: &[u32],
    ) -> Result<Option<ChunkIdx>, Refusal> {
        let reply = lent::chunk_optimization_graph_merge_target_by_classes(self, candidate, set.words(), classes);
        let chunk = u32::try_from(reply.value).ok().filter(|&chunk| chunk != NONE).map(ChunkIdx);
        Refusal::check(reply.refusal, chunk)
    }
}
