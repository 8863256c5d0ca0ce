//! The original's choice of a merge target: four functions of `chunk_optimizer.rs`, cut out by build.rs, over stand-ins.
use crate::stand_ins::oxc_index::Idx;
use crate::stand_ins::rolldown_common::{ChunkIdx, ModuleIdx};
use crate::stand_ins::rustc_hash::{FxHashMap, FxHashSet};
use crate::target_model::Entries;

/// The original's text, and what it reads.
mod chunk_optimizer {
    #![allow(dead_code, clippy::all)]
    use crate::stand_ins::oxc_index::IndexVec;
    use crate::stand_ins::rolldown_common::{ChunkIdx, ModuleIdx};
    use crate::stand_ins::rustc_hash::{FxHashMap, FxHashSet};

    #[derive(Clone, Copy, PartialEq, Eq)]
    pub struct ChunkMeta(pub u32);

    #[allow(non_upper_case_globals)]
    impl ChunkMeta {
        pub const UserDefinedEntry: Self = Self(1);
        pub const EmittedChunk: Self = Self(4);

        pub fn intersects(self, other: Self) -> bool {
            self.0 & other.0 != 0
        }
    }

    impl std::ops::BitOr for ChunkMeta {
        type Output = Self;

        fn bitor(self, other: Self) -> Self {
            Self(self.0 | other.0)
        }
    }

    #[derive(Clone, Copy)]
    pub enum ChunkKind {
        EntryPoint { meta: ChunkMeta, module: ModuleIdx },
        Common,
    }

    pub struct Chunk {
        pub kind: ChunkKind,
        pub modules: Vec<ModuleIdx>,
    }

    impl Chunk {
        pub fn entry_module_idx(&self) -> Option<ModuleIdx> {
            match self.kind {
                ChunkKind::EntryPoint { module, .. } => Some(module),
                ChunkKind::Common => None,
            }
        }
    }

    pub struct ChunkGraph {
        pub chunk_table: IndexVec<ChunkIdx, Chunk>,
    }

    pub struct NormalModule {
        pub importers_idx: FxHashSet<ModuleIdx>,
    }

    /// All modules are normal ones.
    pub struct Module(pub NormalModule);

    impl Module {
        pub fn as_normal(&self) -> Option<&NormalModule> {
            Some(&self.0)
        }
    }

    pub type ModuleTable = IndexVec<ModuleIdx, Module>;

    pub struct LinkingMetadata {
        pub has_dynamic_exports: bool,
        pub exports: Vec<u32>,
    }

    impl LinkingMetadata {
        pub fn canonical_exports(&self, _: bool) -> std::slice::Iter<'_, u32> {
            self.exports.iter()
        }
    }

    pub type LinkingMetadataVec = IndexVec<ModuleIdx, LinkingMetadata>;

    pub struct ChunkCandidate {
        pub modules: Vec<ModuleIdx>,
    }

    pub struct TempChunk {
        pub has_side_effects: bool,
    }

    pub struct ChunkOptimizationGraph {
        pub chunks: IndexVec<ChunkIdx, TempChunk>,
    }

    pub struct LinkOutput {
        pub module_table: ModuleTable,
        pub metas: LinkingMetadataVec,
    }

    pub struct GenerateStage {
        pub link_output: LinkOutput,
    }

    include!(concat!(env!("OUT_DIR"), "/target_choice.rs"));

    impl GenerateStage {
        pub fn choose(
            &self,
            named: &[ChunkIdx],
            reached: &FxHashMap<ChunkIdx, FxHashSet<ChunkIdx>>,
            chunks: &ChunkGraph,
            importers: &FxHashMap<ModuleIdx, FxHashSet<ModuleIdx>>,
            candidate: &ChunkCandidate,
            temp: &ChunkOptimizationGraph,
        ) -> Option<ChunkIdx> {
            self.try_insert_into_existing_chunk(named, reached, chunks, importers, candidate, temp)
        }
    }
}

use chunk_optimizer::{
    Chunk, ChunkCandidate, ChunkGraph, ChunkKind, ChunkMeta, ChunkOptimizationGraph, GenerateStage, LinkOutput,
    LinkingMetadata, Module, NormalModule, TempChunk,
};

fn chunk(number: u32) -> ChunkIdx {
    ChunkIdx::from_raw(number)
}

fn module(number: u32) -> ModuleIdx {
    ModuleIdx::from_raw(number)
}

/// What the original reads of lent lists that aren't refused.
pub struct Original {
    stage: GenerateStage,
    chunks: ChunkGraph,
    reached: FxHashMap<ChunkIdx, FxHashSet<ChunkIdx>>,
    importers: FxHashMap<ModuleIdx, FxHashSet<ModuleIdx>>,
    candidate: ChunkCandidate,
    temp: ChunkOptimizationGraph,
    named: Vec<ChunkIdx>,
}

impl Original {
    pub fn new(entries: &Entries, candidate: &[u32], set: [u64; 4]) -> Self {
        let kind = |place: usize| match entries.kinds[place] {
            8 => ChunkKind::Common,
            meta => ChunkKind::EntryPoint { meta: ChunkMeta(meta), module: module(entries.entry_modules[place]) },
        };
        let chunks = 0..entries.k as usize;
        let modules = 0..entries.m as usize;
        let exports = |place: usize| entries.observable_exports[place] != 0;
        Self {
            stage: GenerateStage {
                link_output: LinkOutput {
                    module_table: (modules.clone())
                        .map(|place| {
                            let importers_idx = entries.importers.list(place).iter().map(|&by| module(by)).collect();
                            Module(NormalModule { importers_idx })
                        })
                        .collect(),
                    // Exports show in one of two ways.
                    metas: (modules.clone())
                        .map(|place| LinkingMetadata {
                            has_dynamic_exports: exports(place) && place % 2 == 0,
                            exports: if exports(place) && place % 2 == 1 { vec![0] } else { vec![] },
                        })
                        .collect(),
                },
            },
            chunks: ChunkGraph {
                chunk_table: (chunks.clone())
                    .map(|place| Chunk {
                        kind: kind(place),
                        modules: entries.modules.list(place).iter().map(|&number| module(number)).collect(),
                    })
                    .collect(),
            },
            // A chunk that reaches nothing has an empty set or none.
            reached: (chunks.clone())
                .filter(|&place| place % 2 == 0 || !entries.reached.list(place).is_empty())
                .map(|place| {
                    let list = entries.reached.list(place).iter().map(|&number| chunk(number)).collect();
                    (chunk(place as u32), list)
                })
                .collect(),
            importers: (modules)
                .filter(|&place| !entries.dynamic_importers.list(place).is_empty())
                .map(|place| {
                    let list = entries.dynamic_importers.list(place).iter().map(|&by| module(by)).collect();
                    (module(place as u32), list)
                })
                .collect(),
            candidate: ChunkCandidate { modules: candidate.iter().map(|&number| module(number)).collect() },
            temp: ChunkOptimizationGraph {
                chunks: chunks.map(|place| TempChunk { has_side_effects: entries.side_effects[place] != 0 }).collect(),
            },
            named: (0..256u32).filter(|bit| set[*bit as usize / 64] >> (bit % 64) & 1 == 1).map(chunk).collect(),
        }
    }

    pub fn choose(&self) -> Option<u32> {
        let (reached, importers) = (&self.reached, &self.importers);
        let found = self.stage.choose(&self.named, reached, &self.chunks, importers, &self.candidate, &self.temp);
        found.map(|number| number.raw())
    }
}

/// The original's answer.
pub fn choose(entries: &Entries, candidate: &[u32], set: [u64; 4]) -> Option<u32> {
    Original::new(entries, candidate, set).choose()
}
