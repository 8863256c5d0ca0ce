//! The merge graph by documents 01 and 02 (vii), worked out plainly: what an area holds.
use std::collections::BTreeSet;

use crate::layout::MergeLayout;
use crate::sets::Set;
use crate::views::MergeView;

pub const NONE: u32 = u32::MAX;

/// C, M, L and E.
#[derive(Clone, Copy, Debug, PartialEq, Eq)]
pub struct Size {
    pub c: u64,
    pub m: u64,
    pub l: u64,
    pub e: u64,
}

impl Size {
    pub fn layout(self) -> MergeLayout {
        MergeLayout { c: self.c as usize, m: self.m as usize, l: self.l as usize }
    }

    /// Row 14 as far as the sizes go.
    pub fn over(self) -> bool {
        self.c == 0 || self.c > 1024 || self.m > 4096 || self.l > 8192 || self.e > 256
    }
}

/// What a merge area holds.
#[derive(Clone, Debug, PartialEq, Eq)]
pub struct MergeState {
    pub initial: u32,
    pub created: u32,
    /// By made chunk.
    pub dependencies: Vec<BTreeSet<u32>>,
    pub side_effects: Vec<bool>,
    pub needs_creation: Vec<bool>,
    /// In the order of naming.
    pub sets: Vec<(Set, u32)>,
    /// (chunk, module) in the order of appending.
    pub entries: Vec<(u32, u32)>,
    pub module_chunk: Vec<Option<u32>>,
    /// By key below C.
    pub registered: Vec<Option<u32>>,
    /// Merged chunks stand for their target.
    pub mode: bool,
    /// By made chunk: the one that it was merged into. In the mode only.
    pub merged_into: Vec<Option<u32>>,
}

/// By made chunk, unless a flag says that a chunk depends on itself, or one not yet made depends or is depended on.
fn decode_dependencies(at: MergeLayout, area: &[u32], made: usize) -> Option<Vec<BTreeSet<u32>>> {
    let mut dependencies = vec![BTreeSet::new(); made];
    for from in 0..at.c {
        for to in 0..at.c {
            match area[at.dependency(from, to)] {
                0 => {}
                _ if from < made && to < made && from != to => {
                    dependencies[from].insert(to as u32);
                }
                _ => return None,
            }
        }
    }
    Some(dependencies)
}

/// What each chunk was merged into, unless a merge is out of range, of a chunk not yet made, or one of a ring.
fn decode_merges(at: MergeLayout, area: &[u32], made: usize) -> Option<Vec<Option<u32>>> {
    let into = |chunk: usize| area[at.chunk_lane(MergeLayout::MERGED_INTO, chunk)];
    if (0..at.c).any(|chunk| into(chunk) != NONE && (chunk >= made || into(chunk) as usize >= made)) {
        return None;
    }
    let merged_into: Vec<Option<u32>> =
        (0..made).map(|chunk| Some(into(chunk)).filter(|&chunk| chunk != NONE)).collect();
    for chunk in 0..made {
        let mut merges = 0;
        let mut at = chunk;
        while let Some(next) = merged_into[at] {
            at = next as usize;
            merges += 1;
            if merges > made {
                return None;
            }
        }
    }
    Some(merged_into)
}

/// A named set and its chunk.
fn decode_set(at: MergeLayout, area: &[u32], set: usize) -> (Set, u32) {
    let halves = std::array::from_fn(|word| area[at.set_word(word, set)]);
    (Set::from_halves(halves), area[at.set_word(8, set)])
}

impl MergeState {
    pub fn made(&self) -> u32 {
        self.dependencies.len() as u32
    }

    pub fn candidates(&self) -> Vec<u32> {
        (0..self.made()).filter(|&chunk| self.needs_creation[chunk as usize] && !self.is_gone(chunk)).collect()
    }

    pub fn view(&self) -> MergeView {
        let mut sets = self.sets.clone();
        sets.sort_unstable();
        MergeView {
            dependencies: self.dependencies.iter().map(|set| set.iter().copied().collect()).collect(),
            side_effects: self.side_effects.clone(),
            needs_creation: self.needs_creation.clone(),
            modules: (0..self.made())
                .map(|chunk| self.entries.iter().filter_map(|&(at, module)| (at == chunk).then_some(module)).collect())
                .collect(),
            sets,
            module_chunk: self.module_chunk.clone(),
            registered: self.registered.clone(),
        }
    }

    pub fn append(&mut self, chunk: u32, module: u32, side_effects: &[u32]) {
        self.entries.push((chunk, module));
        self.side_effects[chunk as usize] |= side_effects[module as usize] != 0;
        self.module_chunk[module as usize] = Some(chunk);
    }

    pub fn new_chunk(&mut self, needs_creation: bool) -> u32 {
        self.dependencies.push(BTreeSet::new());
        self.side_effects.push(false);
        self.needs_creation.push(needs_creation);
        self.merged_into.push(None);
        self.made() - 1
    }

    /// Was merged away, in the mode.
    pub fn is_gone(&self, chunk: u32) -> bool {
        self.merged_into.get(chunk as usize).copied().flatten().is_some()
    }

    /// "the chunk at the end of its merges"
    fn end(&self, mut chunk: u32) -> u32 {
        while let Some(next) = self.merged_into[chunk as usize] {
            chunk = next;
        }
        chunk
    }

    /// "a stored dependency on a merged chunk, or of one, counts as on or of the chunk at the end of its merges, and dependencies
    /// on oneself are dropped"; with `name` naming the ends.
    fn counted(&self, name: impl Fn(u32) -> u32) -> Vec<BTreeSet<u32>> {
        let mut counted = vec![BTreeSet::new(); self.made() as usize];
        for (from, members) in (0..).zip(&self.dependencies) {
            for &to in members {
                let (from, to) = (name(self.end(from)), name(self.end(to)));
                if from != to {
                    counted[from as usize].insert(to);
                }
            }
        }
        counted
    }

    /// Chunks in `from`, and all that they lead to.
    fn closed(dependencies: &[BTreeSet<u32>], from: &BTreeSet<u32>) -> BTreeSet<u32> {
        let mut members = from.clone();
        loop {
            let more: BTreeSet<u32> =
                members.iter().flat_map(|&chunk| dependencies[chunk as usize].iter().copied()).collect();
            if more.is_subset(&members) {
                return members;
            }
            members.extend(more);
        }
    }

    pub fn warning(&self, source: u32, target: u32) -> bool {
        if self.mode {
            // "yes exactly when the fused chunk lies on a cycle with another"
            let fused = self.counted(|chunk| if chunk == source { target } else { chunk });
            return Self::closed(&fused, &fused[target as usize]).contains(&target);
        }
        let union = &self.dependencies[source as usize] | &self.dependencies[target as usize];
        let members = Self::closed(&self.dependencies, &union);
        members.contains(&target) || members.iter().any(|&chunk| self.dependencies[chunk as usize].contains(&source))
    }

    pub fn is_reachable(&self, from: u32, to: u32) -> bool {
        if self.mode {
            let counted = self.counted(|chunk| chunk);
            return Self::closed(&counted, &counted[self.end(from) as usize]).contains(&self.end(to));
        }
        Self::closed(&self.dependencies, &self.dependencies[from as usize]).contains(&to)
    }

    pub fn merge(&mut self, target: u32, source: u32) {
        let from = std::mem::take(&mut self.dependencies[source as usize]);
        if self.mode {
            self.merged_into[source as usize] = Some(target);
        }
        let (target, source) = (target as usize, source as usize);
        self.dependencies[target].extend(from);
        self.dependencies[target].remove(&(target as u32));
        self.side_effects[target] |= self.side_effects[source];
    }

    /// The state that an area holds, if it is consistent. A flag that isn't 0 says yes; the side effects and need of creation
    /// of a chunk not yet made aren't looked at.
    pub fn decode(size: Size, area: &[u32]) -> Option<Self> {
        let at = size.layout();
        let header = |number| area[at.header(number)];
        let (initial, made) = (header(MergeLayout::INITIAL), header(MergeLayout::MADE) as usize);
        let (sets, entries) = (header(MergeLayout::SETS) as usize, header(MergeLayout::ENTRIES) as usize);
        if initial as usize > made || made > at.c || sets > at.c + made || entries > at.l {
            return None;
        }
        let maybe = |chunk: u32| (chunk != NONE).then_some(chunk);
        let lane = |lane, count: usize| (0..count).map(move |chunk| area[at.chunk_lane(lane, chunk)]);
        let entry = |lane, entry| area[at.entry_lane(lane, entry)];
        let mode = header(MergeLayout::MODE) != 0;
        let state = Self {
            initial,
            created: header(MergeLayout::CREATED),
            dependencies: decode_dependencies(at, area, made)?,
            side_effects: lane(MergeLayout::SIDE_EFFECTS, made).map(|flag| flag != 0).collect(),
            needs_creation: lane(MergeLayout::NEEDS_CREATION, made).map(|flag| flag != 0).collect(),
            sets: (0..sets).map(|set| decode_set(at, area, set)).collect(),
            entries: (0..entries)
                .map(|place| (entry(MergeLayout::ENTRY_CHUNK, place), entry(MergeLayout::ENTRY_MODULE, place)))
                .collect(),
            module_chunk: (0..at.m)
                .map(|module| maybe(area[at.module_lane(MergeLayout::MODULE_CHUNK, module)]))
                .collect(),
            registered: lane(MergeLayout::KEY, at.c).map(maybe).collect(),
            mode,
            merged_into: if mode { decode_merges(at, area, made)? } else { vec![None; made] },
        };
        state.is_sound(size).then_some(state)
    }

    /// Row 21 but for the header and the dependencies.
    fn is_sound(&self, size: Size) -> bool {
        let below = |chunk: u32| chunk < self.made();
        let distinct: BTreeSet<Set> = self.sets.iter().map(|&(set, _)| set).collect();
        distinct.len() == self.sets.len()
            && self.sets.iter().all(|&(set, chunk)| set.below(size.e) && below(chunk))
            && self.entries.iter().all(|&(chunk, module)| below(chunk) && u64::from(module) < size.m)
            && self.module_chunk.iter().chain(&self.registered).all(|chunk| chunk.is_none_or(below))
            && !self.needs_creation[..self.initial as usize].contains(&true)
    }

    /// Lays every field over the area; cells of no field stay, and so do the flags of chunks not yet made.
    pub fn encode(&self, size: Size, area: &mut [u32]) {
        let at = size.layout();
        area[..at.c * at.c].fill(0);
        for (from, members) in self.dependencies.iter().enumerate() {
            for &to in members {
                area[at.dependency(from, to as usize)] = 1;
            }
        }
        area[at.header(MergeLayout::INITIAL)] = self.initial;
        area[at.header(MergeLayout::MADE)] = self.made();
        area[at.header(MergeLayout::CREATED)] = self.created;
        area[at.header(MergeLayout::SETS)] = self.sets.len() as u32;
        area[at.header(MergeLayout::ENTRIES)] = self.entries.len() as u32;
        area[at.header(MergeLayout::MODE)] = self.mode.into();
        if self.mode {
            for chunk in 0..at.c {
                area[at.chunk_lane(MergeLayout::MERGED_INTO, chunk)] =
                    self.merged_into.get(chunk).copied().flatten().unwrap_or(NONE);
            }
        }
        for (place, &(set, chunk)) in self.sets.iter().enumerate() {
            for (word, half) in set.halves().into_iter().enumerate() {
                area[at.set_word(word, place)] = half;
            }
            area[at.set_word(8, place)] = chunk;
        }
        for chunk in 0..self.made() as usize {
            area[at.chunk_lane(MergeLayout::SIDE_EFFECTS, chunk)] = self.side_effects[chunk].into();
            area[at.chunk_lane(MergeLayout::NEEDS_CREATION, chunk)] = self.needs_creation[chunk].into();
        }
        for (key, chunk) in self.registered.iter().enumerate() {
            area[at.chunk_lane(MergeLayout::KEY, key)] = chunk.unwrap_or(NONE);
        }
        for (module, chunk) in self.module_chunk.iter().enumerate() {
            area[at.module_lane(MergeLayout::MODULE_CHUNK, module)] = chunk.unwrap_or(NONE);
        }
        for (entry, &(chunk, module)) in self.entries.iter().enumerate() {
            area[at.entry_lane(MergeLayout::ENTRY_CHUNK, entry)] = chunk;
            area[at.entry_lane(MergeLayout::ENTRY_MODULE, entry)] = module;
        }
    }

    /// Cells of no field, and places of sets, chunks and entries not in use: no later call writes them. Loading may clear the
    /// flags of chunks not yet made.
    pub fn free_cells(&self, size: Size, before: usize, loading: bool) -> Vec<usize> {
        let at = size.layout();
        let mut field = vec![false; before];
        let mut used = |cell: usize| field[cell] = true;
        (0..at.c * at.c).for_each(&mut used);
        (0..6).for_each(|number| used(at.header(number)));
        if self.mode || loading {
            (0..at.c).for_each(|chunk| used(at.chunk_lane(MergeLayout::MERGED_INTO, chunk)));
        }
        for place in 0..self.sets.len() {
            (0..9).for_each(|word| used(at.set_word(word, place)));
        }
        for chunk in 0..if loading { at.c } else { self.made() as usize } {
            used(at.chunk_lane(MergeLayout::SIDE_EFFECTS, chunk));
            used(at.chunk_lane(MergeLayout::NEEDS_CREATION, chunk));
        }
        (0..at.c).for_each(|key| used(at.chunk_lane(MergeLayout::KEY, key)));
        (0..at.m).for_each(|module| used(at.module_lane(MergeLayout::MODULE_CHUNK, module)));
        for entry in 0..self.entries.len() {
            used(at.entry_lane(MergeLayout::ENTRY_CHUNK, entry));
            used(at.entry_lane(MergeLayout::ENTRY_MODULE, entry));
        }
        (0..before).filter(|&cell| !field[cell]).collect()
    }
}
