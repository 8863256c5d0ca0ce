//! The merge graph's calls by documents 01 and 02 (vii): refusals in their order, answers, the state afterwards.
use std::collections::BTreeSet;

use crate::library::{MergeLoad, Reply};
use crate::merges_model::{MergeState, NONE, Size};
use crate::sets::{Set, lent_set, width};

/// Row 4's condition on starts.
fn faulty(starts: &[u32], end: usize) -> bool {
    starts[0] != 0 || starts.windows(2).any(|pair| pair[0] > pair[1]) || starts[starts.len() - 1] as usize != end
}

/// A row, if it fits.
fn fits(yes: bool, row: u64) -> Result<(), u64> {
    if yes { Err(row) } else { Ok(()) }
}

/// A call on a merge area.
#[derive(Clone, Debug, PartialEq, Eq)]
pub enum MergeCall {
    InitModule { module: u32, bits: Vec<u64>, side_effects: Vec<u32> },
    AddModule { module: u32, chunk: u32, side_effects: Vec<u32> },
    Register { key: u32, chunk: u32 },
    ToTempIdx { key: u32 },
    Calc { starts: Vec<u32>, dependencies: Vec<u32> },
    Warning { source: u32, target: u32 },
    IsReachable { from: u32, to: u32 },
    Merge { target: u32, source: u32 },
    Pass { proposals: Vec<u32>, bars: Vec<u32>, kinds: usize, numbers: usize },
}

/// The sets that are named at loading, or the first fitting row.
fn checked_sets(size: Size, load: &MergeLoad, area: usize) -> Result<Vec<Set>, u64> {
    let pairs = load.set_chunks.len() as u64;
    if size.over() || load.initial > size.c || pairs > size.c {
        return Err(14);
    }
    let w = width(size.e) as usize;
    if load.module_starts.len() as u64 != load.initial + 1
        || faulty(&load.module_starts, load.modules.len())
        || load.sets.len() != load.set_chunks.len() * w
        || load.side_effects.len() as u64 != size.m
        || area < size.layout().length()
    {
        return Err(15);
    }
    let sets: Vec<Set> =
        (0..load.set_chunks.len()).map(|pair| Set::from_words(&load.sets[pair * w..(pair + 1) * w])).collect();
    if load.modules.iter().any(|&module| u64::from(module) >= size.m)
        || sets.iter().any(|set| !set.below(size.e))
        || load.set_chunks.iter().any(|&chunk| u64::from(chunk) >= load.initial)
    {
        return Err(16);
    }
    if sets.iter().collect::<BTreeSet<_>>().len() != sets.len() {
        return Err(17);
    }
    if load.modules.len() as u64 > size.l {
        return Err(19);
    }
    Ok(sets)
}

/// Loading: the refusal or the state.
pub fn new(size: Size, load: &MergeLoad, area: usize) -> Result<MergeState, u64> {
    let sets = checked_sets(size, load, area)?;
    let mut state = MergeState {
        initial: load.initial as u32,
        created: 0,
        dependencies: vec![],
        side_effects: vec![],
        needs_creation: vec![],
        sets: sets.into_iter().zip(load.set_chunks.iter().copied()).collect(),
        entries: vec![],
        module_chunk: vec![None; size.m as usize],
        registered: (0..size.c).map(|key| (key < load.initial).then_some(key as u32)).collect(),
        mode: load.mode != 0,
        merged_into: vec![],
    };
    for place in 0..load.initial as usize {
        let chunk = state.new_chunk(false);
        for &module in &load.modules[load.module_starts[place] as usize..load.module_starts[place + 1] as usize] {
            state.append(chunk, module, &load.side_effects);
        }
    }
    Ok(state)
}

/// Rows 14 and 15 of a later call, but for the pass's own lists.
pub fn size_refusal(size: Size, area: usize, call: &MergeCall) -> u64 {
    if size.over() {
        return 14;
    }
    match call {
        MergeCall::Calc { dependencies, .. } if dependencies.len() > 8192 => return 14,
        MergeCall::Calc { starts, dependencies } => {
            if starts.len() as u64 != size.m + 1 || faulty(starts, dependencies.len()) {
                return 15;
            }
        }
        MergeCall::InitModule { side_effects, .. } | MergeCall::AddModule { side_effects, .. } => {
            if side_effects.len() as u64 != size.m {
                return 15;
            }
        }
        _ => {}
    }
    if area < size.layout().length() { 15 } else { 0 }
}

impl MergeState {
    /// A call after 14, 15 and 21: the answer and the pass's kinds and numbers.
    pub fn call(&mut self, size: Size, call: &MergeCall) -> (Reply, Vec<(u32, u32)>) {
        match self.checked(size, call) {
            Ok((value, lists)) => (Reply::value(value), lists),
            Err(refusal) => (Reply::refused(refusal), vec![]),
        }
    }

    fn checked(&mut self, size: Size, call: &MergeCall) -> Result<(u64, Vec<(u32, u32)>), u64> {
        let mut value = 0;
        match call {
            MergeCall::InitModule { module, bits, side_effects } => {
                self.init_module(size, *module, bits, side_effects)?;
            }
            MergeCall::AddModule { module, chunk, side_effects } => {
                self.add_module(size, *module, *chunk, side_effects)?;
            }
            MergeCall::Register { key, chunk } => self.register(size, *key, *chunk)?,
            MergeCall::ToTempIdx { key } => {
                value = self.registered.get(*key as usize).copied().flatten().unwrap_or(NONE).into();
            }
            MergeCall::Calc { starts, dependencies } => {
                fits(dependencies.iter().any(|&module| u64::from(module) >= size.m), 16)?;
                self.add_dependencies(starts, dependencies);
            }
            MergeCall::Warning { source, target } => {
                self.two_chunks(*source, *target)?;
                value = self.warning(*source, *target).into();
            }
            MergeCall::IsReachable { from, to } => {
                fits(self.no_chunk(*from) || self.no_chunk(*to), 16)?;
                value = self.is_reachable(*from, *to).into();
            }
            MergeCall::Merge { target, source } => {
                self.two_chunks(*source, *target)?;
                self.merge(*target, *source);
            }
            MergeCall::Pass { proposals, bars, kinds, numbers } => {
                let candidates = self.pass_candidates(size, proposals, [bars.len(), *kinds, *numbers])?;
                return Ok((candidates.len() as u64, self.pass(&candidates, proposals, bars)));
            }
        }
        Ok((value, vec![]))
    }

    fn no_chunk(&self, chunk: u32) -> bool {
        chunk >= self.made()
    }

    fn full(&self, size: Size) -> bool {
        self.entries.len() as u64 >= size.l
    }

    /// Rows 16, 20 and 28.
    fn two_chunks(&self, source: u32, target: u32) -> Result<(), u64> {
        fits(self.no_chunk(source) || self.no_chunk(target), 16)?;
        fits(source == target, 20)?;
        fits(self.is_gone(source) || self.is_gone(target), 28)
    }

    fn init_module(&mut self, size: Size, module: u32, bits: &[u64], side_effects: &[u32]) -> Result<(), u64> {
        fits(u64::from(module) >= size.m, 16)?;
        let set = lent_set(bits, size.e).ok_or(16_u64)?;
        let named = self.sets.iter().find(|(other, _)| *other == set).map(|&(_, chunk)| chunk);
        fits(named.is_none() && u64::from(self.made()) >= size.c, 18)?;
        fits(self.full(size), 19)?;
        let chunk = named.unwrap_or_else(|| {
            let chunk = self.new_chunk(true);
            self.sets.push((set, chunk));
            chunk
        });
        self.append(chunk, module, side_effects);
        Ok(())
    }

    fn add_module(&mut self, size: Size, module: u32, chunk: u32, side_effects: &[u32]) -> Result<(), u64> {
        fits(u64::from(module) >= size.m || self.no_chunk(chunk), 16)?;
        fits(self.full(size), 19)?;
        self.append(chunk, module, side_effects);
        Ok(())
    }

    fn register(&mut self, size: Size, key: u32, chunk: u32) -> Result<(), u64> {
        fits(u64::from(key) >= size.c || self.no_chunk(chunk), 16)?;
        self.registered[key as usize] = Some(chunk);
        Ok(())
    }

    fn add_dependencies(&mut self, starts: &[u32], dependencies: &[u32]) {
        for &(chunk, module) in &self.entries {
            let (from, to) = (starts[module as usize], starts[module as usize + 1]);
            for &other in &dependencies[from as usize..to as usize] {
                if let Some(at) = self.module_chunk[other as usize].filter(|&at| at != chunk) {
                    self.dependencies[chunk as usize].insert(at);
                }
            }
        }
    }

    /// The pass's candidates, after rows 15, 16, 28 and 18; `lengths` are those of the bars and the two answer lists.
    fn pass_candidates(&self, size: Size, proposals: &[u32], lengths: [usize; 3]) -> Result<Vec<u32>, u64> {
        let candidates = self.candidates();
        let count = candidates.len();
        fits(proposals.len() != count || lengths != [count; 3], 15)?;
        fits(proposals.iter().any(|&chunk| chunk != NONE && chunk >= self.initial), 16)?;
        fits(proposals.iter().any(|&chunk| self.is_gone(chunk)), 28)?;
        let room = u64::from(self.initial) + u64::from(self.created) + count as u64;
        fits(room > size.c, 18)?;
        Ok(candidates)
    }

    fn pass(&mut self, candidates: &[u32], proposals: &[u32], bars: &[u32]) -> Vec<(u32, u32)> {
        let mut answers = vec![];
        for ((&candidate, &proposal), &bar) in candidates.iter().zip(proposals).zip(bars) {
            if proposal != NONE && bar == 0 && !self.warning(candidate, proposal) {
                self.merge(proposal, candidate);
                answers.push((0, proposal));
            } else {
                let number = self.initial + self.created;
                self.created += 1;
                self.registered[number as usize] = Some(candidate);
                answers.push((1, number));
            }
        }
        answers
    }
}
