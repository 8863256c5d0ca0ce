//! Merge graph cases: what is run, compared and shrunk.
use crate::library::{Library, MergeLoad, Reply};
use crate::merges_calls::{self, MergeCall, size_refusal};
use crate::merges_model::{MergeState, NONE, Size};
use crate::original::OriginalMerges;
use crate::run::{Case, Counts, GUARD, Random, same, same_area, shorter};
use crate::sets::width;

/// A pass whose lists are made as long as there are candidates.
pub const FITTED: usize = usize::MAX;

/// What is wrong with what one call is lent.
#[derive(Clone, Debug, Default)]
pub struct Damage {
    pub size: Option<Size>,
    pub short: bool,
    pub cell: Option<(usize, u32)>,
}

impl Damage {
    pub fn none(&self) -> bool {
        self.size.is_none() && !self.short && self.cell.is_none()
    }
}

#[derive(Clone, Debug)]
pub struct MergeCase {
    pub size: Size,
    pub load: MergeLoad,
    pub extra: usize,
    pub short: bool,
    pub fill: u64,
    /// Starts from this consistent area in the place of loading; the original then stays out.
    pub crafted: Option<MergeState>,
    pub calls: Vec<(MergeCall, Damage)>,
}

/// An answer with the pass's kinds and numbers.
type Answer = (Reply, Vec<(u32, u32)>);

/// Kinds and numbers as lent, and a reply.
pub fn library_answer(library: &dyn Library, size: Size, area: &mut [u32], call: &MergeCall) -> Result<Answer, String> {
    Ok(match call {
        MergeCall::InitModule { module, bits, side_effects } => {
            (library.init_module(size, area, *module, bits, side_effects), vec![])
        }
        MergeCall::AddModule { module, chunk, side_effects } => {
            (library.add_module(size, area, *module, *chunk, side_effects), vec![])
        }
        MergeCall::Register { key, chunk } => (library.register(size, area, *key, *chunk), vec![]),
        MergeCall::ToTempIdx { key } => (library.to_temp_idx(size, area, *key), vec![]),
        MergeCall::Calc { starts, dependencies } => (library.calc(size, area, starts, dependencies), vec![]),
        MergeCall::Warning { source, target } => (library.warning(size, area, *source, *target), vec![]),
        MergeCall::IsReachable { from, to } => (library.is_reachable(size, area, *from, *to), vec![]),
        MergeCall::Merge { target, source } => (library.merge(size, area, *target, *source), vec![]),
        MergeCall::Pass { proposals, bars, kinds, numbers } => {
            let fill = |place: usize| 0x5eed_0000 + place as u32;
            let (k, n) = (*kinds, *numbers);
            let mut kinds: Vec<u32> = (0..k + GUARD).map(fill).collect();
            let mut numbers: Vec<u32> = (0..n + GUARD).map(fill).collect();
            let reply = library.pass(size, area, proposals, bars, &mut kinds[..k], &mut numbers[..n]);
            let untouched = |list: &[u32], from: usize| (from..list.len()).all(|place| list[place] == fill(place));
            if !untouched(&kinds, k) || !untouched(&numbers, n) {
                return Err("wrote past an answer list".into());
            }
            if reply.refusal != 0 {
                if !untouched(&kinds, 0) || !untouched(&numbers, 0) {
                    return Err(format!("refused {} and wrote an answer list", reply.refusal));
                }
                return Ok((reply, vec![]));
            }
            kinds.truncate(k);
            numbers.truncate(n);
            (reply, kinds.into_iter().zip(numbers).collect())
        }
    })
}

/// The same call with a fitted pass's lists written out.
pub fn fitted(call: &MergeCall, state: &MergeState) -> MergeCall {
    match call {
        MergeCall::Pass { proposals, bars, kinds: FITTED, .. } => {
            let count = state.candidates().len();
            let cycle = |list: &[u32], none: u32| -> Vec<u32> {
                (0..count).map(|place| if list.is_empty() { none } else { list[place % list.len()] }).collect()
            };
            MergeCall::Pass { proposals: cycle(proposals, NONE), bars: cycle(bars, 0), kinds: count, numbers: count }
        }
        other => other.clone(),
    }
}

/// Rows 14, 15, 21 and the rest on an area.
fn model_on_area(size: Size, area: &[u32], call: &MergeCall) -> (Answer, Option<MergeState>) {
    let row = size_refusal(size, area.len(), call);
    if row != 0 {
        return ((Reply::refused(row), vec![]), None);
    }
    match MergeState::decode(size, area) {
        None => ((Reply::refused(21), vec![]), None),
        Some(mut state) => (state.call(size, call), Some(state)),
    }
}

/// Compares an area after an unrefused call with the state, and its free cells and the guard with those before.
fn same_state(size: Size, state: &MergeState, area: &[u32], before: &[u32], loading: bool) -> Result<(), String> {
    match MergeState::decode(size, area) {
        Some(other) if other == *state => {}
        Some(other) => return Err(format!("area holds {other:?}, expected {state:?}")),
        None => return Err(format!("area is inconsistent, expected {state:?}")),
    }
    match state.free_cells(size, area.len(), loading).into_iter().find(|&cell| area[cell] != before[cell]) {
        None => Ok(()),
        Some(cell) => Err(format!("free cell {cell} was written: {}, before {}", area[cell], before[cell])),
    }
}

fn original_of(size: Size, load: &MergeLoad) -> Option<OriginalMerges> {
    let w = width(size.e) as usize;
    let part = |place: usize| load.module_starts[place] as usize..load.module_starts[place + 1] as usize;
    let modules: Vec<Vec<u32>> = (0..load.initial as usize).map(|place| load.modules[part(place)].to_vec()).collect();
    let pairs: Vec<(Vec<u64>, u32)> = (load.set_chunks.iter().enumerate())
        .map(|(pair, &chunk)| (load.sets[pair * w..(pair + 1) * w].to_vec(), chunk))
        .collect();
    OriginalMerges::found(size.c as u32, &modules, &pairs, &load.side_effects)
}

/// The original's answer to a call that isn't refused.
fn original_answer(original: &mut OriginalMerges, call: &MergeCall) -> Answer {
    let mut value = 0;
    match call {
        MergeCall::InitModule { module, bits, side_effects } => {
            original.init_module_assignment(*module, bits, side_effects);
        }
        MergeCall::AddModule { module, chunk, side_effects } => {
            original.add_module_to_chunk(*module, *chunk, side_effects);
        }
        MergeCall::Register { key, chunk } => original.register_chunk_graph_index(*key, *chunk),
        MergeCall::ToTempIdx { key } => value = original.to_temp_idx(*key).unwrap_or(NONE).into(),
        MergeCall::Calc { starts, dependencies } => {
            let lists: Vec<Vec<u32>> =
                (starts.windows(2)).map(|pair| dependencies[pair[0] as usize..pair[1] as usize].to_vec()).collect();
            original.calc_chunk_dependencies(&lists);
        }
        MergeCall::Warning { source, target } => {
            value = original.would_create_circular_dependency(*source, *target).into();
        }
        MergeCall::IsReachable { from, to } => value = original.is_reachable(*from, *to).into(),
        MergeCall::Merge { target, source } => original.merge_chunk_dependencies(*target, *source),
        MergeCall::Pass { proposals, bars, .. } => {
            let proposals: Vec<Option<u32>> = proposals.iter().map(|&chunk| (chunk != NONE).then_some(chunk)).collect();
            let answers = original.pass(&proposals, bars);
            return (Reply::value(answers.len() as u64), answers);
        }
    }
    (Reply::value(value), vec![])
}

impl MergeCase {
    fn fresh_area(&self) -> Vec<u32> {
        let size = self.size;
        let far = size.c > 1024 || size.m > 4096 || size.l > 8192;
        let length = if far { 64 } else { size.layout().length() };
        let length = if self.short { length - 1 } else { length + self.extra };
        let mut random = Random(self.fill);
        (0..length + GUARD).map(|_| random.next() as u32).collect()
    }

    fn check_damaged(
        &self,
        library: &dyn Library,
        area: &[u32],
        call: &MergeCall,
        damage: &Damage,
        counts: &mut Counts,
    ) -> Result<(), String> {
        let mut ours = area.to_vec();
        let mut lent = area.len() - GUARD;
        if let Some((cell, value)) = damage.cell {
            ours[cell] = value;
        }
        if damage.short {
            lent = self.size.layout().length() - 1;
        }
        let size = damage.size.unwrap_or(self.size);
        let before = ours.clone();
        let (expected, state) = model_on_area(size, &ours[..lent], call);
        let answer = library_answer(library, size, &mut ours[..lent], call)?;
        if damage.cell.is_some() && damage.size.is_none() && !damage.short {
            if expected.0.refusal == 21 { counts.damaged_refused += 1 } else { counts.damaged_consistent += 1 }
        }
        counts.refused(expected.0.refusal);
        same("damaged call", &answer, &expected)?;
        match state {
            Some(state) if expected.0.refusal == 0 => same_state(size, &state, &ours, &before, false),
            _ => same_area("damaged call", &ours, &before),
        }
    }
}

impl Case for MergeCase {
    fn check(&self, library: Option<&dyn Library>, counts: &mut Counts) -> Result<(), String> {
        counts.cases += 1;
        counts.calls += 1;
        let size = self.size;
        let mut area = self.fresh_area();
        let lent = area.len() - GUARD;
        if let Some(state) = &self.crafted {
            state.encode(size, &mut area[..lent]);
            let mut running = Running { library, original: None, state: state.clone(), area };
            return self.check_calls(&mut running, counts);
        }
        let loaded = merges_calls::new(size, &self.load, lent);
        let row = loaded.as_ref().err().copied().unwrap_or(0);
        counts.refused(row);
        if let Some(library) = library {
            let before = area.clone();
            same("loading", &library.merge_new(size, &self.load, &mut area[..lent]), &Reply::refused(row))?;
            match &loaded {
                Err(_) => same_area("loading", &area, &before)?,
                Ok(state) => same_state(size, state, &area, &before, true).map_err(|why| format!("loading: {why}"))?,
            }
        }
        let Ok(state) = loaded else { return Ok(()) };
        if state.mode {
            // The original has no such mode.
            return self.check_calls(&mut Running { library, original: None, state, area }, counts);
        }
        let original = original_of(size, &self.load);
        if let Some(original) = &original {
            same("original's state at loading against the model", &original.view(), &state.view())?;
        }
        self.check_calls(&mut Running { library, original, state, area }, counts)
    }

    fn smaller(&self) -> Box<dyn Iterator<Item = Self> + '_> {
        let load = &self.load;
        let calls = shorter(&self.calls).map(|calls| Self { calls, ..self.clone() });
        let dependencies = self.calls.iter().enumerate().flat_map(move |(place, (call, _))| {
            let entries = if let MergeCall::Calc { dependencies, .. } = call { dependencies.len() } else { 0 };
            (0..entries).rev().map(move |entry| self.without_dependency(place, entry))
        });
        let tight = (self.extra > 0).then(|| Self { extra: 0, ..self.clone() });
        let entries = if load.module_starts.len() as u64 == load.initial + 1 { load.modules.len() } else { 0 };
        let modules = (0..entries).rev().map(|entry| self.without_module(entry));
        let w = width(self.size.e) as usize;
        let pairs = if load.sets.len() == w * load.set_chunks.len() { load.set_chunks.len() } else { 0 };
        let sets = (0..pairs).rev().map(|pair| self.without_set(pair));
        Box::new(calls.chain(dependencies).chain(tight).chain(modules).chain(sets))
    }
}

/// Takes an entry out of lists that lie one behind the other.
fn remove_entry(starts: &mut [u32], list: &mut Vec<u32>, entry: usize) {
    list.remove(entry);
    starts.iter_mut().filter(|start| **start as usize > entry).for_each(|start| *start -= 1);
}

impl MergeCase {
    fn without_dependency(&self, place: usize, entry: usize) -> Self {
        let mut case = self.clone();
        if let MergeCall::Calc { starts, dependencies } = &mut case.calls[place].0 {
            remove_entry(starts, dependencies, entry);
        }
        case
    }

    fn without_module(&self, entry: usize) -> Self {
        let mut case = self.clone();
        remove_entry(&mut case.load.module_starts, &mut case.load.modules, entry);
        case
    }

    fn without_set(&self, pair: usize) -> Self {
        let w = width(self.size.e) as usize;
        let mut case = self.clone();
        case.load.set_chunks.remove(pair);
        case.load.sets.drain(pair * w..(pair + 1) * w);
        case
    }
}

/// What the calls of a case are run on.
struct Running<'a> {
    library: Option<&'a dyn Library>,
    original: Option<OriginalMerges>,
    state: MergeState,
    area: Vec<u32>,
}

impl Running<'_> {
    /// The original's answer and state against the model's.
    fn same_original(&mut self, call: &MergeCall, answer: &Answer) -> Result<(), String> {
        let Some(original) = self.original.as_mut().filter(|_| answer.0.refusal == 0) else { return Ok(()) };
        same("original against the model", &original_answer(original, call), answer)?;
        same("original's state against the model", &original.view(), &self.state.view())
    }

    /// The library's answer and area against the model's.
    fn same_library(&mut self, size: Size, call: &MergeCall, answer: &Answer) -> Result<(), String> {
        let Some(library) = self.library else { return Ok(()) };
        let before = self.area.clone();
        let lent = self.area.len() - GUARD;
        same("answer", &library_answer(library, size, &mut self.area[..lent], call)?, answer)?;
        if answer.0.refusal != 0 {
            same_area("refused", &self.area, &before)
        } else {
            same_state(size, &self.state, &self.area, &before, false)
        }
    }
}

fn count_answer(call: &MergeCall, answer: &Answer, counts: &mut Counts) {
    counts.refused(answer.0.refusal);
    match call {
        MergeCall::Warning { .. } if answer.0 == Reply::value(1) => counts.warned += 1,
        MergeCall::Warning { .. } if answer.0 == Reply::value(0) => counts.unwarned += 1,
        _ => {}
    }
    counts.merged += answer.1.iter().filter(|(kind, _)| *kind == 0).count() as u64;
    counts.created += answer.1.iter().filter(|(kind, _)| *kind == 1).count() as u64;
}

impl MergeCase {
    fn check_calls(&self, running: &mut Running, counts: &mut Counts) -> Result<(), String> {
        let size = self.size;
        for (place, (call, damage)) in self.calls.iter().enumerate() {
            counts.calls += 1;
            let at = |why: String| format!("call {place}: {why}");
            let call = &fitted(call, &running.state);
            if !damage.none() {
                if let Some(library) = running.library {
                    self.check_damaged(library, &running.area, call, damage, counts).map_err(at)?;
                }
                continue;
            }
            let row = size_refusal(size, usize::MAX, call);
            let answer = if row != 0 { (Reply::refused(row), vec![]) } else { running.state.call(size, call) };
            count_answer(call, &answer, counts);
            running.same_original(call, &answer).map_err(at)?;
            running.same_library(size, call, &answer).map_err(at)?;
        }
        Ok(())
    }
}
