//! Passes from chunks whose dependencies close no loop, in both modes, and a search for a loop after every candidate. The
//! search takes the lent lists and the pass's answers alone: it reads no area, and nothing of it is the library's or the
//! model's.
use std::collections::BTreeMap;

use crate::library::{Library, MergeLoad};
use crate::merges_model::{NONE, Size};
use crate::run::Random;
use crate::sets::{Set, words};

/// Modules with their sets, and what each depends on. Initial chunk e is named with the set {e}; every other set makes a
/// candidate.
#[derive(Clone, Debug)]
pub struct Start {
    pub e: u64,
    pub initial: usize,
    pub sets: Vec<Set>,
    pub dependencies: Vec<Vec<usize>>,
}

/// Its chunks, in the order of their numbers, and their dependencies.
#[derive(Clone, Debug)]
pub struct Chunks {
    pub initial: usize,
    pub sets: Vec<Set>,
    pub edges: Vec<(usize, usize)>,
}

/// The chunk that each module lies in, and the chunks' sets.
fn placed(start: &Start) -> (Vec<usize>, Vec<Set>) {
    let mut sets: Vec<Set> = (0..start.initial).map(Set::single).collect();
    let mut places: BTreeMap<Set, usize> = sets.iter().enumerate().map(|(chunk, &set)| (set, chunk)).collect();
    let chunks = (start.sets.iter())
        .map(|&set| {
            *places.entry(set).or_insert_with(|| {
                sets.push(set);
                sets.len() - 1
            })
        })
        .collect();
    (chunks, sets)
}

impl Start {
    pub fn chunks(&self) -> Chunks {
        let (places, sets) = placed(self);
        let pairs = self.dependencies.iter().enumerate().flat_map(|(module, list)| {
            let places = &places;
            list.iter().map(move |&other| (places[module], places[other]))
        });
        let mut edges: Vec<(usize, usize)> = pairs.filter(|(from, to)| from != to).collect();
        edges.sort_unstable();
        edges.dedup();
        Chunks { initial: self.initial, sets, edges }
    }

    /// Some chunks and modules; dependencies go up an order of the chunks, so that no loop is closed.
    pub fn made_up(random: &mut Random) -> Self {
        let large = random.chance(2);
        let initial = 1 + random.index(if large { 20 } else { 5 });
        let e = initial as u64 + random.below(4);
        let modules = 2 + random.index(if large { 60 } else { 12 });
        let set = |random: &mut Random| Set([1 + random.below((1 << e) - 1), 0, 0, 0]);
        let sets =
            (0..modules).map(|_| if random.chance(40) { Set::single(random.index(initial)) } else { set(random) });
        let mut start = Self { e, initial, sets: sets.collect(), dependencies: vec![] };
        let (places, named) = placed(&start);
        let ranks: Vec<u64> = named.iter().map(|_| random.next()).collect();
        let percent = random.pick(&[10, 25, 50]);
        start.dependencies = (0..modules)
            .map(|module| {
                (0..modules)
                    .filter(|&other| ranks[places[module]] < ranks[places[other]] && random.chance(percent))
                    .collect()
            })
            .collect();
        start
    }

    /// The area after loading, with the modules' sets and dependencies.
    pub fn area(&self, library: &dyn Library, mode: u32) -> Result<(Size, Vec<u32>), String> {
        let (m, c) = (self.sets.len(), self.chunks().sets.len());
        let size = Size { c: c as u64, m: m as u64, l: m as u64, e: self.e };
        let load = MergeLoad {
            initial: self.initial as u64,
            mode,
            module_starts: vec![0; self.initial + 1],
            modules: vec![],
            sets: (0..self.initial).flat_map(|bit| words(Set::single(bit), self.e)).collect(),
            set_chunks: (0..self.initial as u32).collect(),
            side_effects: vec![0; m],
        };
        let mut area = vec![0; size.layout().length()];
        let mut refusals = vec![library.merge_new(size, &load, &mut area).refusal];
        for (module, &set) in self.sets.iter().enumerate() {
            let reply = library.init_module(size, &mut area, module as u32, &words(set, self.e), &load.side_effects);
            refusals.push(reply.refusal);
        }
        let mut starts = vec![0];
        starts.extend(self.dependencies.iter().scan(0, |end, list| {
            *end += list.len() as u32;
            Some(*end)
        }));
        let list: Vec<u32> = self.dependencies.iter().flatten().map(|&other| other as u32).collect();
        refusals.push(library.calc(size, &mut area, &starts, &list).refusal);
        match refusals.into_iter().find(|&row| row != 0) {
            None => Ok((size, area)),
            Some(row) => Err(format!("refused {row} before the pass")),
        }
    }
}

/// Whether the dependencies close a loop, each chunk standing for the end of its merges: a chunk that no other one depends
/// on is taken off, until there is none left; what remains then is a loop and what it leads to.
pub fn closes_loop(edges: &[(usize, usize)], into: &[Option<usize>]) -> bool {
    let end = |chunk: usize| std::iter::successors(Some(chunk), |&chunk| into[chunk]).last().unwrap();
    let ends: Vec<usize> = (0..into.len()).map(end).collect();
    let mut named = vec![0_u32; into.len()];
    let mut out = vec![vec![]; into.len()];
    for &(from, to) in edges {
        if ends[from] != ends[to] {
            out[ends[from]].push(ends[to]);
            named[ends[to]] += 1;
        }
    }
    let mut free: Vec<usize> = (0..into.len()).filter(|&chunk| named[chunk] == 0).collect();
    let mut taken = 0;
    while let Some(chunk) = free.pop() {
        taken += 1;
        for &other in &out[chunk] {
            named[other] -= 1;
            if named[other] == 0 {
                free.push(other);
            }
        }
    }
    taken < into.len()
}

/// What a pass did, as its answers say.
#[derive(Clone, Copy, Debug, Default)]
pub struct Did {
    pub merged: u64,
    pub created: u64,
    /// Created although proposed and unbarred, so warned of.
    pub warned: u64,
    /// There was a loop after some candidate; there is one at the end.
    pub looped: bool,
    pub ends_looped: bool,
    /// Warned of where the merge would close no loop.
    pub needless: bool,
}

/// A pass's lent lists.
#[derive(Clone, Debug)]
pub struct Lent {
    pub proposals: Vec<u32>,
    pub bars: Vec<u32>,
}

impl Lent {
    /// As a rule an initial chunk that the candidate's set names, unbarred.
    pub fn made_up(random: &mut Random, chunks: &Chunks, candidates: &[usize]) -> Self {
        let proposal = |random: &mut Random, candidate: usize| {
            let Set(set) = chunks.sets[candidate];
            let named: Vec<usize> = (0..chunks.initial).filter(|bit| set[bit / 64] >> (bit % 64) & 1 == 1).collect();
            match random.below(10) {
                0 => NONE,
                1..7 if !named.is_empty() => random.pick(&named) as u32,
                _ => random.index(chunks.initial) as u32,
            }
        };
        let proposals = candidates.iter().map(|&candidate| proposal(random, candidate)).collect();
        let bars = candidates.iter().map(|_| if random.chance(8) { random.odd_number() } else { 0 }).collect();
        Self { proposals, bars }
    }
}

/// Runs the pass and follows its answers, candidate by candidate; `into` says what was merged so far.
pub fn pass(
    library: &dyn Library,
    (size, area): (Size, &mut [u32]),
    chunks: &Chunks,
    candidates: &[usize],
    lent: &Lent,
    into: &mut [Option<usize>],
) -> Result<Did, String> {
    let (mut kinds, mut numbers) = (vec![7; candidates.len()], vec![7; candidates.len()]);
    let reply = library.pass(size, area, &lent.proposals, &lent.bars, &mut kinds, &mut numbers);
    if reply.refusal != 0 {
        return Err(format!("pass refused {}", reply.refusal));
    }
    let mut did = Did::default();
    for (place, &candidate) in candidates.iter().enumerate() {
        let target = lent.proposals[place];
        let open = target != NONE && lent.bars[place] == 0;
        if kinds[place] == 0 {
            if !open || numbers[place] != target {
                return Err(format!("candidate {candidate} merged into {}, proposed {target}", numbers[place]));
            }
            did.merged += 1;
            into[candidate] = Some(target as usize);
            did.ends_looped = closes_loop(&chunks.edges, into);
            did.looped |= did.ends_looped;
        } else {
            did.created += 1;
            if open {
                did.warned += 1;
                let mut other = into.to_vec();
                other[candidate] = Some(target as usize);
                did.needless |= !closes_loop(&chunks.edges, &other);
            }
        }
    }
    Ok(did)
}
