//! Merge graph cases made up at random, and every small graph.
use crate::layout::MergeLayout;
use crate::library::MergeLoad;
use crate::merges_calls::{self, MergeCall, size_refusal};
use crate::merges_cases::{Damage, FITTED, MergeCase, fitted};
use crate::merges_model::{MergeState, NONE, Size};
use crate::run::Random;
use crate::sets::{Set, width};

/// Sizes of a made-up case.
#[derive(Clone, Copy, Debug)]
pub struct Shape {
    pub size: Size,
    pub initial: u64,
    /// Not 0: merged chunks stand for their target.
    pub mode: u32,
    pub pairs: u64,
    pub calls: usize,
}

fn random_set(random: &mut Random, e: u64, pool: u64) -> Vec<u64> {
    let mut words = vec![0; width(e) as usize];
    if e == 0 {
        return words;
    }
    // A small pool, spread over all words, so that sets meet again.
    let number = random.below(pool);
    for bit in 0..20 {
        if number >> bit & 1 == 1 {
            let place = if bit % 2 == 0 { bit / 2 % e } else { e - 1 - bit / 2 % e };
            words[place as usize / 64] |= 1 << (place % 64);
        }
    }
    words
}

fn random_lists(random: &mut Random, lists: u64, entries: u64, below: u64) -> (Vec<u32>, Vec<u32>) {
    let mut ends: Vec<u32> = (1..lists).map(|_| random.below(entries + 1) as u32).collect();
    ends.sort_unstable();
    let mut starts = vec![0];
    starts.extend(ends);
    if lists > 0 {
        starts.push(entries as u32);
    }
    let entries = if lists == 0 { 0 } else { entries };
    (starts, (0..entries).map(|_| random.below(below) as u32).collect())
}

fn random_effects(random: &mut Random, m: u64) -> Vec<u32> {
    (0..m).map(|_| if random.chance(20) { random.odd_number() } else { 0 }).collect()
}

/// A made chunk, or with `wrong` percent one that isn't, as a rule.
fn some_chunk(random: &mut Random, state: &MergeState, wrong: u64) -> u32 {
    let made = u64::from(state.made());
    if random.chance(wrong) { made as u32 + random.below(3) as u32 } else { random.below(made) as u32 }
}

/// A module, or with `wrong` percent none.
fn some_module(random: &mut Random, size: Size, wrong: u64) -> u32 {
    if random.chance(wrong) { size.m as u32 + random.below(2) as u32 } else { random.below(size.m) as u32 }
}

/// Side effects of the modules, now and then one too many.
fn some_effects(random: &mut Random, size: Size, wrong: u64) -> Vec<u32> {
    let mut list = random_effects(random, size.m);
    if random.chance(wrong / 2) {
        list.push(0);
    }
    list
}

fn random_init(random: &mut Random, size: Size, wrong: u64) -> MergeCall {
    let mut bits = random_set(random, size.e, 4 * size.c);
    if random.chance(wrong) {
        if random.chance(50) || size.e % 64 == 0 {
            bits.push(0);
        } else {
            *bits.last_mut().unwrap() |= 1 << (size.e % 64);
        }
    }
    let module = some_module(random, size, wrong);
    MergeCall::InitModule { module, bits, side_effects: some_effects(random, size, wrong) }
}

fn random_calc(random: &mut Random, size: Size, wrong: u64) -> MergeCall {
    let entries = if size.m == 0 { 0 } else { random.below(2 * size.m + 2).min(8192) };
    let below = size.m + u64::from(random.chance(wrong));
    let (mut starts, dependencies) = random_lists(random, size.m, entries, below);
    if random.chance(wrong) {
        let place = random.index(starts.len());
        starts[place] = random.odd_number();
    }
    MergeCall::Calc { starts, dependencies }
}

fn random_pass(random: &mut Random, state: &MergeState, wrong: u64) -> MergeCall {
    let count = state.candidates().len();
    let named = u64::from(state.initial) + u64::from(random.chance(wrong));
    let proposals = (0..count.max(1))
        .map(|_| if named == 0 || random.chance(30) { NONE } else { random.below(named) as u32 })
        .collect();
    let bars = (0..count.max(1)).map(|_| if random.chance(15) { random.odd_number() } else { 0 }).collect();
    let kinds = if random.chance(wrong) { count + 1 } else { FITTED };
    MergeCall::Pass { proposals, bars, kinds, numbers: if kinds == FITTED { FITTED } else { count } }
}

fn random_call(random: &mut Random, size: Size, state: &MergeState, wrong: u64) -> MergeCall {
    let chunk = |random: &mut Random| some_chunk(random, state, wrong);
    match random.below(24) {
        0..7 => random_init(random, size, wrong),
        7..9 => MergeCall::AddModule {
            module: some_module(random, size, wrong),
            chunk: chunk(random),
            side_effects: some_effects(random, size, wrong),
        },
        9 => {
            let keys = size.c + u64::from(random.chance(wrong));
            MergeCall::Register { key: random.below(keys) as u32, chunk: chunk(random) }
        }
        10 => MergeCall::ToTempIdx { key: random.pick(&[size.c as u32 - 1, size.c as u32, u32::MAX, 0]) },
        11 => MergeCall::ToTempIdx { key: random.below(size.c) as u32 },
        12..14 => random_calc(random, size, wrong),
        14..17 => MergeCall::Warning { source: chunk(random), target: chunk(random) },
        17..19 => MergeCall::IsReachable { from: chunk(random), to: chunk(random) },
        19..22 => MergeCall::Merge { target: chunk(random), source: chunk(random) },
        _ => random_pass(random, state, wrong),
    }
}

fn damaged_size(random: &mut Random, mut size: Size) -> Size {
    let odd = |random: &mut Random, number: u64| match random.below(3) {
        0 => number.wrapping_add(1),
        1 => number.saturating_sub(1),
        _ => random.pick(&[0, 257, 1025, 4097, 8193, u64::MAX, 1 << 32, 1 << 63]),
    };
    match random.below(4) {
        0 => size.c = odd(random, size.c),
        1 => size.m = odd(random, size.m),
        2 => size.l = odd(random, size.l),
        _ => size.e = odd(random, size.e),
    }
    size
}

fn damaged_cell(random: &mut Random, size: Size, state: &MergeState, extra: usize) -> (usize, u32) {
    let at = size.layout();
    let chunk = random.index(at.c);
    let cell = match random.below(12) {
        0 => at.dependency(chunk, random.index(at.c)),
        1 => at.dependency(chunk, chunk),
        2 => at.header(random.index(5)),
        3 => at.header(if state.mode { random.index(6) } else { random.index(5) }),
        4 => at.set_word(random.index(9), random.index(2 * at.c)),
        5 if !state.sets.is_empty() => at.set_word(random.index(9), random.index(state.sets.len())),
        6 => at.chunk_lane(MergeLayout::NEEDS_CREATION, chunk),
        // Where merged chunks stand for their target, a ring or a merge out of range.
        7 if state.mode => at.chunk_lane(MergeLayout::MERGED_INTO, chunk),
        7 => at.chunk_lane(MergeLayout::KEY, chunk),
        8 if at.m > 0 => at.module_lane(MergeLayout::MODULE_CHUNK, random.index(at.m)),
        9 if at.l > 0 => at.entry_lane(random.index(2), random.index(at.l)),
        10 if !state.entries.is_empty() => at.entry_lane(random.index(2), random.index(state.entries.len())),
        _ => random.index(at.length() + extra),
    };
    let value = if random.chance(70) { random.below(size.c.max(size.m) + 2) as u32 } else { random.odd_number() };
    (cell, value)
}

pub fn random_load(random: &mut Random, shape: Shape) -> MergeLoad {
    let size = shape.size;
    let listed = if size.m == 0 || shape.initial == 0 { 0 } else { random.below((size.l / 2).min(2 * size.m) + 1) };
    let (module_starts, modules) = random_lists(random, shape.initial, listed, size.m);
    let mut sets: Vec<Vec<u64>> = vec![];
    for _ in 0..shape.pairs.min(if shape.initial == 0 { 0 } else { shape.pairs }) {
        let set = random_set(random, size.e, 4 * size.c);
        if !sets.contains(&set) {
            sets.push(set);
        }
    }
    MergeLoad {
        initial: shape.initial,
        mode: shape.mode,
        module_starts,
        modules,
        set_chunks: sets.iter().map(|_| random.below(shape.initial) as u32).collect(),
        sets: sets.concat(),
        side_effects: random_effects(random, size.m),
    }
}

/// A made-up case; `damage` is the percent of calls with something wrong.
pub fn random_case(random: &mut Random, shape: Shape, damage: u64) -> MergeCase {
    let load = random_load(random, shape);
    let size = shape.size;
    let extra = random.pick(&[0, 0, 1, 7]);
    let mut case = MergeCase { size, load, extra, short: false, fill: random.next(), crafted: None, calls: vec![] };
    let Ok(state) = merges_calls::new(size, &case.load, usize::MAX) else { return case };
    add_calls(random, &mut case, state, shape, damage);
    case
}

fn add_calls(random: &mut Random, case: &mut MergeCase, mut state: MergeState, shape: Shape, damage: u64) {
    let (size, extra) = (case.size, case.extra);
    for _ in 0..shape.calls {
        let call = random_call(random, size, &state, damage / 2);
        let mut wrong = Damage::default();
        if random.chance(damage) {
            // Mostly one thing, now and then several: the first fitting row wins.
            let kind = random.below(8);
            if kind == 0 || kind == 7 {
                wrong.size = Some(damaged_size(random, size));
            }
            wrong.short = kind == 1 || (kind == 7 && random.chance(30));
            if (2..7).contains(&kind) || (kind == 7 && random.chance(50)) {
                wrong.cell = Some(damaged_cell(random, size, &state, extra));
            }
        }
        if wrong.none() {
            let call = fitted(&call, &state);
            if size_refusal(size, usize::MAX, &call) == 0 {
                state.call(size, &call);
            }
        }
        case.calls.push((call, wrong));
    }
}

/// Merges of made chunks without a ring: each is into one that comes later in a made-up order.
fn random_merges(random: &mut Random, made: u64) -> Vec<Option<u32>> {
    let share = random.pick(&[0, 20, 60, 95]);
    let mut order: Vec<u32> = (0..made as u32).collect();
    for place in (1..order.len()).rev() {
        order.swap(place, random.index(place + 1));
    }
    let mut merged_into = vec![None; made as usize];
    for (place, &chunk) in order.iter().enumerate() {
        let later = &order[place + 1..];
        if !later.is_empty() && random.chance(share) {
            // Often the very next, so that chains are long.
            merged_into[chunk as usize] =
                Some(if random.chance(50) { later[0] } else { later[random.index(later.len())] });
        }
    }
    merged_into
}

/// A case that starts from a made-up consistent area: nothing in it need come of a loading.
pub fn crafted_case(random: &mut Random, shape: Shape, damage: u64) -> MergeCase {
    let mut case = random_case(random, Shape { calls: 0, ..shape }, 0);
    let size = case.size;
    let made = random.below(size.c + 1).max(shape.initial);
    let maybe = |random: &mut Random| (made > 0 && random.chance(70)).then(|| random.below(made) as u32);
    let flags = |random: &mut Random, from: u64| (0..made).map(|chunk| chunk >= from && random.chance(40)).collect();
    let mut sets: Vec<(Set, u32)> = vec![];
    for _ in 0..if made == 0 { 0 } else { random.below(2 * (size.c + made)) } {
        let set = Set::from_words(&random_set(random, size.e, 16 * size.c));
        if (sets.len() as u64) < size.c + made && !sets.iter().any(|(other, _)| *other == set) {
            sets.push((set, random.below(made) as u32));
        }
    }
    let dense = random.pick(&[5, 20, 50]);
    let entries = if made == 0 || size.m == 0 { 0 } else { random.below(size.l + 1) };
    let state = MergeState {
        initial: shape.initial as u32,
        created: if random.chance(20) { random.odd_number() } else { random.below(2) as u32 },
        dependencies: (0..made as u32)
            .map(|from| (0..made as u32).filter(|&to| to != from && random.chance(dense)).collect())
            .collect(),
        side_effects: flags(random, 0),
        needs_creation: flags(random, shape.initial),
        sets,
        entries: (0..entries).map(|_| (random.below(made) as u32, random.below(size.m) as u32)).collect(),
        module_chunk: (0..size.m).map(|_| maybe(random)).collect(),
        registered: (0..size.c).map(|_| maybe(random)).collect(),
        mode: case.load.mode != 0,
        merged_into: if shape.mode == 0 { vec![None; made as usize] } else { random_merges(random, made) },
    };
    case.crafted = Some(state.clone());
    add_calls(random, &mut case, state, shape, damage);
    case
}

/// A loading with one thing wrong, now and then two.
pub fn refused_loading(random: &mut Random, shape: Shape) -> MergeCase {
    let mut case = random_case(random, Shape { calls: 1, ..shape }, 0);
    for _ in 0..random.pick(&[1, 1, 2]) {
        damage_loading(random, &mut case, shape.size);
    }
    case
}

fn damage_loading(random: &mut Random, case: &mut MergeCase, size: Size) {
    let w = width(size.e) as usize;
    let load = &mut case.load;
    let pairs = if w == 0 { 0 } else { load.set_chunks.len().min(load.sets.len() / w) };
    match random.below(12) {
        0 => case.short = true,
        1 => case.size = damaged_size(random, case.size),
        2 => load.initial = load.initial.saturating_add(random.pick(&[1, 1024, u64::MAX])),
        3 => load.module_starts.push(0),
        4 => {
            let place = random.index(load.module_starts.len());
            load.module_starts[place] = random.odd_number();
        }
        5 if !load.modules.is_empty() => {
            let place = random.index(load.modules.len());
            load.modules[place] = size.m as u32 + random.below(2) as u32;
        }
        6 => load.sets.push(0),
        7 | 8 if pairs > 1 => {
            let (one, other) = (random.index(pairs), random.index(pairs));
            load.sets.copy_within(one * w..(one + 1) * w, other * w);
            if random.chance(30) {
                load.set_chunks[one] = load.initial as u32;
            }
        }
        9 => load.side_effects.push(1),
        10 if load.initial > 0 && load.initial <= size.c && size.m > 0 => {
            // One module more than L.
            load.modules = vec![0; size.l as usize + 1];
            load.module_starts = vec![0; load.initial as usize + 1];
            *load.module_starts.last_mut().unwrap() = size.l as u32 + 1;
        }
        _ => {
            // One set more than C.
            load.set_chunks = vec![0; size.c as usize + 1];
            load.sets = vec![0; w * (size.c as usize + 1)];
        }
    }
}

/// Two initial chunks, named by the sets of one bit.
fn small_load(mode: u32) -> MergeLoad {
    MergeLoad {
        initial: 2,
        mode,
        module_starts: vec![0, 1, 2],
        modules: vec![0, 1],
        sets: vec![1, 2],
        set_chunks: vec![0, 1],
        side_effects: vec![0, 1, 0, 1],
    }
}

/// The module dependencies of the `graph`-th of the graphs on four chunks, of one module each.
fn small_dependencies(graph: u32) -> MergeCall {
    let mut starts = vec![0];
    let mut dependencies = vec![];
    for from in 0..4 {
        for (place, to) in (0..4).filter(|&to| to != from).enumerate() {
            if graph >> (3 * from as usize + place) & 1 == 1 {
                dependencies.push(to);
            }
        }
        starts.push(dependencies.len() as u32);
    }
    MergeCall::Calc { starts, dependencies }
}

/// Makes two chunks that need creation, then the graph, then asks for every warning and walk.
fn small_calls(graph: u32, side_effects: &[u32]) -> Vec<MergeCall> {
    let mut calls = vec![];
    for (module, set) in [(2, 3), (3, 0)] {
        calls.push(MergeCall::InitModule { module, bits: vec![set], side_effects: side_effects.to_vec() });
    }
    calls.push(small_dependencies(graph));
    for one in 0..4 {
        for other in 0..4 {
            calls.push(MergeCall::Warning { source: one, target: other });
            calls.push(MergeCall::IsReachable { from: one, to: other });
        }
    }
    calls
}

/// The `number`-th choice of a merge and of a pass, which is run twice.
fn small_merge(graph: u32, number: u32) -> [MergeCall; 3] {
    let choice = |number: u32| [0, 1, NONE][number as usize % 3];
    let pass = graph + 1000 * number;
    let proposals = vec![choice(pass), choice(pass / 3)];
    let bars = vec![u32::from(pass % 7 == 6), u32::from(pass % 11 == 10)];
    let pass = MergeCall::Pass { proposals, bars, kinds: FITTED, numbers: FITTED };
    let merge = MergeCall::Merge { target: number % 4, source: (number + 1 + graph % 3) % 4 };
    [merge, pass.clone(), pass]
}

/// Two initial chunks, two that need creation, every dependency among the four: all warnings and walks, a pass.
pub fn every_small_graph(each: &mut dyn FnMut(MergeCase)) {
    let size = Size { c: 6, m: 4, l: 4, e: 2 };
    for graph in 0..1_u32 << 13 {
        let load = small_load(graph >> 12);
        let calls = small_calls(graph, &load.side_effects);
        for number in 0..3 {
            let calls = calls.iter().cloned().chain(small_merge(graph, number));
            let calls = calls.map(|call| (call, Damage::default())).collect();
            let (load, fill) = (load.clone(), graph.into());
            each(MergeCase { size, load, extra: 2, short: false, fill, crafted: None, calls });
        }
    }
}
