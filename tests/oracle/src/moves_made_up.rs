//! Move graph cases made up at random, and every small load.
use crate::layout::MoveLayout;
use crate::moves_cases::{Damage, MoveCall, MoveCase};
use crate::moves_model::{Graph, Load, MoveState, NONE, entry_sets};
use crate::run::Random;
use crate::sets::{Set, width, words};

/// Sizes of a made-up case.
#[derive(Clone, Copy, Debug)]
pub struct Shape {
    pub a: u64,
    pub d: u64,
    pub e: u64,
    pub n: u64,
    pub calls: usize,
}

fn random_set(random: &mut Random, e: u64) -> Set {
    let mut set = [0; 4];
    let bits = if random.chance(30) { random.below(e + 1) } else { random.below(4) };
    for _ in 0..bits.min(e) {
        let bit = random.index(e as usize);
        set[bit / 64] |= 1 << (bit % 64);
    }
    Set(set)
}

fn distinct_sets(random: &mut Random, a: u64, e: u64) -> Vec<Set> {
    let mut sets: Vec<Set> = vec![];
    for _ in 0..a {
        let mut set =
            if e > 0 && random.chance(35) { Set::single(random.index(e as usize)) } else { random_set(random, e) };
        for _ in 0..40 {
            if !sets.contains(&set) {
                break;
            }
            set = random_set(random, e);
        }
        if sets.contains(&set) && e < 60 {
            // The smallest set not yet taken, if there is one.
            if let Some(free) = (0..(1_u64 << e.min(12))).map(|low| Set([low, 0, 0, 0])).find(|set| !sets.contains(set))
            {
                set = free;
            }
        }
        sets.push(set);
    }
    sets
}

fn random_dependencies(random: &mut Random, a: u64, d: u64) -> (Vec<u32>, Vec<u32>) {
    let mut lists: Vec<Vec<u32>> = vec![vec![]; a as usize];
    // Percent of entries against the order of atoms: none keeps the first graph acyclic but for facades.
    let against = random.pick(&[0, 0, 0, 2, 10, 50]);
    let near = random.chance(40);
    if a > 1 {
        for _ in 0..d {
            let mut from = 1 + random.below(a - 1);
            let mut to = if near { from - 1 - random.below(from.min(3)) } else { random.below(from) };
            if random.chance(against) {
                std::mem::swap(&mut from, &mut to);
            }
            lists[from as usize].push(to as u32);
            if random.chance(10) && !lists[from as usize].is_empty() {
                let again = random.pick(&lists[from as usize]);
                *lists[from as usize].last_mut().unwrap() = again;
            }
        }
    }
    let mut starts = vec![0];
    let mut dependencies = vec![];
    for list in lists {
        dependencies.extend(list);
        starts.push(dependencies.len() as u32);
    }
    (starts, dependencies)
}

/// A target or asked set: mostly one that matters, now and then a wrong one.
fn random_bits(random: &mut Random, sets: &[Set], e: u64, wrong: bool) -> Vec<u64> {
    let any = |random: &mut Random| if sets.is_empty() { Set::default() } else { random.pick(sets) };
    let set = match random.below(10) {
        0..4 => any(random),
        4..7 if e > 0 => Set::single(random.index(e as usize)),
        7 => {
            let (one, other) = (any(random), any(random));
            Set(std::array::from_fn(|word| one.0[word] | other.0[word]))
        }
        8 => {
            let (one, other) = (any(random), any(random));
            Set(std::array::from_fn(|word| one.0[word] & other.0[word]))
        }
        _ => random_set(random, e),
    };
    let mut bits = words(set, e);
    if wrong {
        match random.below(3) {
            0 => bits.push(0),
            1 => drop(bits.pop()),
            _ if e % 64 != 0 => *bits.last_mut().unwrap() |= 1 << (e % 64 + random.below(64 - e % 64)),
            _ => bits.push(1),
        }
    }
    bits
}

fn random_call(random: &mut Random, sets: &[Set], load: &Load, damage: u64) -> MoveCall {
    let wrong = random.chance(damage);
    let atom = if random.chance(damage) { load.a as u32 + random.below(3) as u32 } else { random.below(load.a) as u32 };
    match random.below(22) {
        0 => MoveCall::AtomSet { atom },
        1 => MoveCall::AtomCount { bits: random_bits(random, sets, load.e, wrong) },
        2 => MoveCall::Multiplicity {
            from: random_bits(random, sets, load.e, wrong),
            to: {
                let wrong = random.chance(damage);
                random_bits(random, sets, load.e, wrong)
            },
        },
        3 => MoveCall::EdgeCount,
        4 => MoveCall::EdgeAt { k: random.pick(&[0, 1, load.d, load.d + load.e, u64::MAX, 1 << 32, load.d / 2]) },
        5 => MoveCall::EdgeAt { k: random.below(load.d + 1) },
        6 => MoveCall::HasCycle,
        7 => MoveCall::ChunkCount,
        8 | 9 => {
            let bit = if wrong { load.e + random.below(2) * 64 } else { random.below(load.e.max(1)) };
            MoveCall::StartOrder {
                bit,
                room: (load.a + random.below(3)).saturating_sub(u64::from(random.chance(damage))) as usize,
            }
        }
        _ => MoveCall::Move { atom, bits: random_bits(random, sets, load.e, wrong) },
    }
}

/// A load with one to three things wrong, or by luck only another load.
fn damaged_load(random: &mut Random, load: &Load) -> Load {
    let mut load = load.clone();
    for _ in 0..random.pick(&[1, 1, 1, 2, 3]) {
        damage_load(random, &mut load);
    }
    load
}

/// Another size: one off, or far off.
fn damaged_size(random: &mut Random, number: u64) -> u64 {
    match random.below(4) {
        0 => number.saturating_add(1),
        1 => number.saturating_sub(1),
        2 => random.next(),
        _ => random.pick(&[0, 257, 513, 1025, 8193, u64::MAX, 1 << 32, 1 << 63]),
    }
}

/// Makes the first atom with dependencies depend on itself.
fn depend_on_itself(load: &mut Load) {
    let Some(atom) = load.starts.windows(2).position(|pair| pair[0] < pair[1]) else { return };
    if let Some(entry) = load.dependencies.get_mut(load.starts[atom] as usize) {
        *entry = atom as u32;
    }
}

fn damage_load(random: &mut Random, load: &mut Load) {
    match random.below(16) {
        0 => load.a = damaged_size(random, load.a),
        1 => load.d = damaged_size(random, load.d),
        2 => load.e = damaged_size(random, load.e),
        3 => load.n = damaged_size(random, load.n),
        4 => load.starts.push(load.d as u32),
        5 => drop(load.dependencies.pop()),
        6 => load.hosts.push(NONE),
        7 if !load.starts.is_empty() => {
            let place = random.index(load.starts.len());
            load.starts[place] = random.odd_number();
        }
        8 if !load.dependencies.is_empty() => {
            let place = random.index(load.dependencies.len());
            load.dependencies[place] =
                if random.chance(50) { random.below(load.a.saturating_add(1)) as u32 } else { random.odd_number() };
        }
        9 if !load.hosts.is_empty() => {
            let place = random.index(load.hosts.len());
            load.hosts[place] =
                if random.chance(50) { random.below(load.a.saturating_add(1)) as u32 } else { random.odd_number() };
        }
        10 => depend_on_itself(load),
        11 => load.fixed.push(0),
        12 => drop(load.fixed.pop()),
        13 if !load.fixed.is_empty() => {
            let place = random.index(load.fixed.len());
            load.fixed[place] = if load.fixed[place] == 0 { random.odd_number() } else { 0 };
        }
        // Rows 5 and 6 at once.
        14 if !load.dependencies.is_empty() && !load.hosts.is_empty() => {
            let (dependency, host) = (random.index(load.dependencies.len()), random.index(load.hosts.len()));
            load.dependencies[dependency] = random.odd_number();
            load.hosts[host] = random.odd_number();
        }
        _ => drop(load.starts.pop()),
    }
}

/// One cell of the area, mostly one that means something.
fn damaged_cell(random: &mut Random, load: &Load, extra: usize) -> (usize, u32) {
    let at = load.layout();
    let node = random.index(at.n);
    let cell = match random.below(11) {
        0 if at.n > 0 => at.edge(node, random.index(at.n)),
        1 => at.header(random.index(6)),
        2..4 if at.n > 0 => at.node_lane(random.index(8), node),
        4 if at.n > 0 => at.node_lane(MoveLayout::COUNT, node),
        5 if at.n > 0 => at.node_lane(MoveLayout::MARK, node),
        6 if at.n > 0 => at.node_lane(MoveLayout::COMPONENT, node),
        7..9 if at.a > 0 => at.atom_lane(MoveLayout::NODE, random.index(at.a)),
        9 if at.a > 0 => at.atom_lane(MoveLayout::FIXED, random.index(at.a)),
        _ => random.index(at.length() + extra),
    };
    let value = if random.chance(60) { random.below(load.n + 2) as u32 } else { random.odd_number() };
    (cell, value)
}

pub fn random_load(random: &mut Random, shape: Shape) -> (Load, Vec<Set>) {
    let d = if shape.a < 2 { 0 } else { shape.d };
    let (starts, dependencies) = random_dependencies(random, shape.a, d);
    let sets = distinct_sets(random, shape.a, shape.e);
    let hostless = random.pick(&[0, 30, 100]);
    let hosts = (0..shape.e)
        .map(|_| if shape.a == 0 || random.chance(hostless) { NONE } else { random.below(shape.a) as u32 })
        .collect();
    // Mostly none, so that the original is compared.
    let share = random.pick(&[0, 0, 0, 15, 60]);
    let fixed = (0..shape.a).map(|_| if random.chance(share) { random.odd_number() } else { 0 }).collect();
    (Load { a: shape.a, d, e: shape.e, n: shape.n, starts, dependencies, hosts, fixed }, sets)
}

/// A made-up case; `damage` is the percent of calls with something wrong.
pub fn random_case(random: &mut Random, shape: Shape, damage: u64) -> MoveCase {
    let (load, sets) = random_load(random, shape);
    let mut calls = vec![];
    let extra = random.pick(&[0, 0, 1, 7]);
    for _ in 0..shape.calls {
        if random.chance(1) {
            calls.push((MoveCall::Counter { value: u32::MAX - random.below(2) as u32 }, Damage::default()));
        }
        let call = random_call(random, &sets, &load, damage / 2);
        let mut wrong = Damage::default();
        if random.chance(damage) {
            // Mostly one thing, now and then several: the first fitting row wins.
            let kind = random.below(10);
            if kind < 3 || kind > 8 {
                wrong.load = Some(Box::new(damaged_load(random, &load)));
            }
            wrong.short = kind == 3 || (kind > 8 && random.chance(30));
            if (4..9).contains(&kind) || (kind > 8 && random.chance(50)) {
                wrong.cell = Some(damaged_cell(random, &load, extra));
            }
        }
        calls.push((call, wrong));
    }
    let flat = sets.iter().flat_map(|&set| words(set, load.e)).collect();
    MoveCase { load, sets: flat, extra, short: false, fill: random.next(), crafted: None, calls }
}

/// An acyclic load, and moves of atoms to sets drawn from all, so that most are new.
pub fn month(random: &mut Random, shape: Shape) -> MoveCase {
    let mut case = loop {
        let case = random_case(random, Shape { calls: 0, ..shape }, 0);
        let sets = entry_sets(&case.sets, shape.a as usize, width(shape.e) as usize);
        if !Graph::new(&case.load, &sets).cyclic() {
            break case;
        }
    };
    case.load.fixed.fill(0);
    for _ in 0..shape.calls {
        let atom = random.below(shape.a) as u32;
        let bits = words(random_set(random, shape.e), shape.e);
        case.calls.push((MoveCall::Move { atom, bits }, Damage::default()));
    }
    case
}

/// A loading with one thing wrong, now and then two.
pub fn refused_loading(random: &mut Random, shape: Shape) -> MoveCase {
    let mut case = random_case(random, Shape { calls: 2, ..shape }, 0);
    let w = width(case.load.e) as usize;
    for _ in 0..random.pick(&[1, 1, 2]) {
        let atoms = (case.sets.len() / w.max(1)) as u64;
        match random.below(8) {
            0 => case.short = true,
            1 => case.sets.push(0),
            2 => drop(case.sets.pop()),
            3 if atoms > 1 && w > 0 => {
                let (one, other) = (random.index(atoms as usize), random.index(atoms as usize));
                case.sets.copy_within(one * w..(one + 1) * w, other * w);
            }
            4 if atoms > 0 && w > 0 && case.load.e % 64 != 0 => {
                let atom = random.index(atoms as usize);
                case.sets[(atom + 1) * w - 1] |= 1 << (case.load.e % 64);
            }
            _ => case.load = damaged_load(random, &case.load),
        }
    }
    case
}

/// A case that starts from a made-up consistent area: atoms share sets, sets are registered in any order.
pub fn crafted_case(random: &mut Random, shape: Shape, damage: u64) -> MoveCase {
    let mut case = random_case(random, shape, damage);
    let (load, places) = (&case.load, case.load.n as usize);
    let mut registered: Vec<Set> = vec![];
    for _ in 0..4 * places {
        let set = if random.chance(40) && load.e > 0 {
            Set::single(random.index(load.e as usize))
        } else {
            random_set(random, load.e)
        };
        if registered.len() < places && !registered.contains(&set) {
            registered.push(set);
        }
    }
    if registered.is_empty() && load.a > 0 {
        return case;
    }
    let counter = random.odd_number();
    let node = (0..load.a).map(|_| random.index(registered.len()) as u32).collect();
    let marks = (0..places).map(|_| random.below(u64::from(counter) + 1) as u32).collect();
    case.crafted = Some(MoveState { registered, node, counter, marks });
    case
}

/// The dependencies of the `graph`-th way to give each pair of atoms none, one, or (few atoms) two.
fn small_dependencies(a: u64, graph: u64, counts: u64) -> (Vec<u32>, Vec<u32>) {
    let (mut starts, mut dependencies) = (vec![0], vec![]);
    let mut rest = graph;
    for from in 0..a as u32 {
        for to in (0..a as u32).filter(|&to| to != from) {
            dependencies.extend((0..rest % counts).map(|_| to));
            rest /= counts;
        }
        starts.push(dependencies.len() as u32);
    }
    (starts, dependencies)
}

/// Every load with A atoms and E = 2: sets, dependencies, hosts, N from A + 1 up to all four sets; `each` gets a case without calls.
pub fn every_small_load(a: u64, each: &mut dyn FnMut(MoveCase)) {
    let counts: u64 = if a < 3 { 3 } else { 2 };
    let graphs = counts.pow((a * a.saturating_sub(1)) as u32);
    for chosen in 0..4_u64.pow(a as u32) {
        let sets: Vec<u64> = (0..a).map(|atom| chosen / 4_u64.pow(atom as u32) % 4).collect();
        if (0..sets.len()).any(|place| sets[..place].contains(&sets[place])) {
            continue;
        }
        for graph in 0..graphs {
            let (starts, dependencies) = small_dependencies(a, graph, counts);
            for choice in 0..(a + 1) * (a + 1) * (4 - a) {
                let name = |number: u64| if number % (a + 1) == a { NONE } else { (number % (a + 1)) as u32 };
                let host = choice / (4 - a);
                let load = Load {
                    a,
                    d: dependencies.len() as u64,
                    e: 2,
                    n: a + 1 + choice % (4 - a),
                    starts: starts.clone(),
                    dependencies: dependencies.clone(),
                    hosts: vec![name(host), name(host / (a + 1))],
                    fixed: vec![0; a as usize],
                };
                let sets = sets.clone();
                each(MoveCase { load, sets, extra: 1, short: false, fill: chosen, crafted: None, calls: vec![] });
            }
        }
    }
}
