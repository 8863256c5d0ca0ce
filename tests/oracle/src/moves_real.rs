//! Real script: the loads of examples/loads, with moves as a planner makes them.
use crate::moves_cases::{Damage, MoveCall, MoveCase};
use crate::moves_model::{Load, NONE};
use crate::run::Random;
use crate::sets::{Set, words};

/// The files, and how many calls a whole run makes on each.
const FILES: [(&str, usize); 3] = [
    (include_str!("../../../examples/loads/npm8.txt"), 2_000),
    (include_str!("../../../examples/loads/npm67.txt"), 1_500),
    (include_str!("../../../examples/loads/corejs200.txt"), 400),
];

/// The loads with their entry sets; N is the least, A + 1.
pub fn loads() -> impl Iterator<Item = (Load, Vec<Set>)> {
    FILES.iter().map(|(text, _)| read(text))
}

/// A list of calls on each load.
pub fn cases(random: &mut Random, percent: u64) -> Vec<MoveCase> {
    let mut cases = vec![];
    for ((load, sets), (_, calls)) in loads().zip(FILES) {
        let calls = (calls as u64 * percent / 100).max(1);
        let calls = (0..calls).map(|_| (call(random, &load, &sets), Damage::default())).collect();
        let flat = sets.iter().flat_map(|&set| words(set, load.e)).collect();
        let fill = random.next();
        cases.push(MoveCase { load, sets: flat, extra: 1, short: false, fill, crafted: None, calls });
    }
    cases
}

/// Mostly a move: to the set of an atom near by, or to a single entry that wants the atom, or to any atom's set.
fn call(random: &mut Random, load: &Load, sets: &[Set]) -> MoveCall {
    let atom = random.index(sets.len());
    let target = match random.below(10) {
        0..6 => sets[near(random, load, atom)],
        6..8 => Set::single(random.pick(&bits(sets[atom]))),
        _ => random.pick(sets),
    };
    let bits = words(target, load.e);
    match random.below(20) {
        0 => MoveCall::AtomCount { bits },
        1 => MoveCall::AtomSet { atom: atom as u32 },
        2 => MoveCall::Multiplicity { from: words(sets[atom], load.e), to: bits },
        3 => MoveCall::EdgeCount,
        4 => MoveCall::EdgeAt { k: random.below(load.d) },
        _ => MoveCall::Move { atom: atom as u32, bits },
    }
}

/// An atom that another depends on, or that depends on it; where there is none, itself.
fn near(random: &mut Random, load: &Load, atom: usize) -> usize {
    let below = load.of(atom).iter().map(|&other| other as usize);
    let above = (0..load.a as usize).filter(|&other| load.of(other).contains(&(atom as u32)));
    let all: Vec<usize> = below.chain(above).collect();
    if all.is_empty() { atom } else { random.pick(&all) }
}

fn bits(set: Set) -> Vec<usize> {
    (0..256).filter(|bit| set.0[bit / 64] >> (bit % 64) & 1 == 1).collect()
}

/// A file in the form of README.md, "A file for the tool".
fn read(text: &str) -> (Load, Vec<Set>) {
    let (mut starts, mut dependencies, mut hosts, mut fixed, mut sets) = (vec![], vec![], vec![], vec![], vec![]);
    for line in text.lines() {
        match line.split_once(' ') {
            Some(("entry", rest)) => {
                hosts.push(rest.split(' ').next().and_then(|host| host.parse().ok()).unwrap_or(NONE))
            }
            Some(("atom", rest)) => {
                starts.push(dependencies.len() as u32);
                fixed.push(u32::from(rest.ends_with("fixed")));
                sets.push(set(rest));
            }
            Some(("needs", rest)) => rest.split(' ').for_each(|word| need(&mut dependencies, word)),
            _ => {}
        }
    }
    starts.push(dependencies.len() as u32);
    let (a, d, e) = (sets.len() as u64, dependencies.len() as u64, hosts.len() as u64);
    (Load { a, d, e, n: a + 1, starts, dependencies, hosts, fixed }, sets)
}

/// What stands between the braces.
fn set(rest: &str) -> Set {
    let inside = rest.split(['{', '}']).nth(1).expect("a set in braces");
    let mut set = Set::default();
    for bit in inside.split(", ").filter(|bit| !bit.is_empty()) {
        let bit: usize = bit.parse().expect("a bit");
        set.0[bit / 64] |= 1 << (bit % 64);
    }
    set
}

/// `3`, or `3*12` for twelve times 3.
fn need(dependencies: &mut Vec<u32>, word: &str) {
    let (atom, times) = word.split_once('*').unwrap_or((word, "1"));
    let (atom, times): (u32, usize) = (atom.parse().expect("an atom"), times.parse().expect("a number"));
    dependencies.extend(std::iter::repeat_n(atom, times));
}
