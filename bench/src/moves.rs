//! The move graph: `new`, `try_move` and each question.
use oracle::library::Library;
use oracle::moves_made_up::{Shape, random_load};
use oracle::moves_model::{Graph, Load};
use oracle::moves_real;
use oracle::moves_views::original_lists;
use oracle::original::OriginalMoves;
use oracle::run::Random;
use oracle::sets::{Set, words};
use oracle::stand_ins::rolldown_utils::BitSet;

use crate::{best, ratio, time};

const MOVES: usize = 200;
/// Questions asked in one run.
const ASKED: usize = 50;

struct Input {
    load: Load,
    sets: Vec<Set>,
    flat: Vec<u64>,
    /// None goes to the atom's present set, none needs more than N sets.
    moves: Vec<(u32, Vec<u64>)>,
    accepted: u64,
}

/// An acyclic load without fixed atoms.
fn made_up(random: &mut Random, a: u64, d: u64, e: u64, n: u64) -> (Load, Vec<Set>) {
    loop {
        let (mut load, sets) = random_load(random, Shape { a, d, e, n, calls: 0 });
        load.fixed.fill(0);
        if !Graph::new(&load, &sets).cyclic()
            && sets.iter().enumerate().all(|(place, set)| !sets[..place].contains(set))
        {
            return (load, sets);
        }
    }
}

/// Moves on a load that answer alike for both.
fn input(mut random: Random, load: Load, sets: Vec<Set>) -> Input {
    let (a, e, n) = (load.a, load.e, load.n);
    let flat: Vec<u64> = sets.iter().flat_map(|&set| words(set, e)).collect();
    let lists = original_lists(&load, &flat);
    let mut original = OriginalMoves::new(&lists);
    let mut place = sets.clone();
    let mut registered = sets.clone();
    let (mut moves, mut accepted) = (vec![], 0);
    while moves.len() < MOVES {
        let atom = random.index(a as usize);
        let target = if random.chance(30) { Set::single(random.index(e as usize)) } else { random.pick(&sets) };
        let unseen = !registered.contains(&target);
        if target == place[atom] || (unseen && registered.len() as u64 >= n) {
            continue;
        }
        if unseen {
            registered.push(target);
        }
        let bits = words(target, e);
        if original.try_move(atom as u32, &BitSet::from_words(&bits)) {
            place[atom] = target;
            accepted += 1;
        }
        moves.push((atom as u32, bits));
    }
    Input { load, sets, flat, moves, accepted }
}

fn loaded(library: &dyn Library, input: &Input) -> Vec<u32> {
    let mut area = vec![0; input.load.layout().length()];
    assert_eq!(library.move_new(&input.load, &input.flat, &mut area).refusal, 0);
    area
}

fn library_new(library: &dyn Library, input: &Input) -> f64 {
    best(
        20,
        || vec![0; input.load.layout().length()],
        |area, _| {
            std::hint::black_box(library.move_new(&input.load, &input.flat, area));
        },
    )
}

fn library_moves(library: &dyn Library, input: &Input) -> f64 {
    best(
        MOVES,
        || (loaded(library, input), 0),
        |(area, accepted), k| {
            let (atom, bits) = &input.moves[k];
            *accepted += library.try_move(&input.load, area, *atom, bits).accepted;
            if k + 1 == MOVES {
                assert_eq!(*accepted, input.accepted, "the same answers");
            }
        },
    )
}

/// The library's time for `new`, `try_move`, the five questions and the start order.
fn library_times(library: &dyn Library, input: &Input) -> Vec<(&'static str, f64)> {
    let load = &input.load;
    let bits: Vec<Vec<u64>> = input.sets.iter().map(|&set| words(set, load.e)).collect();
    let ask = |question: &dyn Fn(&[u32], usize) -> u64| {
        best(
            ASKED,
            || loaded(library, input),
            |area, k| {
                std::hint::black_box(question(area, k));
            },
        )
    };
    let set = |k: usize| &bits[k % bits.len()];
    vec![
        ("new", library_new(library, input)),
        ("try_move", library_moves(library, input)),
        ("atom_set", ask(&|area, k| library.atom_set(load, area, k as u32 % load.a as u32).set0)),
        ("atom_count", ask(&|area, k| library.atom_count(load, area, set(k)).value)),
        ("multiplicity", ask(&|area, k| library.multiplicity(load, area, set(k), set(k + 1)).value)),
        ("edge_count", ask(&|area, _| library.edge_count(load, area).value)),
        ("chunk_count", ask(&|area, _| library.chunk_count(load, area).value)),
        ("edge_at", ask(&|area, k| library.edge_at(load, area, k as u64).multiplicity)),
        ("rank", ask(&|area, _| library.rank(load, area, area).value)),
        ("has_cycle", ask(&|area, _| library.has_cycle(load, area).value)),
        ("start_order", ask(&|area, k| library.start_order(load, area, k as u64 % load.e, &mut [0; 512]).value)),
    ]
}

/// The rows of one load.
fn rows(library: Option<&dyn Library>, random: Random, load: Load, sets: Vec<Set>) {
    let (a, d, e, n) = (load.a, load.d, load.e, load.n);
    let input = input(random, load, sets);
    let lists = original_lists(&input.load, &input.flat);
    let new = best(20, || (), |(), _| drop(std::hint::black_box(OriginalMoves::new(&lists))));
    let targets: Vec<(u32, BitSet)> =
        input.moves.iter().map(|(atom, bits)| (*atom, BitSet::from_words(bits))).collect();
    let moves = best(
        MOVES,
        || OriginalMoves::new(&lists),
        |graph, k| {
            std::hint::black_box(graph.try_move(targets[k].0, &targets[k].1));
        },
    );
    let ours = library.map_or(vec![("new", 0.0), ("try_move", 0.0)], |library| library_times(library, &input));
    for (call, ours) in ours {
        let original = match call {
            "new" => Some(new),
            "try_move" => Some(moves),
            _ => None,
        };
        let shown = original.map_or("–".into(), time);
        let (own, against, against_new) = if library.is_some() {
            (time(ours), original.map_or("–".into(), |original| ratio(ours, original)), ratio(ours, new))
        } else {
            ("–".into(), "–".into(), "–".into())
        };
        println!("| {a} | {d} | {e} | {n} | `{call}` | {shown} | {own} | {against} | {against_new} |");
    }
}

pub fn table(library: Option<&dyn Library>) {
    println!("## Move graph\n");
    println!("| A | D | E | N | call | original | ours | ours / original | ours / original's `new` |");
    println!("|---|---|---|---|---|---|---|---|---|");
    for (a, d, e) in [(48, 96, 16), (48, 768, 16), (128, 512, 32), (512, 1024, 64), (512, 8192, 64)] {
        for n in [2 * a, a + 1] {
            let mut random = Random(a * 31 + d);
            let (load, sets) = made_up(&mut random, a, d, e, n);
            rows(library, random, load, sets);
        }
    }
    // Real script: the loads of examples/loads, at N = A + 1.
    for (load, sets) in moves_real::loads() {
        rows(library, Random(load.a), load, sets);
    }
    println!();
}
