//! The merge graph: warning, merge and pass.
use oracle::library::{Library, MergeLoad};
use oracle::merges_model::{NONE, Size};
use oracle::original::OriginalMerges;
use oracle::run::Random;

use crate::{best, ratio, time};

const WARNINGS: usize = 50;

/// A graph of `c` chunks, half of them initial, with one module each.
struct Input {
    size: Size,
    load: MergeLoad,
    /// Set of each chunk that needs creation; its module has the chunk's number.
    needed: Vec<u64>,
    /// Starts and dependencies, at most 8,192 at a time.
    lists: Vec<(Vec<u32>, Vec<u32>)>,
    pairs: Vec<(u32, u32)>,
    proposals: Vec<u32>,
}

fn input(c: u64, each: u64) -> Input {
    let mut random = Random(c + each);
    let initial = c / 2;
    let numbers: Vec<u32> = (0..c as u32).collect();
    let load = MergeLoad {
        initial,
        mode: 0,
        module_starts: (0..=initial as u32).collect(),
        modules: numbers[..initial as usize].to_vec(),
        sets: vec![],
        set_chunks: vec![],
        side_effects: vec![0; c as usize],
    };
    // A chunk depends on lower ones only, so that no walk ends early.
    let dependencies: Vec<Vec<u32>> =
        (0..c).map(|from| (0..each.min(from)).map(|_| random.below(from) as u32).collect()).collect();
    let mut lists = vec![];
    let mut from = 0;
    while from < dependencies.len() {
        let (mut starts, mut list) = (vec![0; from + 1], vec![]);
        while from < dependencies.len() && list.len() + dependencies[from].len() <= 8192 {
            list.extend(&dependencies[from]);
            starts.push(list.len() as u32);
            from += 1;
        }
        starts.resize(c as usize + 1, list.len() as u32);
        lists.push((starts, list));
    }
    let mut pairs = vec![];
    while pairs.len() < WARNINGS {
        let (source, target) = (random.below(c) as u32, random.below(c) as u32);
        if source != target {
            pairs.push((source, target));
        }
    }
    let proposals = (initial..c).map(|_| if random.chance(20) { NONE } else { random.below(initial) as u32 }).collect();
    let size = Size { c, m: c, l: c, e: 16 };
    Input { size, load, needed: (1..=c - initial).collect(), lists, pairs, proposals }
}

fn original(input: &Input) -> OriginalMerges {
    let lists: Vec<Vec<u32>> = input.load.modules.iter().map(|&module| vec![module]).collect();
    let mut graph = OriginalMerges::new(input.size.c as u32, &lists, &[], &input.load.side_effects);
    for (place, &set) in input.needed.iter().enumerate() {
        let module = input.load.initial as u32 + place as u32;
        graph.init_module_assignment(module, &[set], &input.load.side_effects);
    }
    for (starts, dependencies) in &input.lists {
        let lists: Vec<Vec<u32>> =
            starts.windows(2).map(|pair| dependencies[pair[0] as usize..pair[1] as usize].to_vec()).collect();
        graph.calc_chunk_dependencies(&lists);
    }
    graph
}

fn loaded(library: &dyn Library, input: &Input) -> Vec<u32> {
    let size = input.size;
    let mut area = vec![0; size.layout().length()];
    assert_eq!(library.merge_new(size, &input.load, &mut area).refusal, 0);
    for (place, &set) in input.needed.iter().enumerate() {
        let module = input.load.initial as u32 + place as u32;
        let reply = library.init_module(size, &mut area, module, &[set], &input.load.side_effects);
        assert_eq!(reply.refusal, 0);
    }
    for (starts, dependencies) in &input.lists {
        assert_eq!(library.calc(size, &mut area, starts, dependencies).refusal, 0);
    }
    area
}

/// Times of the warning, the merge and the pass.
fn original_times(input: &Input) -> [f64; 3] {
    let none = vec![0; input.proposals.len()];
    let proposals: Vec<Option<u32>> = input.proposals.iter().map(|&chunk| (chunk != NONE).then_some(chunk)).collect();
    let warning = best(
        WARNINGS,
        || original(input),
        |graph, k| {
            let (source, target) = input.pairs[k];
            std::hint::black_box(graph.would_create_circular_dependency(source, target));
        },
    );
    let merge = best(
        WARNINGS,
        || original(input),
        |graph, k| {
            let (source, target) = input.pairs[k];
            graph.merge_chunk_dependencies(target, source);
        },
    );
    let pass = best(1, || original(input), |graph, _| drop(std::hint::black_box(graph.pass(&proposals, &none))));
    [warning, merge, pass]
}

fn library_times(library: &dyn Library, input: &Input) -> [f64; 3] {
    let size = input.size;
    let start = loaded(library, input);
    let count = input.proposals.len();
    let none = vec![0; count];
    let warning = best(
        WARNINGS,
        || start.clone(),
        |area, k| {
            let (source, target) = input.pairs[k];
            assert_eq!(library.warning(size, area, source, target).refusal, 0);
        },
    );
    let merge = best(
        WARNINGS,
        || start.clone(),
        |area, k| {
            let (source, target) = input.pairs[k];
            assert_eq!(library.merge(size, area, target, source).refusal, 0);
        },
    );
    let pass = best(
        1,
        || (start.clone(), vec![0; count], vec![0; count]),
        |(area, kinds, numbers), _| {
            assert_eq!(library.pass(size, area, &input.proposals, &none, kinds, numbers).refusal, 0);
        },
    );
    [warning, merge, pass]
}

pub fn table(library: Option<&dyn Library>) {
    println!("## Merge graph\n");
    println!("| C | dependencies per chunk | call | original | ours | ours / original |");
    println!("|---|---|---|---|---|---|");
    for c in [64, 256, 1024] {
        for each in [2, c / 4] {
            let input = input(c, each);
            let original = original_times(&input);
            let ours = library.map(|library| library_times(library, &input));
            for (place, call) in ["warning", "merge", "pass"].into_iter().enumerate() {
                let (own, against) = ours.map_or(("–".into(), "–".into()), |ours| {
                    (time(ours[place]), ratio(ours[place], original[place]))
                });
                println!("| {c} | {each} | {call} | {} | {own} | {against} |", time(original[place]));
            }
        }
    }
    println!();
}
