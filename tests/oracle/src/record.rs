//! Recorded cases: calls and the model's answers, where the original agrees, as numbers (README.md: the format).
use crate::library::{MergeLoad, Reply};
use crate::merges_calls::{self, MergeCall};
use crate::merges_cases::{self, MergeCase};
use crate::merges_made_up;
use crate::merges_model::{NONE, Size};
use crate::moves_cases::{self, Answer, MoveCall, MoveCase};
use crate::moves_made_up;
use crate::moves_model::{Graph, Load, MoveState, entry_sets, load_refusal};
use crate::run::{Case, Counts, Random};
use crate::sets::width;
use crate::views::MergeView;

pub const MOVE_CASE: u64 = 1;
pub const MERGE_CASE: u64 = 2;

/// What stands everywhere in a pass's answer lists before the call.
pub const BEFORE: u32 = 7;

fn numbers(list: &[u32]) -> impl Iterator<Item = u64> + '_ {
    list.iter().map(|&number| number.into())
}

fn move_load_numbers(case: &MoveCase) -> Vec<u64> {
    let load = &case.load;
    let mut line = vec![MOVE_CASE, load.a, load.d, load.e, load.n];
    line.extend(numbers(&load.starts));
    line.extend(numbers(&load.dependencies));
    line.extend(numbers(&load.hosts));
    line.extend(&case.sets);
    line
}

fn move_call_numbers(call: &MoveCall) -> Vec<u64> {
    match call {
        MoveCall::Move { atom, bits } => [&[1, u64::from(*atom)], &bits[..]].concat(),
        MoveCall::AtomSet { atom } => vec![2, u64::from(*atom)],
        MoveCall::AtomCount { bits } => [&[3], &bits[..]].concat(),
        MoveCall::Multiplicity { from, to } => [&[4], &from[..], &to[..]].concat(),
        MoveCall::EdgeCount => vec![5],
        MoveCall::EdgeAt { k } => vec![6, *k],
        MoveCall::HasCycle => vec![7],
        MoveCall::ChunkCount => vec![8],
        MoveCall::StartOrder { bit, room } => vec![9, *bit, *room as u64],
        MoveCall::Counter { .. } => unreachable!("not recorded"),
    }
}

/// An answer with sets of `w` numbers.
fn move_answer_numbers(answer: Answer, w: usize) -> Vec<u64> {
    match answer {
        Answer::Moved(reply) => vec![reply.refusal, reply.accepted, reply.appeared, reply.vanished, reply.reached],
        Answer::Reply(reply) => vec![reply.refusal, reply.value],
        Answer::Order(reply, list) => [reply.refusal, reply.value].into_iter().chain(numbers(&list)).collect(),
        Answer::Set(reply) => {
            let set = [reply.set0, reply.set1, reply.set2, reply.set3];
            [&[reply.refusal], &set[..w]].concat()
        }
        Answer::Edge(reply) => {
            let from = [reply.from0, reply.from1, reply.from2, reply.from3];
            let to = [reply.to0, reply.to1, reply.to2, reply.to3];
            [&[reply.refusal, reply.found], &from[..w], &to[..w], &[reply.multiplicity]].concat()
        }
    }
}

/// The numbers of a move case whose lists have the right lengths.
pub fn record_moves(case: &MoveCase) -> Vec<u64> {
    case.check(None, &mut Counts::default()).expect("the original and the model agree");
    let load = &case.load;
    let w = width(load.e) as usize;
    let mut line = move_load_numbers(case);
    let row = load_refusal(load, Some(&case.sets), usize::MAX);
    if row != 0 {
        line.extend([row, 0, 0]);
        return line;
    }
    let mut state = MoveState::at_loading(load, &entry_sets(&case.sets, load.a as usize, w));
    let cyclic = Graph::new(load, &state.ledger().place).cyclic();
    line.extend([0, cyclic.into(), case.calls.len() as u64]);
    for (call, _) in &case.calls {
        line.extend(move_call_numbers(call));
        line.extend(move_answer_numbers(moves_cases::model_answer(load, &mut state, call), w));
    }
    line
}

fn merge_load_numbers(size: Size, load: &MergeLoad) -> Vec<u64> {
    let mut line = vec![MERGE_CASE, size.c, size.m, size.l, size.e, load.initial, load.modules.len() as u64];
    line.extend(numbers(&load.module_starts));
    line.extend(numbers(&load.modules));
    line.push(load.set_chunks.len() as u64);
    line.extend(&load.sets);
    line.extend(numbers(&load.set_chunks));
    line.extend(numbers(&load.side_effects));
    line
}

/// A call's kind and arguments, but for the side effects.
fn merge_call_numbers(call: &MergeCall) -> Vec<u64> {
    let two = |kind: u64, one: u32, other: u32| vec![kind, one.into(), other.into()];
    match call {
        MergeCall::InitModule { module, bits, .. } => [&[1, u64::from(*module)], &bits[..]].concat(),
        MergeCall::AddModule { module, chunk, .. } => two(2, *module, *chunk),
        MergeCall::Register { key, chunk } => two(3, *key, *chunk),
        MergeCall::ToTempIdx { key } => vec![4, u64::from(*key)],
        MergeCall::Calc { starts, dependencies } => {
            let count = [5, dependencies.len() as u64];
            count.into_iter().chain(numbers(starts)).chain(numbers(dependencies)).collect()
        }
        MergeCall::Warning { source, target } => two(6, *source, *target),
        MergeCall::IsReachable { from, to } => two(7, *from, *to),
        MergeCall::Merge { target, source } => two(8, *target, *source),
        MergeCall::Pass { proposals, bars, .. } => {
            let count = [9, proposals.len() as u64];
            count.into_iter().chain(numbers(proposals)).chain(numbers(bars)).collect()
        }
    }
}

/// A reply, with the value of calls that answer one, and the pass's kinds and numbers, which a refusal leaves as they were.
fn merge_answer_numbers(call: &MergeCall, reply: Reply, lists: &[(u32, u32)]) -> Vec<u64> {
    let mut answer = vec![reply.refusal];
    match call {
        MergeCall::InitModule { .. } | MergeCall::AddModule { .. } | MergeCall::Register { .. } => {}
        MergeCall::Calc { .. } | MergeCall::Merge { .. } => {}
        MergeCall::Pass { kinds, numbers, .. } if reply.refusal != 0 => {
            answer.push(reply.value);
            answer.extend(vec![u64::from(BEFORE); kinds + numbers]);
        }
        _ => answer.push(reply.value),
    }
    answer.extend(lists.iter().map(|&(kind, _)| u64::from(kind)));
    answer.extend(lists.iter().map(|&(_, number)| u64::from(number)));
    answer
}

/// A list behind its length.
fn counted(list: &[u32]) -> Vec<u64> {
    std::iter::once(list.len() as u64).chain(numbers(list)).collect()
}

/// What the area must show at the end: each chunk's two flags, dependencies and modules, the chunk of each set of `w` numbers, and of
/// each module. How many records they are.
fn merge_end_numbers(view: &MergeView, w: usize) -> (u64, Vec<u64>) {
    let chunks = view.dependencies.len();
    let mut line = vec![];
    for chunk in 0..chunks {
        line.extend([10, chunk as u64, view.side_effects[chunk].into(), view.needs_creation[chunk].into()]);
        line.extend(counted(&view.dependencies[chunk]));
        line.extend(counted(&view.modules[chunk]));
    }
    line.extend([11, view.sets.len() as u64]);
    line.extend(view.sets.iter().flat_map(|(set, _)| set.0[..w].to_vec()));
    line.extend(view.sets.iter().map(|&(_, chunk)| u64::from(chunk)));
    line.push(12);
    line.extend(view.module_chunk.iter().map(|chunk| u64::from(chunk.unwrap_or(NONE))));
    (chunks as u64 + 2, line)
}

/// The numbers of a merge case whose lists have the right lengths and whose calls share the side effects.
pub fn record_merges(case: &MergeCase) -> Vec<u64> {
    case.check(None, &mut Counts::default()).expect("the original and the model agree");
    let size = case.size;
    let mut line = merge_load_numbers(size, &case.load);
    let mut state = match merges_calls::new(size, &case.load, usize::MAX) {
        Ok(state) => state,
        Err(row) => {
            line.extend([row, 0]);
            return line;
        }
    };
    let mut calls = vec![];
    for (call, _) in &case.calls {
        let call = &merges_cases::fitted(call, &state);
        let (reply, lists) = state.call(size, call);
        calls.extend(merge_call_numbers(call));
        calls.extend(merge_answer_numbers(call, reply, &lists));
    }
    let (records, end) = merge_end_numbers(&state.view(), width(size.e) as usize);
    line.extend([0, case.calls.len() as u64 + records]);
    line.extend(calls);
    line.extend(end);
    line
}

fn asked(case: &mut MoveCase) {
    let mut calls: Vec<MoveCall> = (0..case.load.a.min(6) as u32).map(|atom| MoveCall::AtomSet { atom }).collect();
    calls.extend([MoveCall::EdgeCount, MoveCall::ChunkCount]);
    calls.extend((0..8.min(case.load.d + 1)).map(|k| MoveCall::EdgeAt { k }));
    calls.push(MoveCall::HasCycle);
    case.calls.extend(calls.into_iter().map(|call| (call, moves_cases::Damage::default())));
}

fn moves_case(random: &mut Random, shape: moves_made_up::Shape) -> MoveCase {
    let mut case = moves_made_up::random_case(random, shape, 0);
    case.load.fixed.fill(0);
    case.calls.retain(|(call, _)| !matches!(call, MoveCall::Counter { .. }));
    for (call, _) in &mut case.calls {
        if let MoveCall::Move { atom, bits } = call {
            match random.below(24) {
                0 => *atom = case.load.a as u32,
                1 if case.load.e % 64 != 0 => *bits.last_mut().unwrap() |= 1 << (case.load.e % 64),
                _ => {}
            }
        }
    }
    asked(&mut case);
    case
}

fn merges_case(random: &mut Random, shape: merges_made_up::Shape) -> MergeCase {
    let mut case = merges_made_up::random_case(random, shape, 0);
    for (call, _) in &mut case.calls {
        if let MergeCall::InitModule { side_effects, .. } | MergeCall::AddModule { side_effects, .. } = call {
            side_effects.clone_from(&case.load.side_effects);
        }
        match call {
            MergeCall::AddModule { chunk, .. } if random.chance(5) => *chunk = case.size.c as u32,
            MergeCall::InitModule { module, .. } if random.chance(5) => *module = case.size.m as u32,
            MergeCall::Merge { target, source } if random.chance(5) => *source = *target,
            _ => {}
        }
    }
    case
}

/// The crate's warning misses a loop through a chunk that was merged away.
fn missed_loop() -> MergeCase {
    let size = Size { c: 4, m: 4, l: 4, e: 2 };
    let side_effects = vec![0; 4];
    let load = MergeLoad {
        initial: 2,
        mode: 0,
        module_starts: vec![0, 1, 2],
        modules: vec![0, 1],
        sets: vec![],
        set_chunks: vec![],
        side_effects: side_effects.clone(),
    };
    let init = |module, set| MergeCall::InitModule { module, bits: vec![set], side_effects: side_effects.clone() };
    let calls = [
        init(2, 1),
        init(3, 2),
        MergeCall::Calc { starts: vec![0, 1, 1, 1, 2], dependencies: vec![1, 2] },
        MergeCall::Warning { source: 2, target: 0 },
        MergeCall::Merge { target: 0, source: 2 },
        MergeCall::Warning { source: 3, target: 1 },
        MergeCall::Merge { target: 1, source: 3 },
    ];
    let calls = calls.into_iter().map(|call| (call, merges_cases::Damage::default())).collect();
    MergeCase { size, load, extra: 0, short: false, fill: 0, crafted: None, calls }
}

/// A move case written out: each atom's set and dependencies, hosts, and moves (atom, set).
fn small(sets: &[u64], lists: &[&[u32]], hosts: &[u32], n: u64, moves: &[(u32, u64)]) -> MoveCase {
    let mut starts = vec![0];
    let mut dependencies: Vec<u32> = vec![];
    for list in lists {
        dependencies.extend(*list);
        starts.push(dependencies.len() as u32);
    }
    let load = Load {
        a: sets.len() as u64,
        d: dependencies.len() as u64,
        e: hosts.len() as u64,
        n,
        starts,
        dependencies,
        hosts: hosts.to_vec(),
        fixed: vec![0; sets.len()],
    };
    let calls =
        moves.iter().map(|&(atom, set)| (MoveCall::Move { atom, bits: vec![set] }, moves_cases::Damage::default()));
    let mut case =
        MoveCase { load, sets: sets.to_vec(), extra: 0, short: false, fill: 0, crafted: None, calls: calls.collect() };
    asked(&mut case);
    case
}

/// Cases that must be among the recorded ones.
fn named() -> Vec<Vec<u64>> {
    let moves = [
        // P1 to P8.
        small(&[3, 1, 2], &[&[], &[0], &[0]], &[1, 2], 96, &[(0, 1), (1, 3)]),
        small(&[], &[], &[NONE], 1, &[(0, 1)]),
        small(&[1, 2], &[&[1], &[0]], &[NONE, NONE], 4, &[(0, 2)]),
        small(&[1, 2, 4, 8], &[&[1], &[0], &[3], &[2]], &[NONE; 4], 6, &[(0, 2), (1, 4), (2, 8), (3, 5), (0, 1)]),
        small(&[3, 5], &[&[], &[0]], &[NONE, NONE, 1], 4, &[(0, 4)]),
        small(&[3, 5], &[&[], &[0]], &[NONE, NONE, NONE], 4, &[(0, 4)]),
        small(&[1, 2], &[&[1, 1], &[]], &[NONE, NONE], 3, &[(0, 3)]),
        small(&[1, 2], &[&[], &[]], &[NONE, NONE], 2, &[(0, 3)]),
        // N = A + 1: sets give up their places, for rejected moves too.
        small(
            &[3, 5],
            &[&[], &[0]],
            &[NONE, NONE, 1],
            3,
            &[(0, 4), (0, 6), (1, 6), (0, 4), (0, 7), (0, 3), (0, 1), (1, 2), (0, 5), (1, 4)],
        ),
        // Step 1 evicts nothing.
        small(&[1, 2, 4], &[&[1], &[0], &[]], &[NONE; 5], 4, &[(0, 8), (2, 16), (0, 16), (2, 8), (0, 2), (2, 8)]),
        // Walking only from the target while cyclic is not enough.
        small(&[3, 5, 4], &[&[1], &[0, 2], &[]], &[NONE, NONE, 0, NONE], 5, &[(2, 9)]),
        // An edge goes and comes back within one move.
        small(&[6, 5, 7], &[&[1], &[], &[0]], &[NONE; 3], 4, &[(2, 6), (0, 5)]),
    ];
    let mut lines: Vec<Vec<u64>> = moves.iter().map(record_moves).collect();
    lines.push(record_merges(&missed_loop()));
    lines
}

/// Cases with sizes at limits.
fn at_limits(random: &mut Random) -> Vec<Vec<u64>> {
    let mut lines = vec![];
    for (a, d, e, n) in [
        (512, 1024, 64, 513),
        (512, 512, 10, 513),
        (48, 128, 16, 96),
        (48, 96, 64, 49),
        (48, 96, 65, 60),
        (47, 60, 63, 64),
        (40, 80, 128, 50),
        (40, 80, 129, 50),
        (30, 60, 255, 40),
        (30, 60, 256, 40),
        (1, 0, 0, 2),
        (0, 0, 0, 1),
        (1, 0, 1, 2),
        (3, 200, 3, 5),
    ] {
        lines.push(record_moves(&moves_case(random, moves_made_up::Shape { a, d, e, n, calls: 12 })));
    }
    for (c, m, l, e) in [(1, 0, 0, 0), (1, 1, 1, 1), (40, 30, 60, 64), (40, 30, 60, 65), (20, 30, 40, 256)] {
        let shape = merges_made_up::Shape {
            size: Size { c, m, l, e },
            initial: c.div_ceil(3),
            mode: 0,
            pairs: c / 4,
            calls: 30,
        };
        lines.push(record_merges(&merges_case(random, shape)));
    }
    lines
}

/// A fixed sample: the named cases, limits, and made-up ones, `count` in all.
pub fn sample(count: usize, seed: u64) -> Vec<Vec<u64>> {
    let mut random = Random(seed ^ 0x7265_636f);
    let mut lines = named();
    lines.extend(at_limits(&mut random));
    while lines.len() < count {
        if lines.len() % 2 == 0 {
            let e = 1 + random.below(5);
            let a = (1 + random.below(1 << e)).min(7);
            let (d, n, calls) = (random.below(2 * a + 1), a + 1 + random.below(4), 3 + random.index(8));
            lines.push(record_moves(&moves_case(&mut random, moves_made_up::Shape { a, d, e, n, calls })));
        } else {
            let (c, m, l, e) = (2 + random.below(7), 1 + random.below(7), 2 + random.below(14), random.below(5));
            let (initial, pairs, calls) = (random.below(c), random.below(c), 4 + random.index(16));
            let shape = merges_made_up::Shape { size: Size { c, m, l, e }, initial, mode: 0, pairs, calls };
            lines.push(record_merges(&merges_case(&mut random, shape)));
        }
    }
    lines.truncate(count);
    lines
}
