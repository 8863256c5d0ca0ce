//! Cases exactly at the limits of rows 1 and 14, and one past each: the same in every run.
use crate::layout::MergeLayout;
use crate::library::{Library, MergeLoad};
use crate::merges_calls::{self, MergeCall};
use crate::merges_cases::{self, FITTED, MergeCase};
use crate::merges_model::{NONE, Size};
use crate::moves_cases::{self, MoveCall, MoveCase};
use crate::moves_model::{Load, load_refusal};
use crate::run::{Case, Counts, Disagreement, run};

/// Numbers lent beyond the required length, so that the area is long enough for a size one past its limit too.
const ROOM: usize = 4096;

/// Runs a case, in which the model must find this row at loading.
fn expect<C: Case>(
    case: &C,
    found: u64,
    row: u64,
    library: Option<&dyn Library>,
    counts: &mut Counts,
) -> Result<(), Disagreement> {
    if found != row {
        let what = format!("a limit: the model's loading has row {found}, expected {row}");
        return Err(Disagreement { what, input: format!("{case:?}") });
    }
    run(case, library, counts)
}

/// The `number`-th set of 256 bits; none has fewer than two of them.
fn set(number: u64) -> [u64; 4] {
    [number + 1, 0, 0, 1 << 63]
}

fn sets(count: u64) -> Vec<u64> {
    (0..count).flat_map(set).collect()
}

/// The same sets of 256 bits, lent as sets of 257.
fn widened(sets: &[u64]) -> Vec<u64> {
    sets.chunks(4).flat_map(|set| [set, &[0]].concat()).collect()
}

/// Atoms that depend on lower ones only, D dependencies in all, and bit i hosted by atom i.
fn move_case(a: u64, d: u64, n: u64, calls: Vec<MoveCall>) -> MoveCase {
    let mut lists: Vec<Vec<u32>> = vec![vec![]; a as usize];
    for k in 0..d {
        let from = 1 + k % (a - 1);
        lists[from as usize].push((7919 * k % from) as u32);
    }
    let mut starts = vec![0];
    for list in &lists {
        starts.push(starts[starts.len() - 1] + list.len() as u32);
    }
    let hosts = (0..256).map(|bit| if u64::from(bit) < a { bit } else { NONE }).collect();
    let load = Load { a, d, e: 256, n, starts, dependencies: lists.concat(), hosts, fixed: vec![0; a as usize] };
    let calls = calls.into_iter().map(|call| (call, moves_cases::Damage::default())).collect();
    MoveCase { load, sets: sets(a), extra: ROOM, short: false, fill: 1, crafted: None, calls }
}

/// Each call on 512 atoms, in sets 0 to 511; none is refused by row 1.
fn move_calls() -> Vec<MoveCall> {
    let bits = |number: u64| set(number).to_vec();
    vec![
        MoveCall::Move { atom: 511, bits: bits(512) },
        MoveCall::Move { atom: 0, bits: vec![0, 0, 0, 1 << 63] },
        MoveCall::Move { atom: 511, bits: bits(512) },
        MoveCall::Move { atom: 512, bits: bits(513) },
        MoveCall::AtomSet { atom: 511 },
        MoveCall::AtomCount { bits: bits(512) },
        MoveCall::Multiplicity { from: bits(512), to: bits(0) },
        MoveCall::EdgeCount,
        MoveCall::ChunkCount,
        MoveCall::EdgeAt { k: 0 },
        MoveCall::EdgeAt { k: 8192 },
        MoveCall::HasCycle,
        MoveCall::StartOrder { bit: 0, room: 512 },
        MoveCall::StartOrder { bit: 255, room: 513 },
        MoveCall::StartOrder { bit: 255, room: 511 },
        MoveCall::StartOrder { bit: 256, room: 511 },
    ]
}

/// 512 atoms, each depending on the next one, the last on the first where the path is closed: the deepest walk.
fn path(closed: bool) -> MoveCase {
    let d = 511 + u64::from(closed);
    let starts = (0..=512).map(|atom| atom.min(d as u32)).collect();
    let dependencies = (0..d as u32).map(|atom| (atom + 1) % 512).collect();
    let hosts = vec![NONE; 256];
    let load = Load { a: 512, d, e: 256, n: 1024, starts, dependencies, hosts, fixed: vec![0; 512] };
    let ask = || (MoveCall::HasCycle, moves_cases::Damage::default());
    let apart = MoveCall::Move { atom: 256, bits: set(600).to_vec() };
    let calls = vec![ask(), (apart, moves_cases::Damage::default()), ask()];
    MoveCase { load, sets: sets(512), extra: ROOM, short: false, fill: 1, crafted: None, calls }
}

/// The loads of a case one past each limit of row 1, with their sets.
fn moves_past(case: &MoveCase) -> Vec<(Load, Vec<u64>)> {
    let at = |change: &dyn Fn(&mut Load)| {
        let mut load = case.load.clone();
        change(&mut load);
        load
    };
    let atoms = at(&|load| {
        load.a += 1;
        load.starts.push(load.d as u32);
        load.fixed.push(0);
    });
    let dependencies = at(&|load| {
        load.d += 1;
        load.dependencies.push(0);
        load.starts[load.a as usize] += 1;
    });
    let bits = at(&|load| {
        load.e += 1;
        load.hosts.push(NONE);
    });
    vec![
        (atoms, sets(case.load.a + 1)),
        (dependencies, case.sets.clone()),
        (bits, widened(&case.sets)),
        (at(&|load| load.n += 1), case.sets.clone()),
    ]
}

/// Atom 0 goes from set to set until N are registered; then the smallest empty one gives up its place for each new one.
fn every_set_registered() -> MoveCase {
    let go = |number: u64| MoveCall::Move { atom: 0, bits: set(number).to_vec() };
    let mut calls: Vec<MoveCall> = (1..1024).map(go).collect();
    calls.extend([
        go(1024),
        go(1025),
        go(0),
        go(1023),
        go(1),
        go(1024),
        MoveCall::AtomCount { bits: set(1024).to_vec() },
    ]);
    move_case(1, 0, 1024, calls)
}

/// A, D, E and N at their limits and past them, N at A + 1 and below it, a path of all atoms, N sets registered.
pub fn moves(library: Option<&dyn Library>, counts: &mut Counts) -> Result<(), Disagreement> {
    let mut check = |case: &MoveCase, row: u64| {
        let found = load_refusal(&case.load, Some(&case.sets), usize::MAX);
        expect(case, found, row, library, counts)
    };
    let mut largest = move_case(512, 8192, 1024, move_calls());
    for (load, sets) in moves_past(&largest) {
        for call in move_calls() {
            let load = Some(Box::new(load.clone()));
            largest.calls.push((call, moves_cases::Damage { load, ..moves_cases::Damage::default() }));
        }
        let extra = load.layout().length();
        check(&MoveCase { load, sets, extra, calls: vec![], ..largest.clone() }, 1)?;
    }
    check(&largest, 0)?;
    check(&move_case(512, 8192, 513, move_calls()), 0)?;
    check(&move_case(512, 8192, 512, vec![]), 1)?;
    check(&path(false), 0)?;
    check(&path(true), 0)?;
    check(&every_set_registered(), 0)
}

const LARGEST: Size = Size { c: 1024, m: 4096, l: 8192, e: 256 };

/// So many initial chunks with eight modules each, `entries` in all, and so many sets named.
fn merge_load(initial: u32, entries: u32, pairs: u32) -> MergeLoad {
    MergeLoad {
        initial: initial.into(),
        mode: 0,
        module_starts: (0..=initial).map(|place| if place == initial { entries } else { 8 * place }).collect(),
        modules: (0..entries).map(|entry| entry % 4096).collect(),
        sets: sets(pairs.into()),
        set_chunks: (0..pairs).map(|pair| pair % initial.min(1024)).collect(),
        side_effects: (0..4096).map(|module| u32::from(module % 5 == 0)).collect(),
    }
}

fn merge_case(size: Size, load: MergeLoad, calls: Vec<MergeCall>) -> MergeCase {
    let calls = calls.into_iter().map(|call| (call, merges_cases::Damage::default())).collect();
    MergeCase { size, load, extra: ROOM, short: false, fill: 1, crafted: None, calls }
}

/// Two dependencies of each module on modules of higher chunks, and `more` of the last.
fn merge_dependencies(more: u32) -> MergeCall {
    let mut dependencies: Vec<u32> = (0..4096).flat_map(|module| [module + 8, module + 16]).collect();
    dependencies.iter_mut().for_each(|module| *module = (*module).min(4095));
    dependencies.extend((0..more).map(|_| 0));
    let starts = (0..=4096).map(|module| if module == 4096 { 8192 + more } else { 2 * module }).collect();
    MergeCall::Calc { starts, dependencies }
}

fn init(load: &MergeLoad, module: u32, number: u64) -> MergeCall {
    MergeCall::InitModule { module, bits: set(number).to_vec(), side_effects: load.side_effects.clone() }
}

/// Each call on 1,024 chunks, none refused by row 14.
fn merge_calls(load: &MergeLoad) -> Vec<MergeCall> {
    let add = |chunk| MergeCall::AddModule { module: 4095, chunk, side_effects: load.side_effects.clone() };
    let pass = MergeCall::Pass { proposals: vec![0, NONE], bars: vec![0], kinds: FITTED, numbers: FITTED };
    vec![
        init(load, 0, 0),
        add(1023),
        MergeCall::Register { key: 1023, chunk: 1023 },
        MergeCall::Register { key: 1024, chunk: 1023 },
        MergeCall::ToTempIdx { key: 1023 },
        MergeCall::ToTempIdx { key: 1024 },
        merge_dependencies(0),
        MergeCall::Warning { source: 1023, target: 0 },
        MergeCall::Warning { source: 0, target: 1 },
        MergeCall::Warning { source: 1023, target: 1024 },
        MergeCall::IsReachable { from: 0, to: 1023 },
        MergeCall::IsReachable { from: 1023, to: 1023 },
        MergeCall::Merge { target: 1023, source: 1022 },
        pass,
    ]
}

/// Makes chunks 1,020 to 1,023, after which row 18 fits; then two list entries more, after which row 19 does; then 8,193
/// module dependencies, and a second pass.
fn last_chunks(load: &MergeLoad) -> Vec<MergeCall> {
    let mut calls: Vec<MergeCall> = (0..5).map(|number| init(load, number as u32, 2000 + number)).collect();
    calls.extend(merge_calls(load));
    calls.push(MergeCall::AddModule { module: 0, chunk: 0, side_effects: load.side_effects.clone() });
    calls.push(merge_dependencies(1));
    calls.push(MergeCall::Pass { proposals: vec![NONE], bars: vec![0], kinds: FITTED, numbers: FITTED });
    calls
}

/// Sizes and loads one past each limit of row 14.
fn merges_past(load: &MergeLoad) -> Vec<(Size, MergeLoad)> {
    let longer = MergeLoad { side_effects: [&load.side_effects[..], &[0]].concat(), ..load.clone() };
    let wider = MergeLoad { sets: widened(&load.sets), ..load.clone() };
    vec![
        (Size { c: 1025, ..LARGEST }, load.clone()),
        (Size { m: 4097, ..LARGEST }, longer),
        (Size { l: 8193, ..LARGEST }, load.clone()),
        (Size { e: 257, ..LARGEST }, wider),
    ]
}

/// 1,024 chunks, of which each of the first 1,000 was merged into the next: the longest way to an end, and then a ring.
fn merged_chain() -> MergeCase {
    let load = MergeLoad { mode: 1, module_starts: vec![0; 1025], ..merge_load(1024, 0, 0) };
    let mut state = merges_calls::new(LARGEST, &load, usize::MAX).expect("a load that no row refuses");
    (0..1000).for_each(|chunk| state.merged_into[chunk] = Some(chunk as u32 + 1));
    // 1,001 on the chain's first, its last on 1,002; 1,003 on its middle.
    for (from, to) in [(1001, 0), (1000, 1002), (1003, 500), (1002, 1004)] {
        state.dependencies[from].insert(to);
    }
    let mut calls = vec![
        MergeCall::IsReachable { from: 1001, to: 1004 },
        MergeCall::IsReachable { from: 0, to: 1002 },
        MergeCall::IsReachable { from: 1003, to: 999 },
        MergeCall::IsReachable { from: 0, to: 1000 },
        MergeCall::Warning { source: 1001, target: 1002 },
        MergeCall::Warning { source: 1001, target: 1000 },
        MergeCall::Warning { source: 1004, target: 1001 },
        MergeCall::Merge { target: 1005, source: 1000 },
        MergeCall::IsReachable { from: 1001, to: 1005 },
        MergeCall::Merge { target: 0, source: 1005 },
    ];
    let closing = (LARGEST.layout().chunk_lane(MergeLayout::MERGED_INTO, 1005), 0);
    let ring = (calls[0].clone(), merges_cases::Damage { cell: Some(closing), ..merges_cases::Damage::default() });
    calls.push(MergeCall::Warning { source: 1004, target: 1005 });
    let mut case = MergeCase { crafted: Some(state), ..merge_case(LARGEST, load, calls) };
    case.calls.push(ring);
    case
}

/// C, M, L and E, initial chunks, named sets and module dependencies at their limits and past them; 1,024 chunks made.
pub fn merges(library: Option<&dyn Library>, counts: &mut Counts) -> Result<(), Disagreement> {
    let mut check = |case: &MergeCase, row: u64| {
        let found = merges_calls::new(case.size, &case.load, usize::MAX).err().unwrap_or(0);
        expect(case, found, row, library, counts)
    };
    let load = merge_load(1020, 8186, 1024);
    let mut largest = merge_case(LARGEST, load.clone(), last_chunks(&load));
    for (size, load) in merges_past(&load) {
        for call in merge_calls(&load) {
            let damage = merges_cases::Damage { size: Some(size), ..merges_cases::Damage::default() };
            largest.calls.push((call, damage));
        }
        let extra = size.layout().length();
        check(&MergeCase { extra, ..merge_case(size, load, vec![]) }, 14)?;
    }
    check(&largest, 0)?;
    let full = merge_load(1024, 8192, 1024);
    check(&merge_case(LARGEST, full.clone(), vec![init(&full, 0, 2000)]), 0)?;
    check(&merge_case(LARGEST, merge_load(1025, 8192, 1024), vec![]), 14)?;
    check(&merge_case(LARGEST, merge_load(1024, 8192, 1025), vec![]), 14)?;
    check(&merge_case(LARGEST, merge_load(1023, 8193, 1024), vec![]), 19)?;
    check(&merge_case(Size { c: 1, ..LARGEST }, merge_load(0, 0, 0), vec![]), 0)?;
    check(&merge_case(Size { c: 0, ..LARGEST }, merge_load(0, 0, 0), vec![]), 14)?;
    check(&merged_chain(), 0)
}
