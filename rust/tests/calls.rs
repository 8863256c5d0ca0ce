//! Every call once through the safe crate, and the rows that only it can bring about.
use nidskalm::{
    lent, Assignment, ChunkIdx, Edge, Entries, EntrySet, InitialChunks, Load, MergeGraph, Mode, ModuleIdx, MoveGraph,
    Moved, RankError, Refusal, Size, NONE,
};
use std::cmp::Ordering;

fn set(bits: u64) -> EntrySet {
    EntrySet::from(bits)
}

fn row<T: std::fmt::Debug>(result: Result<T, Refusal>) -> u64 {
    result.unwrap_err().row()
}

/// An accepted move, with how many edges came and went, and how many other chunks the atom's chunk reaches.
fn moved(appeared: u64, vanished: u64, reached: u64) -> Result<Moved, Refusal> {
    Ok(Moved { accepted: true, appeared, vanished, reached })
}

/// A rejected move reports zeros.
const REJECTED: Result<Moved, Refusal> = Ok(Moved { accepted: false, appeared: 0, vanished: 0, reached: 0 });

/// Atoms 1 and 2 depend on atom 0 and host bits 0 and 1.
const LOAD: Load = Load { starts: &[0, 0, 1, 2], dependencies: &[0, 0], hosts: &[1, 2], fixed: &[0, 0, 0] };

#[test]
fn moves_and_questions() {
    let mut graph = MoveGraph::new(LOAD, 8, &[set(3), set(1), set(2)]).unwrap();
    assert!(!graph.cyclic_at_loading());
    assert_eq!(graph.multiplicity(set(1), set(3)), Ok(1));
    assert_eq!(graph.try_move(0, set(1)), moved(1, 2, 0));
    assert_eq!(graph.try_move(1, set(3)), REJECTED);
    assert_eq!(graph.atom_set(0), Ok(set(1)));
    assert_eq!(graph.atom_count(set(1)), Ok(2));
    assert_eq!(graph.atom_count(set(3)), Ok(0));
    assert_eq!(graph.edge_count(), Ok(1));
    assert_eq!(graph.chunk_count(), Ok(2));
    assert_eq!(graph.edges().unwrap().as_slice(), [Edge { from: set(2), to: set(1), multiplicity: 1 }]);
    assert_eq!(graph.edge_at(1), Ok(None));
    assert_eq!(graph.has_cycle(), Ok(false));
}

/// Fewer chunks first, then fewer edges, then the sets from atom 0.
#[test]
fn plans_are_ranked() {
    let load = Load { starts: &[0, 1, 1, 1], dependencies: &[1], hosts: &[NONE; 3], fixed: &[0, 0, 0] };
    let at = |places: [u64; 3]| {
        let mut graph = MoveGraph::new(load, 8, &[set(5), set(6), set(7)]).unwrap();
        let moves = (0..).zip(places);
        moves.filter(|&(atom, place)| place != 5 + u64::from(atom)).for_each(|(atom, place)| {
            assert!(graph.try_move(atom, set(place)).unwrap().accepted);
        });
        graph
    };
    let ranks = |first: [u64; 3], second: [u64; 3]| at(first).rank(&at(second));
    assert_eq!(ranks([1, 2, 3], [1, 2, 3]), Ok(Ordering::Equal));
    // Two chunks with an edge come before three, and without the edge before that.
    assert_eq!(ranks([4, 1, 1], [1, 2, 3]), Ok(Ordering::Less));
    assert_eq!(ranks([4, 4, 1], [1, 2, 2]), Ok(Ordering::Less));
    // Then the first atom whose sets differ decides.
    assert_eq!(ranks([1, 2, 4], [1, 3, 2]), Ok(Ordering::Less));
    assert_eq!(ranks([2, 1, 3], [1, 2, 3]), Ok(Ordering::Greater));
    let graph = at([1, 2, 3]);
    assert_eq!(graph.rank(&graph), Ok(Ordering::Equal));
    let wider = MoveGraph::new(load, 9, &[set(5), set(6), set(7)]).unwrap();
    assert_eq!(graph.rank(&wider), Err(RankError::OtherLoad));
    let marked = MoveGraph::new(Load { fixed: &[0, 0, 1], ..load }, 8, &[set(5), set(6), set(7)]).unwrap();
    assert_eq!(graph.rank(&marked), Err(RankError::OtherLoad));
}

/// "the first passes all checks of a later call (1 to 6, 9), then the second".
#[test]
fn the_first_area_is_checked_first() {
    let mut area = vec![0; lent::move_area_length(&LOAD, 4).unwrap()];
    assert_eq!(lent::reduced_chunk_graph_new(&LOAD, 4, &[3, 1, 2], &mut area).refusal, 0);
    // The acyclic flag is kept in number 18 = 4×4 + 2.
    let mut wrong = area.clone();
    wrong[18] = 0;
    let refusal = |load: &Load, n: u64, first: &[u32], second: &[u32]| {
        lent::reduced_chunk_graph_rank(load, n, first, second).refusal
    };
    assert_eq!(refusal(&LOAD, 4, &area, &area), 0);
    assert_eq!(refusal(&LOAD, 3, &wrong, &wrong), 1);
    assert_eq!(refusal(&Load { fixed: &[0, 0], ..LOAD }, 4, &wrong, &wrong), 2);
    assert_eq!(refusal(&LOAD, 4, &area[1..], &wrong), 3);
    assert_eq!(refusal(&LOAD, 4, &wrong, &area[1..]), 9);
    assert_eq!(refusal(&LOAD, 4, &area, &area[1..]), 3);
    assert_eq!(refusal(&LOAD, 4, &area, &wrong), 9);
    assert_eq!(refusal(&Load { starts: &[0, 1, 0, 2], ..LOAD }, 4, &area, &wrong), 4);
    assert_eq!(refusal(&Load { dependencies: &[0, 2], ..LOAD }, 4, &area, &wrong), 5);
    assert_eq!(refusal(&Load { hosts: &[1, 3], ..LOAD }, 4, &area, &wrong), 6);
}

#[test]
fn the_book_s_search() {
    let load = Load { starts: &[0, 1, 2, 2], dependencies: &[1, 0], hosts: &[2, NONE], fixed: &[0, 0, 0] };
    let mut graph = MoveGraph::new(load, 4, &[set(3), set(1), set(2)]).unwrap();
    assert!(graph.cyclic_at_loading());
    assert_eq!(graph.has_cycle(), Ok(true));
    assert_eq!(graph.try_move(2, set(0)), REJECTED);
    assert_eq!(graph.has_cycle(), Ok(true));
    assert!(graph.try_move(0, set(1)).unwrap().accepted);
    assert_eq!(graph.has_cycle(), Ok(false));
}

#[test]
fn the_book_s_search_is_refused_as_every_question() {
    let mut area = vec![0; lent::move_area_length(&LOAD, 4).unwrap()];
    assert_eq!(lent::reduced_chunk_graph_new(&LOAD, 4, &[3, 1, 2], &mut area).refusal, 0);
    let refusal = |load: &Load, n: u64, area: &[u32]| lent::reduced_chunk_graph_has_cycle(load, n, area).refusal;
    assert_eq!(refusal(&LOAD, 4, &area), 0);
    assert_eq!(refusal(&LOAD, 3, &area), 1);
    assert_eq!(refusal(&Load { fixed: &[0, 0], ..LOAD }, 4, &area), 2);
    assert_eq!(refusal(&LOAD, 4, &area[1..]), 3);
    assert_eq!(refusal(&Load { starts: &[0, 1, 0, 2], ..LOAD }, 4, &area), 4);
    assert_eq!(refusal(&Load { dependencies: &[0, 2], ..LOAD }, 4, &area), 5);
    assert_eq!(refusal(&Load { hosts: &[1, 3], ..LOAD }, 4, &area), 6);
    // The acyclic flag is kept in number 18 = 4×4 + 2.
    area[18] = 0;
    assert_eq!(refusal(&LOAD, 4, &area), 9);
}

#[test]
fn an_edge_in_both_graphs_counts_as_neither() {
    let load = Load { starts: &[0, 1, 1, 2], dependencies: &[1, 0], hosts: &[NONE; 3], fixed: &[0, 0, 0] };
    let mut graph = MoveGraph::new(load, 4, &[set(6), set(5), set(3)]).unwrap();
    assert_eq!(graph.try_move(2, set(6)), moved(0, 1, 1));
    let before = graph.edges().unwrap();
    assert_eq!(graph.try_move(0, set(5)), moved(0, 0, 0));
    assert_eq!(graph.edges().unwrap().as_slice(), before.as_slice());
}

#[test]
fn a_moved_atom_tells_its_reach() {
    let load = Load { starts: &[0, 1, 3, 4, 4, 5], dependencies: &[1, 0, 2, 3, 0], hosts: &[NONE; 3], fixed: &[0; 5] };
    let sets: Vec<EntrySet> = (1..=5).map(set).collect();
    let mut graph = MoveGraph::new(load, 8, &sets).unwrap();
    assert!(graph.cyclic_at_loading());
    assert_eq!(graph.try_move(0, set(2)), moved(1, 3, 2));
    assert_eq!(graph.try_move(4, set(6)), moved(1, 1, 3));
    assert_eq!(graph.try_move(3, set(7)), moved(1, 1, 0));
    assert_eq!(graph.try_move(3, set(6)), REJECTED);
}

#[test]
fn refused_moves_change_nothing() {
    let mut graph = MoveGraph::new(LOAD, 4, &[set(3), set(1), set(2)]).unwrap();
    let before = graph.edges().unwrap();
    assert_eq!(row(graph.try_move(3, set(1))), 10);
    assert_eq!(row(graph.try_move(0, set(4))), 11);
    assert_eq!(row(graph.try_move(0, EntrySet::from_bits([0, 64]))), 11);
    assert_eq!(row(graph.try_move(0, set(3))), 12);
    assert_eq!(row(graph.atom_set(9)), 10);
    assert_eq!(row(graph.multiplicity(set(1), EntrySet::from_bits([200]))), 11);
    assert_eq!(graph.edges().unwrap().as_slice(), before.as_slice());
}

#[test]
fn empty_sets_give_their_place_back() {
    let load = Load { hosts: &[NONE; 16], ..LOAD };
    let mut graph = MoveGraph::new(load, 4, &[set(3), set(1), set(2)]).unwrap();
    for target in 4..2000 {
        assert_eq!(graph.try_move(0, set(target)), moved(2, 2, 0));
    }
    assert_eq!(graph.atom_count(set(3)), Ok(0));
    assert_eq!(graph.atom_count(set(1999)), Ok(1));
}

#[test]
fn fixed_atoms_stay() {
    let load = Load { fixed: &[7, 0, 0], ..LOAD };
    let mut graph = MoveGraph::new(load, 8, &[set(3), set(1), set(2)]).unwrap();
    assert_eq!(row(graph.try_move(0, set(1))), 24);
    assert_eq!(row(graph.try_move(0, set(3))), 24);
    assert_eq!(row(graph.try_move(0, set(4))), 24);
    assert_eq!(row(graph.try_move(3, set(1))), 10);
    assert_eq!(row(graph.try_move(1, set(4))), 11);
    assert!(graph.try_move(1, set(2)).unwrap().accepted);
    assert_eq!(graph.atom_set(0), Ok(set(3)));
}

#[test]
fn every_call_is_lent_the_marks_of_the_loading() {
    let marked = Load { fixed: &[0, 0, 7], ..LOAD };
    let mut area = vec![0; lent::move_area_length(&LOAD, 4).unwrap()];
    assert_eq!(lent::reduced_chunk_graph_new(&marked, 4, &[3, 1, 2], &mut area).refusal, 0);
    let refusal = |fixed: &[u32]| lent::reduced_chunk_graph_edge_count(&Load { fixed, ..LOAD }, 4, &area).refusal;
    assert_eq!(refusal(&[0, 0, 7]), 0);
    assert_eq!(refusal(&[0, 0, 1]), 0);
    assert_eq!(refusal(&[0, 0, 0]), 9);
    assert_eq!(refusal(&[0, 1, 7]), 9);
    assert_eq!(refusal(&[0, 0]), 2);
}

#[test]
fn start_orders() {
    let mut graph = MoveGraph::new(LOAD, 8, &[set(3), set(1), set(2)]).unwrap();
    assert_eq!(graph.start_order(0), Ok(vec![0, 1]));
    assert_eq!(graph.start_order(1), Ok(vec![0, 2]));
    assert_eq!(row(graph.start_order(2)), 26);
    assert!(graph.try_move(2, set(3)).unwrap().accepted);
    assert_eq!(graph.start_order(1), Ok(vec![0]));
    let mut area = vec![0; lent::move_area_length(&LOAD, 4).unwrap()];
    assert_eq!(lent::reduced_chunk_graph_new(&LOAD, 4, &[3, 1, 2], &mut area).refusal, 0);
    let told = |bit, room: &mut [u32]| lent::reduced_chunk_graph_start_order(&LOAD, 4, &area, bit, room);
    let mut room = [7; 4];
    let reply = told(0, &mut room);
    assert_eq!((reply.refusal, reply.value, room), (0, 2, [0, 1, 7, 7]));
    assert_eq!((told(0, &mut [7; 2]).refusal, told(2, &mut [7; 2]).refusal), (27, 26));
}

#[test]
fn a_cycle_has_no_start_order() {
    let load = Load { starts: &[0, 1, 2], dependencies: &[1, 0], hosts: &[NONE; 2], fixed: &[0; 2] };
    let graph = MoveGraph::new(load, 3, &[set(1), set(2)]).unwrap();
    assert!(graph.cyclic_at_loading());
    assert_eq!(row(graph.start_order(0)), 26);
}

/// The header's three version numbers are this crate's.
#[test]
fn the_header_has_this_version() {
    let header = include_str!("../../include/nidskalm.h");
    for (name, number) in [
        ("MAJOR", env!("CARGO_PKG_VERSION_MAJOR")),
        ("MINOR", env!("CARGO_PKG_VERSION_MINOR")),
        ("PATCH", env!("CARGO_PKG_VERSION_PATCH")),
    ] {
        assert!(header.contains(&format!("#define NIDSKALM_VERSION_{name} {number}\n")), "{name}");
    }
}

#[test]
fn refused_loadings() {
    let sets = [set(3), set(1), set(2)];
    let load = |load: Load, n: u64, sets: &[EntrySet]| row(MoveGraph::new(load, n, sets));
    assert_eq!(load(LOAD, 3, &sets), 1);
    assert_eq!(load(LOAD, u64::MAX, &sets), 1);
    assert_eq!(load(LOAD, 4, &sets[..2]), 2);
    assert_eq!(load(Load { starts: &[], ..LOAD }, 4, &[]), 2);
    assert_eq!(load(Load { starts: &[0, 1, 0, 2], ..LOAD }, 4, &sets), 4);
    assert_eq!(load(Load { dependencies: &[1, 0], ..LOAD }, 4, &sets), 5);
    assert_eq!(load(Load { hosts: &[3, NONE], ..LOAD }, 4, &sets), 6);
    assert_eq!(load(Load { fixed: &[0; 2], ..LOAD }, 4, &sets), 2);
    assert_eq!(load(Load { fixed: &[0; 4], ..LOAD }, 4, &sets), 2);
    assert_eq!(load(LOAD, 4, &[set(3), set(1), set(6)]), 7);
    assert_eq!(load(LOAD, 4, &[set(3), set(3), EntrySet::from_bits([64])]), 7);
    assert_eq!(load(LOAD, 4, &[set(3), set(1), set(1)]), 8);
}

#[test]
fn moves_without_entry_bits() {
    let load = |starts: &[u32], n: u64, sets: &[EntrySet]| {
        let load = Load { starts, dependencies: &[], hosts: &[], fixed: &[0; 2][..starts.len() - 1] };
        MoveGraph::new(load, n, sets).map_or_else(Refusal::row, |_| 0)
    };
    assert_eq!(load(&[0, 0], 2, &[set(0)]), 0);
    assert_eq!(load(&[0], 1, &[]), 0);
    assert_eq!(load(&[0, 0], 2, &[]), 2);
    assert_eq!(load(&[0, 0], 2, &[set(0); 5]), 2);
    assert_eq!(load(&[0], 1, &[set(0)]), 2);
    assert_eq!(load(&[0, 0], 1, &[]), 1);
    assert_eq!(load(&[0], 0, &[]), 1);
    assert_eq!(load(&[0, 1], 2, &[]), 2);
    assert_eq!(load(&[0, 0], 2, &[set(1); 2]), 2);
    assert_eq!(load(&[0, 0], 2, &[set(1)]), 7);
    assert_eq!(load(&[0, 0, 0], 3, &[set(0); 2]), 8);
}

const SIZE: Size = Size { chunks: 5, modules: 4, entries: 6, entry_bits: 2 };
const INITIAL: InitialChunks =
    InitialChunks { module_starts: &[0, 1, 2], modules: &[0, 1], sets: &[], set_chunks: &[] };

#[test]
fn merges() {
    let effects = [0, 0, 7, 0];
    let named = [set(1), set(2)];
    let initial = InitialChunks { sets: &named, set_chunks: &[0, 1], ..INITIAL };
    let mut graph = MergeGraph::new(SIZE, initial, Mode::Original, &effects).unwrap();
    graph.init_module_assignment(ModuleIdx(2), set(3)).unwrap();
    graph.init_module_assignment(ModuleIdx(3), set(0)).unwrap();
    graph.add_module_to_chunk(ModuleIdx(3), ChunkIdx(3)).unwrap();
    graph.calc_chunk_dependencies(&[0, 1, 1, 2, 3], &[1, 1, 2]).unwrap();
    let chunk = ChunkIdx;
    assert!(graph.depends(chunk(0), chunk(1)) && graph.depends(chunk(3), chunk(2)));
    assert!(!graph.depends(chunk(9), chunk(0)));
    assert_eq!(graph.is_reachable(chunk(3), chunk(1)), Ok(true));
    assert_eq!(graph.is_reachable(chunk(3), chunk(3)), Ok(false));
    assert_eq!(graph.would_create_circular_dependency(chunk(2), chunk(1)), Ok(true));
    assert_eq!(graph.would_create_circular_dependency(chunk(2), chunk(0)), Ok(false));
    assert_eq!(graph.to_temp_idx(chunk(4)), Ok(None));
    graph.register_chunk_graph_index(chunk(4), chunk(3)).unwrap();
    assert_eq!(graph.to_temp_idx(chunk(4)), Ok(Some(chunk(3))));
    let decided = graph.pass(&[Some(chunk(0)), None], &[false, false]);
    assert_eq!(decided, Ok(vec![Assignment::Merged(chunk(0)), Assignment::Created(chunk(2))]));
    graph.merge_chunk_dependencies(chunk(1), chunk(3)).unwrap();
    assert!(graph.depends(chunk(1), chunk(2)) && !graph.depends(chunk(3), chunk(2)));
}

#[test]
fn refused_merges() {
    let effects = [0; 4];
    assert_eq!(row(MergeGraph::new(Size { chunks: 0, ..SIZE }, INITIAL, Mode::Original, &effects)), 14);
    assert_eq!(row(MergeGraph::new(Size { modules: u64::MAX, ..SIZE }, INITIAL, Mode::Original, &effects)), 14);
    assert_eq!(row(MergeGraph::new(SIZE, INITIAL, Mode::Original, &effects[1..])), 15);
    let far = [EntrySet::from_bits([99])];
    assert_eq!(
        row(MergeGraph::new(SIZE, InitialChunks { sets: &far, set_chunks: &[0], ..INITIAL }, Mode::Original, &effects)),
        16
    );
    let twice = [set(1), set(1)];
    assert_eq!(
        row(MergeGraph::new(
            SIZE,
            InitialChunks { sets: &twice, set_chunks: &[0, 1], ..INITIAL },
            Mode::Original,
            &effects
        )),
        17
    );
    let mut graph = MergeGraph::new(SIZE, INITIAL, Mode::Original, &effects).unwrap();
    let (one, two) = (ChunkIdx(1), ChunkIdx(2));
    assert_eq!(row(graph.init_module_assignment(ModuleIdx(4), set(1))), 16);
    assert_eq!(row(graph.init_module_assignment(ModuleIdx(0), EntrySet::from_bits([64]))), 16);
    assert_eq!(row(graph.add_module_to_chunk(ModuleIdx(0), two)), 16);
    assert_eq!(row(graph.register_chunk_graph_index(ChunkIdx(5), one)), 16);
    assert_eq!(row(graph.calc_chunk_dependencies(&[0, 0], &[])), 15);
    assert_eq!(row(graph.would_create_circular_dependency(one, one)), 20);
    assert_eq!(row(graph.is_reachable(one, two)), 16);
    assert_eq!(row(graph.merge_chunk_dependencies(one, one)), 20);
    assert_eq!(row(graph.pass(&[None], &[false])), 15);
    for _ in 0..4 {
        graph.add_module_to_chunk(ModuleIdx(0), one).unwrap();
    }
    assert_eq!(row(graph.add_module_to_chunk(ModuleIdx(0), one)), 19);
}

#[test]
fn merged_chunks_stand_for_their_target() {
    let size = Size { chunks: 4, modules: 4, entries: 4, entry_bits: 1 };
    let initial = InitialChunks { module_starts: &[0, 1, 2], modules: &[0, 1], sets: &[], set_chunks: &[] };
    let chunk = ChunkIdx;
    let mut graph = MergeGraph::new(size, initial, Mode::StandForTarget, &[0; 4]).unwrap();
    graph.init_module_assignment(ModuleIdx(2), set(0)).unwrap();
    graph.init_module_assignment(ModuleIdx(3), set(1)).unwrap();
    graph.calc_chunk_dependencies(&[0, 1, 1, 1, 2], &[1, 2]).unwrap();
    // A direct dependency alone doesn't warn.
    assert_eq!(graph.would_create_circular_dependency(chunk(0), chunk(1)), Ok(false));
    // 2 is merged into 0; then 3, which depends on it, can't be merged into 1, on which 0 depends.
    let decided = graph.pass(&[Some(chunk(0)), Some(chunk(1))], &[false, false]);
    assert_eq!(decided, Ok(vec![Assignment::Merged(chunk(0)), Assignment::Created(chunk(2))]));
    assert_eq!(graph.is_reachable(chunk(3), chunk(1)), Ok(true));
    assert_eq!(graph.is_reachable(chunk(2), chunk(1)), Ok(true));
    // A merged chunk is no source, target, candidate or proposal.
    assert_eq!(row(graph.would_create_circular_dependency(chunk(2), chunk(1))), 28);
    assert_eq!(row(graph.merge_chunk_dependencies(chunk(2), chunk(1))), 28);
    assert_eq!(row(graph.merge_chunk_dependencies(chunk(2), chunk(2))), 20);
    assert_eq!(row(graph.pass(&[None, None], &[false, false])), 15);
    graph.merge_chunk_dependencies(chunk(1), chunk(0)).unwrap();
    assert_eq!(row(graph.pass(&[Some(chunk(0))], &[true])), 28);
    assert_eq!(graph.pass(&[None], &[false]), Ok(vec![Assignment::Created(chunk(3))]));
}

#[test]
fn merges_without_entry_bits() {
    let load = |chunks: u64, sets: &[EntrySet], set_chunks: &[u32]| {
        let size = Size { chunks, entry_bits: 0, ..SIZE };
        let initial = InitialChunks { sets, set_chunks, ..INITIAL };
        MergeGraph::new(size, initial, Mode::Original, &[0; 4]).map_or_else(Refusal::row, |_| 0)
    };
    assert_eq!(load(5, &[], &[]), 0);
    assert_eq!(load(5, &[set(0)], &[0]), 0);
    assert_eq!(load(5, &[], &[0]), 15);
    assert_eq!(load(5, &[set(0); 5], &[0]), 15);
    assert_eq!(load(5, &[set(0)], &[]), 15);
    assert_eq!(load(0, &[], &[0]), 14);
    assert_eq!(load(5, &[], &[9]), 15);
    assert_eq!(load(5, &[set(1)], &[0]), 16);
    assert_eq!(load(5, &[set(0); 2], &[0, 1]), 17);
}

#[test]
fn a_proposal_with_the_number_of_none_is_refused() {
    let mut graph = MergeGraph::new(SIZE, INITIAL, Mode::Original, &[0; 4]).unwrap();
    graph.init_module_assignment(ModuleIdx(2), set(3)).unwrap();
    for number in [NONE, NONE - 1, 2] {
        let proposal = Some(ChunkIdx(number));
        assert_eq!(row(graph.pass(&[proposal], &[false])), 16);
        assert_eq!(row(graph.pass(&[proposal], &[])), 15);
        assert_eq!(row(graph.pass(&[proposal, None], &[false, false])), 15);
    }
    assert_eq!(graph.pass(&[None], &[false]), Ok(vec![Assignment::Created(ChunkIdx(2))]));
}

/// User-defined entries 0 and 1, dynamic entry 2 and common chunk 3, whose entry module isn't read. Module 0 is imported by 1
/// statically and module 2 by 0 dynamically; chunk 0 reaches entry 2.
const ENTRIES: Entries = Entries {
    kinds: &[1, 4, 2, 8],
    entry_modules: &[0, 1, 2, 9],
    module_starts: &[0, 1, 2, 3, 3],
    modules: &[0, 1, 2],
    importer_starts: &[0, 1, 1, 1, 1],
    importers: &[1],
    dynamic_importer_starts: &[0, 0, 0, 1, 1],
    dynamic_importers: &[0],
    reached_starts: &[0, 1, 1, 1, 1],
    reached: &[2],
    side_effects: &[1, 0, 0, 0],
    observable_exports: &[0, 0, 1, 0],
};

#[test]
fn merge_targets() {
    let target = |entries: Entries, bits: u64| entries.merge_target(&[3], set(bits)).unwrap();
    assert_eq!(target(ENTRIES, 0), None);
    assert_eq!(target(ENTRIES, 1), Some(ChunkIdx(0)));
    assert_eq!(target(ENTRIES, 3), Some(ChunkIdx(0)));
    assert_eq!(target(ENTRIES, 7), Some(ChunkIdx(0)));
    assert_eq!(target(ENTRIES, 0xf7), Some(ChunkIdx(0)), "bits past the kinds are passed over");
    assert_eq!(target(ENTRIES, 9), None, "a common chunk");
    assert_eq!(target(ENTRIES, 4), Some(ChunkIdx(2)));
    assert_eq!(target(Entries { importers: &[2], ..ENTRIES }, 3), None, "not imported");
    assert_eq!(target(Entries { reached: &[1], ..ENTRIES }, 7), None, "not reached");
    let both = Entries { reached_starts: &[0, 1, 2, 2, 2], reached: &[2, 2], ..ENTRIES };
    assert_eq!(target(both, 7), None, "side effects would leak");
    assert_eq!(target(Entries { side_effects: &[0; 4], ..both }, 7), Some(ChunkIdx(0)));
    assert_eq!(ENTRIES.merge_target(&[2], set(3)), Ok(Some(ChunkIdx(0))));
    let elsewhere = Entries { dynamic_importers: &[1], ..ENTRIES };
    assert_eq!(elsewhere.merge_target(&[2], set(3)), Ok(None), "an importer elsewhere");
    assert_eq!(elsewhere.merge_target(&[2, 1], set(3)), Ok(Some(ChunkIdx(0))), "an importer that comes along");
    let dynamic = Entries { kinds: &[2, 2, 2, 8], importers: &[2], ..ENTRIES };
    assert_eq!(dynamic.merge_target(&[2], set(5)), Ok(None), "another entry's exports");
    assert_eq!(dynamic.merge_target(&[3], set(5)), Ok(Some(ChunkIdx(0))));
}

#[test]
fn refused_merge_targets() {
    let refused = |entries: Entries, candidate: &[u32]| row(entries.merge_target(candidate, set(7)));
    let many = [0; 4097];
    for entries in [
        Entries { kinds: &many[..1025], ..ENTRIES },
        Entries { observable_exports: &many, ..ENTRIES },
        Entries { kinds: &[1, 4, 2], ..ENTRIES },
        Entries { kinds: &[1, 4, 9, 8], ..ENTRIES },
        Entries { entry_modules: &[0, 1, 2], ..ENTRIES },
        Entries { entry_modules: &[0, 1, 4, 9], ..ENTRIES },
        Entries { module_starts: &[0, 1, 2, 3], ..ENTRIES },
        Entries { module_starts: &[0, 2, 1, 3, 3], ..ENTRIES },
        Entries { modules: &[0, 1, 4], ..ENTRIES },
        Entries { modules: &[0, 1], ..ENTRIES },
        Entries { importer_starts: &[1, 1, 1, 1, 1], ..ENTRIES },
        Entries { importers: &[4], ..ENTRIES },
        Entries { dynamic_importer_starts: &[], ..ENTRIES },
        Entries { dynamic_importers: &[4], ..ENTRIES },
        Entries { reached_starts: &[0, 1, 1, 1, 0], ..ENTRIES },
        Entries { reached: &[4], ..ENTRIES },
        Entries { side_effects: &[0; 5], ..ENTRIES },
        Entries { observable_exports: &[0; 3], ..ENTRIES },
    ] {
        assert_eq!(refused(entries, &[3]), 23);
    }
    assert_eq!(refused(ENTRIES, &[3, 4]), 23);
    assert_eq!(refused(ENTRIES, &[u32::MAX]), 23);
}

#[test]
fn merge_targets_by_classes() {
    let built_in = [0, 1, 0, 1, 1, 1, 1, 1];
    let emitted_dynamic = [0, 1, 0, 1, 0, 1, 0, 1];
    for bits in 0..16 {
        assert_eq!(ENTRIES.merge_target_by_classes(&[3], set(bits), &built_in), ENTRIES.merge_target(&[3], set(bits)));
    }
    // Chunk 1 is emitted: now a dynamic entry, which chunk 0 doesn't reach.
    assert_eq!(ENTRIES.merge_target_by_classes(&[3], set(3), &emitted_dynamic), Ok(None));
    let by = |classes: &[u32]| row(ENTRIES.merge_target_by_classes(&[3], set(3), classes));
    assert_eq!(by(&built_in[..7]), 25);
    assert_eq!(by(&[0, 1, 0, 1, 1, 1, 1, 1, 1]), 25);
    assert_eq!(by(&[]), 25);
    assert_eq!(by(&[2, 1, 0, 1, 1, 1, 1, 1]), 25);
    assert_eq!(by(&[0, 0, 0, 1, 1, 1, 1, 1]), 25);
    assert_eq!(by(&[0, 1, 0, 1, 1, 1, 1, 0]), 25);
    assert_eq!(row(ENTRIES.merge_target_by_classes(&[4], set(3), &[])), 23, "23 comes first");
}
