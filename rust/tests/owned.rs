//! Graphs that own their load, sets of entry bits, chunks, edges and pictures.
use nidskalm::{
    Chunk, ChunkIdx, Edge, EntrySet, InitialChunks, Load, MergeGraph, Mode, ModuleIdx, MoveGraph, OwnedLoad, Refusal,
    Size, NONE,
};
use std::collections::BTreeSet;

fn set(bits: u64) -> EntrySet {
    EntrySet::from(bits)
}

/// Atoms 1 and 2 depend on atom 0, 2 twice, and host bits 0 and 1.
fn lists() -> OwnedLoad {
    OwnedLoad::from_lists([vec![], vec![0], vec![0, 0]], [Some(1), Some(2)])
}

const SETS: [u64; 3] = [3, 1, 2];

fn owned() -> MoveGraph<'static> {
    MoveGraph::owning(lists(), 8, &SETS.map(set)).unwrap()
}

/// Whether a move is accepted.
fn moved(graph: &mut MoveGraph, atom: u32, target: u64) -> Result<bool, Refusal> {
    graph.try_move(atom, set(target)).map(|moved| moved.accepted)
}

fn row<T: std::fmt::Debug>(result: Result<T, Refusal>) -> u64 {
    result.unwrap_err().row()
}

#[test]
fn an_owned_load_is_the_borrowed_one() {
    let load = Load { starts: &[0, 0, 1, 3], dependencies: &[0, 0, 0], hosts: &[1, 2], fixed: &[0, 0, 0] };
    assert_eq!(OwnedLoad::from(load), lists());
    assert_eq!(OwnedLoad::from(lists().as_load()), lists());
    let mut borrowed = MoveGraph::new(load, 8, &SETS.map(set)).unwrap();
    let mut owned = owned();
    for (atom, target) in [(0, 1), (1, 3), (1, 2), (0, 3), (2, 0), (5, 1), (2, 4)] {
        assert_eq!(moved(&mut owned, atom, target), moved(&mut borrowed, atom, target), "atom {atom} to {target}");
        assert_eq!(owned.edges().unwrap().as_slice(), borrowed.edges().unwrap().as_slice());
        assert_eq!(owned.is_acyclic(), borrowed.is_acyclic());
    }
}

/// A struct that outlives the place where its graph was loaded.
#[test]
fn a_service_keeps_its_graph() {
    struct Service {
        plan: MoveGraph<'static>,
    }
    let mut service = std::thread::spawn(|| Service { plan: owned() }).join().unwrap();
    assert_eq!(moved(&mut service.plan, 0, 1), Ok(true));
    assert_eq!(service.plan.load().atoms(), 3);
    let before = service.plan.clone();
    assert_eq!(moved(&mut service.plan, 0, 2), Ok(true));
    assert_eq!(before.atom_set(0), Ok(set(1)));
}

/// A merge graph that owns its side effects answers as one that borrows them.
#[test]
fn merge_graphs_that_own_their_side_effects() {
    let size = Size { chunks: 3, modules: 3, entries: 4, entry_bits: 2 };
    let initial = InitialChunks { module_starts: &[0, 1, 2], modules: &[0, 1], sets: &[], set_chunks: &[] };
    let effects = [0, 7, 1];
    let borrowed = MergeGraph::new(size, initial, Mode::Original, &effects).unwrap();
    let owned: MergeGraph<'static> = MergeGraph::owning(size, initial, Mode::Original, effects.to_vec()).unwrap();
    for mut graph in [borrowed, owned] {
        assert_eq!(graph.init_module_assignment(ModuleIdx(2), set(3)), Ok(()));
        assert_eq!(graph.add_module_to_chunk(ModuleIdx(2), ChunkIdx(0)), Ok(()));
        assert_eq!(row(graph.add_module_to_chunk(ModuleIdx(2), ChunkIdx(1))), 19);
        assert_eq!(graph.pass(&[None], &[false]).map(|decided| decided.len()), Ok(1));
    }
    assert_eq!(row(MergeGraph::owning(size, initial, Mode::Original, vec![0; 2])), 15);
    assert_eq!(row(MergeGraph::owning(Size { chunks: 0, ..size }, initial, Mode::Original, vec![0; 3])), 14);
}

#[test]
fn nested_lists_that_do_not_fit_are_refused() {
    let load = |dependencies: Vec<Vec<u32>>, hosts: Vec<Option<u32>>, n: u64, sets: &[u64]| {
        let sets: Vec<EntrySet> = sets.iter().copied().map(set).collect();
        MoveGraph::owning(OwnedLoad::from_lists(dependencies, hosts), n, &sets).map_or_else(Refusal::row, |_| 0)
    };
    assert_eq!(load(vec![], vec![], 1, &[]), 0);
    assert_eq!(load(vec![vec![]; 513], vec![], 600, &[]), 1);
    assert_eq!(load(vec![vec![1; 8193], vec![]], vec![None], 3, &[0, 1]), 1);
    assert_eq!(load(vec![vec![]], vec![None], 1, &[1]), 1);
    assert_eq!(load(vec![vec![]], vec![None], 2, &[]), 2);
    assert_eq!(load(vec![vec![0]], vec![None], 2, &[1]), 5);
    assert_eq!(load(vec![vec![1]], vec![None], 2, &[1]), 5);
    assert_eq!(load(vec![vec![]], vec![Some(1)], 2, &[1]), 6);
    assert_eq!(load(vec![vec![]], vec![Some(NONE)], 2, &[1]), 6, "the number of none is no host");
    assert_eq!(load(vec![vec![]], vec![None], 2, &[2]), 7);
    assert_eq!(load(vec![vec![], vec![]], vec![None], 3, &[1, 1]), 8);
}

#[test]
fn marks_of_owned_loads() {
    let load = |marks: &[bool]| MoveGraph::owning(lists().with_fixed(marks.iter().copied()), 8, &SETS.map(set));
    let mut graph = load(&[true, false, false]).unwrap();
    assert_eq!(row(graph.try_move(0, set(1))), 24);
    assert_eq!(moved(&mut graph, 1, 2), Ok(true));
    assert_eq!(row(load(&[true, false])), 2);
    assert_eq!(row(load(&[false; 4])), 2);
}

#[test]
fn acyclic_by_loading_and_moves() {
    let load = OwnedLoad::from_lists([vec![1], vec![0], vec![]], [None, None, None]);
    let mut graph = MoveGraph::owning(load, 8, &[set(1), set(2), set(4)]).unwrap();
    assert!(!graph.is_acyclic());
    assert_eq!(moved(&mut graph, 2, 1), Ok(false), "outside the component");
    assert_eq!(row(graph.try_move(2, set(4))), 12);
    assert!(!graph.is_acyclic());
    assert_eq!(moved(&mut graph, 0, 2), Ok(true));
    assert!(graph.is_acyclic() && graph.cyclic_at_loading());
    assert_eq!(moved(&mut graph, 0, 4), Ok(false));
    assert!(graph.is_acyclic());
}

#[test]
fn chunks_are_the_occupied_sets() {
    let mut graph = owned();
    let atoms = |graph: &MoveGraph| -> Vec<(EntrySet, Vec<u32>)> {
        graph.chunks().unwrap().into_iter().map(|Chunk { set, atoms }| (set, atoms)).collect()
    };
    assert_eq!(atoms(&graph), [(set(1), vec![1]), (set(2), vec![2]), (set(3), vec![0])]);
    assert_eq!(moved(&mut graph, 1, 2), Ok(true));
    assert_eq!(atoms(&graph), [(set(2), vec![1, 2]), (set(3), vec![0])]);
    for chunk in graph.chunks().unwrap() {
        assert_eq!(graph.atom_count(chunk.set), Ok(chunk.atoms.len() as u64));
    }
    let empty = MoveGraph::owning(OwnedLoad::from_lists([[]; 0], []), 1, &[]).unwrap();
    assert_eq!(empty.chunks(), Ok(vec![]));
    assert_eq!(empty.edges().unwrap().len(), 0);
}

#[test]
fn edges_from_both_ends() {
    let graph = owned();
    let edge = |from: u64, multiplicity: u64| Edge { from: set(from), to: set(3), multiplicity };
    let mut edges = graph.edges().unwrap();
    assert_eq!(edges.len() as u64, graph.edge_count().unwrap());
    assert_eq!(edges.as_slice(), [edge(1, 1), edge(2, 2)]);
    assert_eq!((edges.next_back(), edges.len()), (Some(edge(2, 2)), 1));
    assert_eq!((edges.next(), edges.next(), edges.next_back()), (Some(edge(1, 1)), None, None));
}

/// Each call of a set beside the same with a plain set of numbers.
#[test]
fn entry_sets_are_sets() {
    let samples =
        [vec![], vec![0], vec![255], vec![63, 64], vec![0, 1, 63, 127, 128, 191, 192, 255], (0..256).collect()];
    for mine in &samples {
        let (bits, plain): (EntrySet, BTreeSet<u32>) = (mine.iter().copied().collect(), mine.iter().copied().collect());
        assert!(bits.into_iter().eq(plain.iter().copied()) && (&bits).into_iter().len() == plain.len());
        assert_eq!((bits.len(), bits.is_empty()), (plain.len(), plain.is_empty()));
        assert!((0..300).chain([u32::MAX]).all(|bit| bits.contains(bit) == plain.contains(&bit)));
        assert_eq!(bits.to_string(), format!("{plain:?}"));
        for other in &samples {
            let (theirs, other): (EntrySet, BTreeSet<u32>) =
                (other.iter().copied().collect(), other.iter().copied().collect());
            let (mut joined, mut cut) = (bits, bits);
            joined |= theirs;
            cut &= theirs;
            assert_eq!((joined, cut), (bits | theirs, bits & theirs));
            assert!(
                joined.bits().eq(plain.union(&other).copied()) && cut.bits().eq(plain.intersection(&other).copied())
            );
        }
    }
    assert_eq!(format!("[{:>8}]", set(9)), "[  {0, 3}]");
}

#[test]
#[should_panic(expected = "entry bit 256 is above 255")]
fn no_set_has_bit_256() {
    let _: EntrySet = [256].into_iter().collect();
}

#[test]
fn pictures_quote_names() {
    let graph = owned();
    let dot = graph.to_dot(&["a \"b\"", "c\\d"]).unwrap();
    let expected = r#"digraph chunks {
    node [shape=box];
    "{0}" [label="c\\d\n{0}"];
    "{1}" [label="atom 2\n{1}"];
    "{0, 1}" [label="a \"b\"\n{0, 1}"];
    "{0}" -> "{0, 1}";
    "{1}" -> "{0, 1}" [label="2"];
}
"#;
    assert_eq!(dot, expected);
}
