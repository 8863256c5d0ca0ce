//! The load that the program `chain` writes, through the library: up to 512 atoms, where the program `moves` stops at 48.
use nidskalm::{Edge, EntrySet, Load, MoveGraph, NONE};

/// How many other sets a set reaches.
fn reach(edges: &[Edge], from: EntrySet) -> usize {
    let mut found = vec![from];
    let mut next = 0;
    while let Some(&set) = found.get(next) {
        for edge in edges.iter().filter(|edge| edge.from == set) {
            if !found.contains(&edge.to) {
                found.push(edge.to);
            }
        }
        next += 1;
    }
    found.len() - 1
}

#[test]
fn the_first_atom_of_a_chain_reaches_all_others() {
    for n in [1, 2, 48, 49, 512] {
        let starts: Vec<u32> = (0..=n).map(|atom| atom.min(n - 1)).collect();
        let dependencies: Vec<u32> = (1..n).collect();
        let sets: Vec<EntrySet> = (1..=u64::from(n)).map(EntrySet::from).collect();
        let fixed = vec![0; n as usize];
        let load = Load { starts: &starts, dependencies: &dependencies, hosts: &[NONE; 16], fixed: &fixed };
        let target = EntrySet::from(u64::from(n) + 1);
        let mut graph = MoveGraph::new(load, u64::from(n) + 1, &sets).unwrap();
        assert!(!graph.cyclic_at_loading());
        let moved = graph.try_move(0, target).unwrap();
        assert!(moved.accepted);
        assert_eq!(moved.reached, u64::from(n) - 1);
        assert_eq!(reach(graph.edges().unwrap().as_slice(), target), n as usize - 1);
    }
}
